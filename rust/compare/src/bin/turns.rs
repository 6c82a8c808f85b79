//! Two programs `turn` on random byte streams, valid and damaged.

use second::random::Random;
use second::vectors::{image, instruction, older_image, start};
use second::{CONTROL_WORDS, DEVICE_WORDS, FIRST_DEVICE, REGISTER_WORDS, TABLE_WORDS, control};
use std::collections::BTreeMap;
use std::ffi::OsStr;
use std::io::{self, Write};
use std::process::{Command, ExitCode, Stdio};

const USAGE: &str = "\
usage: turns OURS THEIRS SEED COUNT

Runs two programs turn on random byte streams, valid and damaged, and compares what they print to
the last byte. The last line is 'N streams compared, M differences'; streams that differ are kept in
the folder that it is run in.";

const MAX_BYTES: usize = 65_536;

/// The image of a random machine, with instructions about its memory.
fn machine(random: &mut Random) -> Vec<u16> {
    let mut start = start(random);
    let words = start.memory.len() as u64;
    for _ in 0..random.below(400) {
        start.memory[random.below(words) as usize] = instruction(random);
    }
    if random.one_in(4) {
        start.state.stopped = 0;
        start.state.paging_on = 0;
        start.memory.fill_with(|| instruction(random));
    }
    if random.one_in(4) {
        let words = random.pick(&[control::PGS_HELD, control::EXTENDED, CONTROL_WORDS]);
        older_image(&start, words)
    } else {
        image(&start)
    }
}

/// Control or devices' words of a random machine, or one word less or more than there are.
fn state_words(random: &mut Random, kind: u16) -> Vec<u16> {
    let all = start(random).state.to_words();
    let mut words = match kind {
        3 => all[REGISTER_WORDS..FIRST_DEVICE].to_vec(),
        _ => all[FIRST_DEVICE..].to_vec(),
    };
    let length = words.len() + 1 - random.below(3) as usize;
    words.resize(length, 0);
    words
}

/// Entries of any kind and place, mostly within their targets, and bodies.
fn pieces(random: &mut Random) -> Vec<u16> {
    let count = match random.below(12) {
        0 => 31 + random.below(4),
        _ => random.below(6),
    };
    let mut image = vec![count as u16];
    let mut bodies = Vec::new();
    let form = random.below(3);
    for _ in 0..count {
        let kind = match random.below(20) {
            0 => random.pick(&[0, 6, 0o177777]),
            _ => random.pick(&[1, 1, 1, 2, 3, 4, 5]),
        };
        if [3, 5].contains(&kind) && random.one_in(2) {
            let words = state_words(random, kind);
            image.extend([kind, 0, 0, 0, words.len() as u16]);
            bodies.extend(words);
            continue;
        }
        let size = match kind {
            2 => REGISTER_WORDS,
            3 => CONTROL_WORDS,
            4 => TABLE_WORDS,
            5 => DEVICE_WORDS,
            _ => 16_384,
        } as u64;
        let start = random.below(size + 1);
        let length = match random.below(12) {
            0 => size - start,
            1 => size - start + 1,
            _ => random.below(24).min(size - start),
        };
        let high = [u64::from(random.one_in(40)), u64::from(random.one_in(40))];
        image.extend([
            kind,
            high[0] as u16,
            start as u16,
            high[1] as u16,
            length as u16,
        ]);
        bodies.extend((0..length).map(|_| match form {
            0 => 0,
            1 => instruction(random),
            _ => random.word() & random.word() & random.word(),
        }));
    }
    image.extend(bodies);
    image
}

/// A few words of an image changed, mostly in its list of contents.
fn damage(random: &mut Random, image: &mut [u16]) {
    for _ in 0..1 + random.below(3) {
        // The list of contents that the writer makes, or all.
        let reach = if random.one_in(2) { 26 } else { image.len() };
        let at = random.below(reach.min(image.len()) as u64) as usize;
        match random.below(4) {
            0 => image[at] ^= 1 << random.below(16),
            1 => image[at] = random.word(),
            2 => image[at] = random.pick(&[0, 1, 32, 33, 0o77777, 0o100000, 0o177777]),
            _ => image[at] = image[at].wrapping_add(1),
        }
    }
}

/// A stream: an image as it is or damaged, cut short, made longer or odd.
fn stream(random: &mut Random) -> Vec<u8> {
    let mut image = match random.below(8) {
        0 => (0..random.below(60)).map(|_| random.word()).collect(),
        1..=3 => pieces(random),
        _ => machine(random),
    };
    if !image.is_empty() && random.one_in(3) {
        damage(random, &mut image);
    }
    let mut bytes: Vec<u8> = image.iter().flat_map(|w| w.to_be_bytes()).collect();
    match random.below(16) {
        0 => bytes.truncate(random.below(bytes.len() as u64 + 1) as usize),
        1 => bytes.push(random.word() as u8),
        2 => bytes.extend([0, 0]),
        3 => bytes.resize(MAX_BYTES - 2 + random.below(6) as usize, 0),
        4 => bytes.resize(MAX_BYTES + random.below(200_000) as usize, 1),
        5 => bytes.truncate(random.below(13) as usize),
        _ => {}
    }
    bytes
}

/// What a program prints of a stream that comes in pieces.
fn printed(program: &OsStr, bytes: &[u8], piece: usize) -> io::Result<Vec<u8>> {
    let mut child = Command::new(program)
        .stdin(Stdio::piped())
        .stdout(Stdio::piped())
        .spawn()?;
    let mut input = child.stdin.take().expect("its input is piped");
    for part in bytes.chunks(piece) {
        // A program that has seen enough may leave the rest.
        if input.write_all(part).is_err() {
            break;
        }
        std::thread::yield_now();
    }
    drop(input);
    let output = child.wait_with_output()?;
    if !output.status.success() {
        let program = program.to_string_lossy();
        return Err(io::Error::other(format!("{program}: {}", output.status)));
    }
    Ok(output.stdout)
}

fn run(programs: [&OsStr; 2], seed: u64, count: u64) -> io::Result<u64> {
    let mut random = Random::new(seed);
    let mut differences = 0;
    let mut answers = BTreeMap::new();
    for number in 0..count {
        let bytes = stream(&mut random);
        let piece = random.pick(&[1 << 20, 1 << 20, 4096, 1000, 333]);
        let ours = printed(programs[0], &bytes, piece)?;
        let theirs = printed(programs[1], &bytes, 1 << 20)?;
        if ours != theirs {
            differences += 1;
            let name = format!("turns-{seed}-{number}.image");
            std::fs::write(&name, &bytes)?;
            println!(
                "stream {number}, kept as {name}:\n{}{}",
                String::from_utf8_lossy(&ours),
                String::from_utf8_lossy(&theirs)
            );
        }
        if (number + 1) % 500 == 0 {
            println!("{} streams", number + 1);
        }
        let first = String::from_utf8_lossy(&ours);
        let first = first.lines().next().unwrap_or_default().to_string();
        *answers.entry(first).or_insert(0) += 1;
    }
    for (answer, times) in answers {
        println!("{answer}: {times}");
    }
    Ok(differences)
}

fn main() -> ExitCode {
    cli::run(USAGE, |mut args| {
        let (ours, theirs) = (args.word("OURS")?, args.word("THEIRS")?);
        let seed = args.number("SEED", 0..=u64::MAX)?;
        let count = args.number("COUNT", 0..=u64::MAX)?;
        args.end()?;
        let differences = run([&ours, &theirs], seed, count)?;
        println!("{count} streams compared, {differences} differences");
        if differences > 0 {
            return Err("the programs differ".into());
        }
        Ok(())
    })
}
