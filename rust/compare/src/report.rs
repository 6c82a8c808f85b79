//! The first difference: as small an image as still shows it, the instruction, and the answers or words that differ; of
//! a run the answer has its references.

use compare::engines::{Answers, Both};
use second::vectors::Start;
use second::{FIRST_DEVICE, Input, PAGE, REGISTER_WORDS, State, disassemble, next_word};

/// Steps of both from here: a call of the step or of the lent step, a run of so many, or one with device input.
pub enum Taken {
    Step,
    Lent,
    Run(u64),
    WithInput(u64, Vec<(u64, Input)>),
}

impl Taken {
    /// Takes them in both, and tells how many they were.
    pub fn by(&self, both: &mut Both) -> Result<u64, Answers> {
        match self {
            Taken::Step => both.step().map(|()| 1),
            Taken::Lent => both.step_lent().map(|()| 1),
            Taken::Run(steps) => both.run(*steps, false),
            Taken::WithInput(steps, inputs) => both.run_with_input(*steps, inputs),
        }
    }
}

/// Whether these steps from here differ.
pub fn differs(start: &Start, taken: &Taken) -> bool {
    let mut both = Both::new(start);
    taken.by(&mut both).is_err() || !both.equal()
}

/// Words set to 0, in blocks and then one by one, as long as the predicate holds.
pub fn shrink(start: &mut Start, holds: impl Fn(&Start) -> bool) {
    let mut words = start.state.to_words().to_vec();
    let mut block = PAGE;
    while block > 0 {
        zero_blocks(&mut start.memory.clone(), block, |memory| {
            let smaller = Start {
                memory: memory.to_vec(),
                ..start.clone()
            };
            let ok = holds(&smaller);
            if ok {
                *start = smaller;
            }
            ok
        });
        zero_blocks(&mut start.tables.clone(), block, |tables| {
            let smaller = Start {
                tables: tables.to_vec(),
                ..start.clone()
            };
            let ok = holds(&smaller);
            if ok {
                *start = smaller;
            }
            ok
        });
        zero_blocks(&mut words, block, |words| {
            let smaller = Start {
                state: State::from_words(words.try_into().unwrap()),
                ..start.clone()
            };
            let ok = holds(&smaller);
            if ok {
                *start = smaller;
            }
            ok
        });
        block /= 4;
    }
}

/// Each block of `words` that is not 0 already becomes 0 if `keep` says so, else stays.
fn zero_blocks(words: &mut [u16], block: usize, mut keep: impl FnMut(&[u16]) -> bool) {
    for at in (0..words.len()).step_by(block) {
        let end = (at + block).min(words.len());
        let old = words[at..end].to_vec();
        if old.iter().all(|word| *word == 0) {
            continue;
        }
        words[at..end].fill(0);
        if !keep(words) {
            words[at..end].copy_from_slice(&old);
        }
    }
}

/// An image that names the words that are not 0, in at most 32 entries.
fn image(start: &Start) -> Vec<u16> {
    let words = start.state.to_words();
    let kinds: [&[u16]; 5] = [
        &start.memory,
        &words[..REGISTER_WORDS],
        &words[REGISTER_WORDS..FIRST_DEVICE],
        &start.tables,
        &words[FIRST_DEVICE..],
    ];
    let mut gap = 0;
    loop {
        let mut entries: Vec<(u16, usize, usize)> = Vec::new();
        for (kind, words) in (1..).zip(kinds) {
            for at in (0..words.len()).filter(|at| words[*at] != 0) {
                match entries.last_mut() {
                    Some((last, _, end)) if *last == kind && at <= *end + gap => *end = at + 1,
                    _ => entries.push((kind, at, at + 1)),
                }
            }
        }
        if entries.len() <= 32 {
            let mut image = vec![entries.len() as u16];
            for (kind, at, end) in &entries {
                let len = end - at;
                image.extend([
                    *kind,
                    (at >> 16) as u16,
                    *at as u16,
                    (len >> 16) as u16,
                    len as u16,
                ]);
            }
            for (kind, at, end) in &entries {
                image.extend(&kinds[usize::from(*kind) - 1][*at..*end]);
            }
            return image;
        }
        gap = 2 * gap + 1;
    }
}

/// Prints a start from which these steps differ.
pub fn print(start: &Start, taken: &Taken) {
    let mut start = start.clone();
    shrink(&mut start, |smaller| differs(smaller, taken));
    match taken {
        Taken::Step => {}
        Taken::Lent => println!("in a lent step"),
        Taken::Run(steps) => println!("in a run of {steps} steps"),
        Taken::WithInput(steps, inputs) => {
            println!("in a run of {steps} steps with the input {inputs:?}")
        }
    }
    println!(
        "difference, with {} pages, from the image (octal words)",
        start.memory.len() / PAGE
    );
    for line in image(&start).chunks(10) {
        let words: Vec<String> = line.iter().map(|word| format!("{word:06o}")).collect();
        println!("  {}", words.join(" "));
    }
    let p = start.state.files[usize::from(start.state.level)][2];
    match next_word(&start.state, &mut start.memory.clone(), &start.tables) {
        Some(word) => println!(
            "level {} at {p:06o}: {word:06o} {}",
            start.state.level,
            disassemble(word)
        ),
        None => println!("level {} at {p:06o}: no fetch", start.state.level),
    }
    let mut both = Both::new(&start);
    if let Err((ours, theirs)) = taken.by(&mut both) {
        println!("answer: proved {ours}, second {theirs}");
    }
    for line in both.differing() {
        println!("{line}");
    }
}

#[cfg(test)]
mod tests {
    use super::*;
    use second::random::Random;
    use second::vectors;

    #[test]
    fn shrinks_to_what_matters() {
        let mut start = vectors::start(&mut Random::new(7));
        start.memory[77] = 5;
        start.state.files[3][5] = 9;
        start.state.devices.length = 3;
        shrink(&mut start, |s| {
            s.memory[77] == 5 && s.state.files[3][5] == 9 && s.state.devices.length == 3
        });
        assert_eq!(start.memory.iter().filter(|w| **w != 0).count(), 1);
        assert!(start.tables.iter().all(|w| *w == 0));
        let entries = [3, 1, 0, 77, 0, 1, 2, 0, 29, 0, 1, 5, 0, 7, 0, 1];
        assert_eq!(image(&start), [&entries[..], &[5, 9, 3]].concat());
    }
}
