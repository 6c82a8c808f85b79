//! Random machines with programs in them.

use second::random::Random;
use second::vectors::{self, Start};
use second::{Input, PAGE, REGISTER_WORDS, Reg, STATE_WORDS, TABLE_WORDS, device, next_word};

/// Instruction words of every kind: those that the generator of one-step cases has fetched.
pub fn pool(random: &mut Random) -> Vec<u16> {
    let mut words = Vec::new();
    while words.len() < 4096 {
        let mut start = vectors::start(random);
        let word = next_word(&start.state, &mut start.memory, &start.tables);
        words.extend(word);
    }
    words
}

/// An operand, often at the end of a range.
pub fn operand(random: &mut Random) -> u16 {
    const ENDS: [u16; 12] = [
        0, 1, 2, 0o377, 0o400, 0o77777, 0o100000, 0o100001, 0o177776, 0o177777, 181, 182,
    ];
    match random.below(4) {
        0 => random.word(),
        _ => random.pick(&ENDS),
    }
}

/// A start whose memory is a program, and whose page tables mostly let it go on.
pub fn start(random: &mut Random, pool: &[u16]) -> Start {
    let mut start = vectors::start(random);
    for word in &mut start.memory {
        if *word == 0 {
            *word = match random.below(4) {
                0 => operand(random),
                _ => random.pick(pool),
            };
        }
    }
    if !random.one_in(4) {
        more_pages(random, &mut start);
        // The other mode's form in words that are left, for SEX and REX.
        start.state.extended ^= 1;
        more_pages(random, &mut start);
        start.state.extended ^= 1;
    }
    match random.below(8) {
        0 | 1 => window(random, &mut start),
        2 | 3 => physical(random, &mut start),
        4 | 5 => console(random, &mut start),
        _ => {}
    }
    for file in &mut start.state.files {
        for register in &mut file[1..] {
            if *register == 0 && random.one_in(2) {
                *register = operand(random);
            }
        }
        if random.one_in(2) {
            file[0] = random.word() & 0o377;
        }
    }
    start
}

/// Entries for pages that have none: most permit all to the running ring, some less.
fn more_pages(random: &mut Random, start: &mut Start) {
    let pages = (start.memory.len() / PAGE) as u64;
    let ring = start.state.pcr[usize::from(start.state.level)] & 3;
    for slot in 0..TABLE_WORDS / 2 {
        if start.tables[slot << start.state.extended] != 0 || random.one_in(16) {
            continue;
        }
        let permits = match random.below(8) {
            0 => random.below(8) as u16,
            _ => 7,
        };
        let of_ring = match random.below(8) {
            0 => random.below(4) as u16,
            _ => ring,
        };
        let word = permits << 13 | of_ring << 9;
        vectors::set_entry(start, slot, word, random.below(pages) as u16);
    }
}

/// The running level on ring 3, with B and X in the window: its stores change page tables, those of its own code among
/// them. Half of all entries are of ring 3, so that it stays there.
fn window(random: &mut Random, start: &mut Start) {
    let level = usize::from(start.state.level);
    start.state.pcr[level] |= 3;
    let window = vectors::window(&start.state);
    for register in [Reg::B, Reg::X] {
        start.state.files[level][register as usize] = vectors::in_window(random, window);
    }
    for entry in start.tables.iter_mut().step_by(1 << start.state.extended) {
        if random.one_in(2) {
            *entry |= 3 << 9;
        }
    }
}

/// The running level on ring 2 or 3, with T and X on a physical address, the entry of its own code among them, and some
/// of the seven that go by it ahead.
fn physical(random: &mut Random, start: &mut Start) {
    let level = usize::from(start.state.level);
    start.state.pcr[level] |= 2;
    let pcr = start.state.pcr[level];
    if random.one_in(16) {
        // A bank, and a page of the next.
        start.memory.resize(65 * PAGE, 0);
    }
    vectors::physical_address(random, start, 0);
    let p = start.state.files[level][Reg::P as usize];
    if random.one_in(2) {
        let slot = (pcr >> 9 & 3) << 6 | p >> 10;
        let own = vectors::window(&start.state) + (slot << start.state.extended);
        start.state.files[level][Reg::T as usize] = 0;
        start.state.files[level][Reg::X as usize] = own + random.below(2) as u16;
    }
    for _ in 0..8 {
        let at = random.below(start.memory.len() as u64) as usize / PAGE * PAGE;
        let further = usize::from(p) + 1 + random.below(6) as usize;
        start.memory[at + further % PAGE] = 0o143300 | random.word() & 0o77;
    }
}

/// The running level on ring 2 or 3, with T naming a device register and words for the devices ahead.
fn console(random: &mut Random, start: &mut Start) {
    let level = usize::from(start.state.level);
    start.state.pcr[level] |= 2;
    start.state.files[level][Reg::T as usize] = random.pick(&device::ALL);
    let p = start.state.files[level][Reg::P as usize];
    for _ in 0..16 {
        let at = random.below(start.memory.len() as u64) as usize / PAGE * PAGE;
        let further = usize::from(p) + random.below(8) as usize;
        start.memory[at + further % PAGE] = match random.below(8) {
            0 => 0o150415,
            1 | 2 => random.pick(&[0o143604, 0o143611, 0o143622, 0o143643]),
            _ => 0o164000 | random.pick(&device::ALL),
        };
    }
}

/// An input of any kind, one in eight a raise that may be refused.
pub fn input(random: &mut Random) -> Input {
    match random.below(8) {
        0 => Input::Raise(random.below(17) as u16),
        1..=3 => Input::Tick,
        4 | 5 => Input::ReadOut,
        _ => Input::Typed(random.word() as u8),
    }
}

/// A list of inputs for a run of so many steps, mostly at rising steps and within them.
pub fn inputs(random: &mut Random, steps: u64) -> Vec<(u64, Input)> {
    let mut inputs: Vec<_> = (0..random.below(6))
        .map(|_| (random.below(steps + 2), input(random)))
        .collect();
    if !random.one_in(4) {
        inputs.sort_by_key(|(at, _)| *at);
    }
    inputs
}

/// A state that may be out of range.
pub fn damage(random: &mut Random, start: &mut Start) {
    let mut words = start.state.to_words();
    let at = match random.below(3) {
        0 => 8 * random.below(16) as usize,
        _ => REGISTER_WORDS + random.below((STATE_WORDS - REGISTER_WORDS) as u64) as usize,
    };
    words[at] = match random.below(2) {
        0 => random.word(),
        _ => 1 << random.below(16),
    };
    start.state = second::State::from_words(&words);
}
