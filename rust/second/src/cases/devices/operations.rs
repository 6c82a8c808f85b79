//! Device input between steps, refusals, and images with kind 5.

use super::super::images::{self, image};
use super::*;
use crate::PAGE;
use crate::image::IMAGE_EXTRA;
use crate::state::{FIRST_DEVICE, State};

/// What is handed in alone, refusals, images and writes.
pub fn operations() -> Vec<Case> {
    let mut cases = Vec::new();
    handed_in(&mut cases);
    characters(&mut cases);
    raises(&mut cases);
    sizes(&mut cases);
    states(&mut cases);
    other_words(&mut cases);
    loads(&mut cases);
    cleared(&mut cases);
    ranges(&mut cases);
    damaged(&mut cases);
    writes(&mut cases);
    cases
}

fn lent(extended: bool, label: &'static str, operation: Operation) -> Case {
    Case::in_mode(extended, label, operation, MEMORY, TABLE_WORDS)
}

/// What a device can be handed: a tick, a character, a read out.
fn inputs() -> [Operation; 3] {
    [Operation::Tick, Operation::Typed(0o101), Operation::ReadOut]
}

/// Each device in each of its states, the others on or off; stopped, with
/// interrupts off, and running.
fn handed_in(cases: &mut Vec<Case>) {
    for (flags, operation) in FLAGS.into_iter().zip(inputs()) {
        for state in 0..8 {
            for others in [[0; DEVICE_WORDS], FULL] {
                for turn in 0..3 {
                    let words = in_state(others, flags, state);
                    let case = lent((state + turn) % 2 == 1, "input", operation.clone());
                    cases.push(case.devices(words).with(|machine| {
                        machine.stopped = (turn == 0).into();
                        machine.interrupts_on = (turn == 1).into();
                        machine.pid = [8, 0o132000, 0o1777][usize::from(turn)];
                    }));
                }
            }
        }
    }
}

/// Characters typed and read out, whatever the length.
fn characters(cases: &mut Vec<Case>) {
    for (turn, character) in [0, 1, 0o101, 0o177, 0o200, 0o377].into_iter().enumerate() {
        for length in 0..4 {
            let mut words = [0; DEVICE_WORDS];
            words[LENGTH] = length;
            words[INPUT_CHARACTER] = 0o132;
            words[FLAGS[1][0]] = (turn % 2) as u16;
            let typed = Operation::Typed(character as u8);
            cases.push(lent(false, "character", typed).devices(words));
            words[OUTPUT_WAITS] = 1;
            words[OUTPUT_CHARACTER] = character;
            words[FLAGS[2][0]] = (turn % 2) as u16;
            cases.push(lent(false, "character", Operation::ReadOut).devices(words));
        }
    }
    // None waits, whatever the character was.
    for character in [0, 0o101, 0o377] {
        let mut words = FULL;
        words[OUTPUT_WAITS] = 0;
        words[OUTPUT_ASKS] = 0;
        words[OUTPUT_CHARACTER] = character;
        cases.push(lent(false, "character", Operation::ReadOut).devices(words));
    }
}

/// A raise sets no flip-flop.
fn raises(cases: &mut Vec<Case>) {
    for level in [9, 10, 11, 12, 13, 14, 15, 16, 256, 257, 512, 577] {
        for words in [[0; DEVICE_WORDS], SOME, FULL] {
            let case = lent(false, "raise", Operation::Raise(level));
            cases.push(case.devices(words));
        }
    }
}

/// The operations of this card, which a state or a size may refuse.
fn new_operations() -> [Operation; 6] {
    let [tick, typed, read_out] = inputs();
    [
        tick,
        typed,
        read_out,
        Operation::WithInput(2, vec![(0, runs::TICK), (1, runs::READ_OUT)]),
        Operation::WithInput(0, vec![]),
        Operation::WithInput(3, vec![(0, runs::typed(b'A')), (9, 3)]),
    ]
}

/// 1 before 2 and before 11.
fn sizes(cases: &mut Vec<Case>) {
    let sizes = [
        (0, 512),
        (1023, 512),
        (1025, 512),
        (2048, 512),
        (4096, 0),
        (4096, 256),
        (4096, 511),
        (4096, 513),
    ];
    for (memory, tables) in sizes {
        for operation in new_operations() {
            let case = Case::sized("size", operation, memory, tables).devices(FULL);
            cases.push(case.clone());
            cases.push(case.with(|state| state.devices.length = 4));
        }
    }
}

/// A state word of a value, in range or not.
fn put(case: Case, index: usize, value: u16) -> Case {
    case.with(|state| {
        let mut words = state.to_words();
        words[index] = value;
        *state = State::from_words(&words);
    })
}

/// Each device word out of its range in every operation: 2, but not of a view or
/// a load.
fn states(cases: &mut Vec<Case>) {
    let mut all = images::operations();
    all.extend(new_operations());
    // 2 before 3, before 10, before stopped.
    all.extend([
        Operation::Raise(3),
        Operation::Write(3),
        Operation::ToInterrupt(0),
        Operation::WriteLoad(MEMORY + IMAGE_EXTRA),
    ]);
    for (word, most) in MOST.into_iter().enumerate() {
        let index = FIRST_DEVICE + word;
        for (turn, operation) in all.iter().enumerate() {
            let stopped = (turn % 5 == 4).into();
            let case = lent(turn % 2 == 1, "range", operation.clone());
            let case = case.with(|state| state.stopped = stopped);
            cases.push(put(case, index, most + 1));
        }
        for (turn, value) in [most, 2, 4, 0o400, 0o100000, 0o100000 | most, 0o177777]
            .into_iter()
            .enumerate()
        {
            let operation = &all[(turn + word) % all.len()];
            let case = lent(false, "range", operation.clone());
            cases.push(put(case, index, value));
        }
        // 2 before 11.
        let unread = lent(false, "range", Operation::Typed(7)).devices(FULL);
        cases.push(put(unread, index, most + 1));
    }
}

/// Every other word of the state out of its range, by the new operations.
fn other_words(cases: &mut Vec<Case>) {
    let words = [
        (0o70, 0o400), // STS of level 7
        (128, 16),
        (129, 2),
        (130, 2),
        (131, 2),
        (134, 16),
        (135, 1),
        (136, 0o4000),
        (137, 0o400),
        (138, 4),
        (153, 0o10),
        (154, 2),
        (155, 2),
    ];
    for (turn, (index, value)) in words.into_iter().enumerate() {
        for (more, operation) in new_operations().into_iter().enumerate() {
            let devices = [SOME, FULL][(turn + more) % 2];
            let case = lent(more % 2 == 1, "range", operation).devices(devices);
            cases.push(put(case, index, value));
        }
    }
}

/// A load over a machine with a character unread.
fn load(words: Vec<u16>) -> Case {
    lent(false, "load", Operation::Load(words)).devices(TYPED)
}

/// Entries of kind 5 in all ways, each with a word less and a word more.
fn loads(cases: &mut Vec<Case>) {
    let lists: [&[(u16, u32, u32)]; 40] = [
        &[(5, 0, 12)],
        &[(5, 0, 11)],
        &[(5, 0, 1)],
        &[(5, 11, 1)],
        &[(5, 10, 2)],
        &[(5, 0, 0)],
        &[(5, 12, 0)],
        &[(5, 0, 6), (5, 6, 6)],
        &[(5, 6, 6), (5, 0, 6)],
        &[(5, 5, 1), (5, 4, 1), (5, 6, 1)],
        &[(5, 3, 0), (5, 0, 12), (5, 3, 0)],
        &[(1, 0, 3), (5, 2, 3), (3, 4, 2)],
        &[(5, 2, 3), (4, 2, 3), (2, 2, 3), (1, 2, 3)],
        &[(1, 4, 2), (2, 4, 2), (3, 4, 2), (4, 4, 2), (5, 4, 2)],
        &[(5, 0, 2), (5, 3, 2), (5, 6, 2), (5, 9, 2)],
        // 6
        &[(5, 12, 1)],
        &[(5, 11, 2)],
        &[(5, 0, 13)],
        &[(5, 1, 12)],
        &[(5, 13, 0)],
        &[(5, 28, 0)],
        &[(5, 0x10000, 0)],
        &[(5, 0, 0x10000)],
        &[(5, 0xffff_ffff, 1)],
        &[(5, 1, 0xffff_ffff)],
        // 7
        &[(5, 0, 12), (5, 11, 1)],
        &[(5, 0, 12), (5, 0, 1)],
        &[(5, 5, 2), (5, 6, 1)],
        &[(5, 5, 2), (5, 4, 2)],
        &[(5, 5, 2), (5, 0, 12)],
        &[(5, 5, 1), (1, 5, 1), (5, 5, 1)],
        // 5, before and after 6 and 7
        &[(6, 0, 1)],
        &[(6, 0, 0)],
        &[(7, 0, 0)],
        &[(0o177777, 0, 0)],
        &[(5, 0, 1), (6, 0, 0)],
        &[(6, 0, 0), (5, 12, 1)],
        &[(5, 12, 1), (6, 0, 0)],
        &[(5, 0, 2), (5, 1, 1), (6, 0, 0)],
        &[(5, 0, 2), (6, 0, 0), (5, 1, 1)],
    ];
    for entries in lists {
        let words = image(entries);
        cases.push(load(words.clone()));
        cases.push(load(words[..words.len() - 1].to_vec()));
        cases.push(load([&words[..], &[1]].concat()));
    }
}

/// Without kind 5, or with a part of it, the rest is cleared, whatever the machine
/// had.
fn cleared(cases: &mut Vec<Case>) {
    let lists: [&[(u16, u32, u32)]; 7] = [
        &[],
        &[(1, 0, 5)],
        &[(2, 40, 16)],
        &[(3, 0, 28)],
        &[(3, 0, 26), (4, 0, 16)],
        &[(5, 0, 4)],
        &[(5, 8, 4)],
    ];
    for entries in lists {
        for words in [FULL, SOME, MOST] {
            for extended in MODES {
                let operation = Operation::Load(image(entries));
                cases.push(lent(extended, "clear", operation).devices(words));
            }
        }
    }
}

/// Each word by an image, alone and among all twelve; 8 before 2.
fn ranges(cases: &mut Vec<Case>) {
    for (word, most) in MOST.into_iter().enumerate() {
        for value in [most, most + 1, 0o400, 0o100000 | most] {
            let entry = [1, 5, 0, word as u16, 0, 1, value];
            cases.push(load(entry.to_vec()));
            let mut words = FULL;
            words[word] = value;
            cases.push(load([&[1, 5, 0, 0, 0, 12], &words[..]].concat()));
        }
        let above = [1, 5, 0, word as u16, 0, 1, most + 1];
        cases.push(load([&above[..], &[0]].concat()));
        cases.push(load(above[..6].to_vec()));
    }
}

/// A sound image with a word changed or cut off.
fn damaged(cases: &mut Vec<Case>) {
    let mut random = Random::new(5);
    let sound = image(&[(5, 3, 5), (1, 9, 2), (3, 4, 2), (5, 0, 2), (5, 8, 4)]);
    for _ in 0..120 {
        let mut words = sound.clone();
        let at = random.below(words.len() as u64) as usize;
        match random.below(4) {
            0 => words.truncate(at),
            1 => words[at] = random.word(),
            2 => words[at] ^= 1 << random.below(5),
            _ => words[at] = random.below(8) as u16,
        }
        cases.push(load(words));
    }
}

/// The writer's fifth entry, and its way back.
fn writes(cases: &mut Vec<Case>) {
    let mut random = Random::new(12);
    // 689 words were enough without devices, 701 without the fifth entry's.
    let extra = [0, 689, 701, IMAGE_EXTRA - 1, IMAGE_EXTRA, IMAGE_EXTRA + 1];
    for pages in [1, 2] {
        for extended in MODES {
            for words in [FULL, [0; DEVICE_WORDS], devices(&mut random).to_words()] {
                for extra in extra {
                    let length = pages * PAGE + extra;
                    let operation = match random.below(2) {
                        0 => Operation::Write(length),
                        _ => Operation::WriteLoad(length),
                    };
                    let memory = pages * PAGE;
                    let case = Case::in_mode(extended, "write", operation, memory, TABLE_WORDS);
                    cases.push(case.devices(words));
                }
            }
        }
    }
    // One word alone, so that each has its place.
    for word in 0..DEVICE_WORDS {
        for operation in [
            Operation::Write(PAGE + IMAGE_EXTRA),
            Operation::WriteLoad(PAGE + IMAGE_EXTRA),
        ] {
            let mut words = [0; DEVICE_WORDS];
            words[word] = 1;
            let case = Case::sized("write", operation, PAGE, TABLE_WORDS);
            cases.push(case.devices(words));
        }
    }
}
