//! Images, sound and damaged, views, and the refusals of every operation.

use super::{Case, MEMORY, Operation};
use crate::decode::Reg;
use crate::image::{IMAGE_EXTRA as EXTRA, Target};
use crate::random::Random;
use crate::state::{CONTROL_WORDS, control};
use crate::{PAGE, TABLE_WORDS};

/// Control words of an image.
const CONTROL: u32 = CONTROL_WORDS as u32;

pub fn cases() -> Vec<Case> {
    let mut cases = Vec::new();
    sizes(&mut cases);
    states(&mut cases);
    loads(&mut cases);
    damaged(&mut cases);
    writes(&mut cases);
    views(&mut cases);
    cases
}

/// One of each operation, none of which would be refused otherwise.
pub fn operations() -> Vec<Operation> {
    vec![
        Operation::Step,
        Operation::Through(2),
        Operation::Through(0),
        Operation::ToInterrupt(2),
        Operation::Raise(12),
        Operation::Load(vec![1, 2, 0, 9, 0, 1, 0o321]),
        Operation::Write(MEMORY + EXTRA),
        Operation::View(Target::Memory, 0, 1),
        Operation::View(Target::Tables, 0, 1),
    ]
}

/// Refusal 1, alone and before all others.
fn sizes(cases: &mut Vec<Case>) {
    let sizes = [
        (0, 512),
        (1, 512),
        (1023, 512),
        (1024, 512),
        (1025, 512),
        (2048, 512),
        (3000, 512),
        (4096, 0),
        (4096, 256),
        (4096, 511),
        (4096, 513),
        (0, 0),
    ];
    for (memory, tables) in sizes {
        for operation in operations() {
            cases.push(Case::sized("size", operation.clone(), memory, tables));
            if memory % PAGE != 0 || tables != TABLE_WORDS {
                let case = Case::sized("size", operation, memory, tables);
                cases.push(case.with(|state| state.level = 16));
            }
        }
        for operation in [
            Operation::Raise(3),
            Operation::Load(vec![]),
            Operation::Load(vec![0]),
            Operation::Write(3),
            Operation::View(Target::Memory, 5000, 1),
        ] {
            cases.push(Case::sized("size", operation, memory, tables));
        }
    }
    // As much memory as 19 bits reach, and one page more.
    for memory in [512 * PAGE, 513 * PAGE] {
        for operation in [
            Operation::Step,
            Operation::Through(3),
            Operation::Raise(10),
            Operation::Load(vec![1, 1, 7, 0o177777, 0, 1, 5]),
        ] {
            cases.push(Case::sized("size", operation, memory, TABLE_WORDS));
        }
        let case = Case::sized("size", Operation::Step, memory, TABLE_WORDS).reg(Reg::A, 7);
        cases.push(
            case.reg(Reg::D, 0o177777)
                .paging(false)
                .reg(Reg::P, 0o600)
                .at_p(0o150417),
        );
    }
}

/// Refusal 2: each word of the state just inside and just outside its range.
fn states(cases: &mut Vec<Case>) {
    let ends: [(usize, &[u16]); 12] = [
        (0, &[15, 16, 0o100003]),
        (1, &[0, 1, 2, 0o177777]),
        (2, &[0, 1, 2, 0o100000]),
        (3, &[0, 1, 2, 0o400]),
        (4, &[0, 0o177777]),
        (5, &[0, 0o177777]),
        (6, &[0, 15, 16, 0o177777]),
        (7, &[0o3776, 1, 0o4000, 0o100000, 2]),
        (8, &[0o3776, 1, 0o4000, 0o100000, 0]),
        (9, &[0o140377, 0o400, 0o20000, 0o1000, 0o40000]),
        (control::PGS_HELD, &[0, 1, 2, 0o100001]),
        (control::EXTENDED, &[0, 1, 2, 0o100001]),
    ];
    let mut words: Vec<(usize, u16)> = Vec::new();
    for (index, values) in ends {
        words.extend(values.iter().map(|&value| (128 + index, value)));
    }
    for level in 0..16 {
        words.push((138 + level, 0o3603));
        words.push((
            138 + level,
            [4, 0o100, 0o10, 0o4000, 0o100000, 0o20, 0o40][level % 7],
        ));
        words.push((8 * level, 0o377));
        words.push((8 * level, if level % 2 == 0 { 0o400 } else { 0o100000 }));
    }
    for bit in 0..16 {
        words.push((141, 1 << bit));
        words.push((137, 1 << bit));
        words.push((136, 1 << bit));
        words.push((135, 1 << bit));
    }
    for (turn, (index, value)) in words.into_iter().enumerate() {
        let outside = |case: Case| {
            case.with(|state| {
                let mut words = state.to_words();
                words[index] = value;
                *state = crate::state::State::from_words(&words);
            })
        };
        let all = operations();
        let others = [1, 3, 4, 6];
        cases.push(outside(Case::new("state", Operation::Step)));
        cases.push(outside(Case::new("state", all[others[turn % 4]].clone())));
        // The same by an image.
        let (kind, start) = if index < 128 {
            (2, index)
        } else {
            (3, index - 128)
        };
        let image = vec![1, kind, 0, start as u16, 0, 1, value];
        cases.push(Case::new("state", Operation::Load(image)));
    }
    // Out of range before the level, the output's length, and stopped.
    for operation in [
        Operation::Raise(3),
        Operation::Write(3),
        Operation::Through(0),
        Operation::ToInterrupt(0),
        Operation::View(Target::Memory, 0, 3),
        Operation::Load(vec![0]),
    ] {
        let case = Case::new("state", operation);
        cases.push(case.with(|state| {
            state.pvl = 16;
            state.stopped = 1;
        }));
    }
}

/// An image of entries (kind, start, length) and as many body words.
pub fn image(entries: &[(u16, u32, u32)]) -> Vec<u16> {
    let mut words = vec![entries.len() as u16];
    let mut bodies = 0;
    for &(kind, start, length) in entries {
        words.extend([
            kind,
            (start >> 16) as u16,
            start as u16,
            (length >> 16) as u16,
            length as u16,
        ]);
        bodies += if length < 10_000 { length } else { 0 };
    }
    words.extend((0..bodies).map(|word| (word * 7 + 1) as u16 & 1));
    words
}

pub fn load(words: Vec<u16>) -> Case {
    Case::new("load", Operation::Load(words))
}

fn loads(cases: &mut Vec<Case>) {
    let sound: [&[(u16, u32, u32)]; 16] = [
        &[],
        &[(1, 0, 5)],
        &[(1, 4091, 5)],
        &[(2, 0, 128)],
        &[(3, 0, CONTROL - 1)],
        &[(3, 0, CONTROL)],
        &[(4, 0, 256)],
        &[(4, 0, 512)],
        &[(4, 250, 6), (1, 9, 2), (3, 4, 2), (2, 17, 3)],
        &[(1, 10, 5), (1, 15, 5), (1, 5, 5)],
        &[(1, 10, 5), (2, 10, 5), (3, 10, 5), (4, 10, 5)],
        &[
            (1, 10, 5),
            (1, 12, 0),
            (1, 4096, 0),
            (2, 128, 0),
            (3, CONTROL, 0),
            (4, 512, 0),
        ],
        &[(1, 12, 0), (1, 10, 5)],
        &[(2, 1, 1), (1, 0, 1), (2, 2, 1), (1, 1, 1)],
        &[(3, 0, 1), (3, 1, CONTROL - 1)],
        &[(4, 0, 1), (4, 2, 1), (4, 1, 1)],
    ];
    for entries in sound {
        let words = image(entries);
        cases.push(load(words.clone()));
        // A word short, a word long: 8.
        let mut longer = words.clone();
        longer.push(1);
        cases.push(load(longer));
        cases.push(load(words[..words.len() - 1].to_vec()));
    }
    // Thirty-two entries, and one more.
    for count in [31, 32, 33] {
        let entries: Vec<_> = (0..count).map(|turn| (1, turn * 2, 1)).collect();
        cases.push(load(image(&entries)));
        let empty: Vec<_> = (0..count).map(|_| (4, 7, 0)).collect();
        cases.push(load(image(&empty)));
    }
    // Overlap with the first of many, with the last, by one word either way.
    for last in [
        (1, 0, 1),
        (1, 1, 2),
        (1, 62, 1),
        (1, 61, 1),
        (1, 60, 2),
        (1, 0, 100),
        (1, 63, 1),
        (2, 0, 1),
    ] {
        let mut entries: Vec<_> = (0..31).map(|turn| (1, turn * 2, 1)).collect();
        entries.push(last);
        cases.push(load(image(&entries)));
    }
}

fn damaged(cases: &mut Vec<Case>) {
    // 4: nothing, short contents, too many entries.
    for words in [
        vec![],
        vec![1],
        vec![1, 1, 0, 0, 0],
        vec![33],
        vec![0o177777],
        vec![0, 0],
        vec![2, 1, 0, 0, 0, 0],
        vec![32; 161],
        vec![33; 166],
    ] {
        cases.push(load(words));
    }
    // 5, 6 and 7 entry by entry, then 8, then 2.
    let refused: [&[(u16, u32, u32)]; 32] = [
        &[(0, 0, 1)],
        &[(6, 0, 1)],
        &[(0o177777, 0, 0)],
        &[(1, 0, 4097)],
        &[(1, 4096, 1)],
        &[(1, 4097, 0)],
        &[(1, 1, 4096)],
        &[(2, 128, 1)],
        &[(2, 127, 2)],
        &[(2, 129, 0)],
        &[(3, CONTROL, 1)],
        &[(3, CONTROL - 1, 2)],
        &[(3, CONTROL + 1, 0)],
        &[(4, 512, 1)],
        &[(4, 511, 2)],
        &[(4, 513, 0)],
        &[(1, 0x10000, 1)],
        &[(1, 0xffff_ffff, 1)],
        &[(1, 0xffff_ffff, 2)],
        &[(1, 2, 0xffff_fffe)],
        &[(1, 2, 0xffff_ffff)],
        &[(1, 0x8000_0000, 0x8000_0000)],
        &[(4, 0x10000, 0)],
        &[(2, 0, 0x10001)],
        &[(1, 5, 5), (1, 9, 1)],
        &[(1, 5, 5), (1, 4, 2)],
        &[(1, 5, 5), (1, 6, 2)],
        &[(1, 5, 5), (1, 0, 20)],
        &[(1, 5, 5), (6, 0, 1), (1, 5, 1)],
        &[(1, 5, 5), (1, 5, 1), (6, 0, 1)],
        &[(1, 5, 5), (1, 5, 4092)],
        &[(2, 0, 200), (9, 0, 0)],
    ];
    for entries in refused {
        let mut words = image(entries);
        cases.push(load(words.clone()));
        words.push(9);
        cases.push(load(words));
    }
    for entries in [
        &[(3, 0, CONTROL), (3, 3, 1)],
        &[(2, 0, 1), (2, 0, 1)],
        &[(4, 9, 1), (4, 9, 1)],
        &[(2, 5, 5), (3, 9, 1)],
    ] {
        cases.push(load(image(entries)));
    }
    // 8 before 2: a level of 16 and a word too many or too few.
    for body in [&[16][..], &[16, 0], &[]] {
        let mut words = vec![1, 3, 0, 0, 0, 1];
        words.extend(body);
        cases.push(load(words));
    }
    // A sound image with one word changed or cut off.
    let mut random = Random::new(7);
    let sound = image(&[(1, 3, 4), (4, 9, 2), (2, 6, 3), (3, 4, 2), (1, 0, 2)]);
    for _ in 0..200 {
        let mut words = sound.clone();
        let at = random.below(words.len() as u64) as usize;
        match random.below(4) {
            0 => words.truncate(at),
            1 => words[at] = random.word(),
            2 => words[at] ^= 1 << random.below(5),
            _ => words[at] = random.below(8) as u16,
        }
        cases.push(load(words));
    }
}

fn writes(cases: &mut Vec<Case>) {
    for memory in [PAGE, 2 * PAGE, MEMORY] {
        for extra in [0, 1, EXTRA - 1, EXTRA, EXTRA + 1, 800] {
            let operation = Operation::Write(memory + extra);
            let case = Case::sized("write", operation, memory, TABLE_WORDS);
            cases.push(case.with(|state| state.pgs = 0o140377));
        }
    }
    for length in [0, 1, EXTRA - 1, EXTRA, 1024] {
        cases.push(Case::new("write", Operation::Write(length)));
    }
    for memory in [PAGE, MEMORY, 65 * PAGE] {
        for extra in [EXTRA - 1, EXTRA, EXTRA + 1] {
            cases.push(Case::sized(
                "both",
                Operation::WriteLoad(memory + extra),
                memory,
                TABLE_WORDS,
            ));
        }
    }
    let case = Case::sized(
        "both",
        Operation::WriteLoad(PAGE + EXTRA),
        PAGE,
        TABLE_WORDS,
    );
    cases.push(case.with(|state| state.stopped = 2));
}

fn views(cases: &mut Vec<Case>) {
    for target in [Target::Memory, Target::Tables] {
        for start in [
            0,
            1,
            100,
            255,
            256,
            257,
            511,
            512,
            513,
            4095,
            4096,
            4097,
            usize::MAX,
            usize::MAX - 1,
        ] {
            for length in [
                0,
                1,
                2,
                256,
                412,
                512,
                4096,
                4097,
                usize::MAX,
                usize::MAX - 510,
            ] {
                cases.push(Case::new("view", Operation::View(target, start, length)));
            }
        }
    }
}
