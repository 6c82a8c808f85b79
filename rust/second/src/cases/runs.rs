//! Runs of both forms, and raise.

use super::{Case, MEMORY, Operation};
use crate::decode::Reg;
use crate::random::Random;
use crate::{PAGE, TABLE_WORDS};

pub fn cases() -> Vec<Case> {
    let mut cases = Vec::new();
    programs(&mut cases);
    raises(&mut cases);
    wandering(&mut cases);
    cases
}

/// A program at 000600 of level 3, run with both forms.
struct Program {
    words: &'static [u16],
    change: fn(Case) -> Case,
}

fn same(case: Case) -> Case {
    case
}

const PROGRAMS: [Program; 17] = [
    // JMP *0 for ever.
    Program {
        words: &[0o124000],
        change: same,
    },
    // Counts and stops: IOF, SAA -3, AAA 1, JAF *-1, WAIT.
    Program {
        words: &[0o150401, 0o170775, 0o172401, 0o131777, 0o151000],
        change: same,
    },
    // Stops at once.
    Program {
        words: &[0o151000],
        change: |case| case.with(|state| state.interrupts_on = 0),
    },
    // Stopped from the start.
    Program {
        words: &[0o124000],
        change: |case| case.with(|state| state.stopped = 1),
    },
    // WAIT gives the level up.
    Program {
        words: &[0o170001, 0o151000, 0o124000],
        change: |case| case.with(|state| state.pid |= 1),
    },
    // A change is due from the start.
    Program {
        words: &[0o124000],
        change: |case| case.with(|state| state.pid |= 0o100),
    },
    // Due and stopped.
    Program {
        words: &[0o124000],
        change: |case| {
            case.with(|state| {
                state.pid |= 0o100;
                state.stopped = 1;
            })
        },
    },
    // Due, but interrupts off until ION.
    Program {
        words: &[0o170401, 0o150402, 0o124000],
        change: |case| {
            case.with(|state| {
                state.interrupts_on = 0;
                state.pid |= 0o40;
            })
        },
    },
    // MON, enabled: level 14 is due.
    Program {
        words: &[0o170401, 0o153005, 0o124000],
        change: same,
    },
    // MON, not enabled.
    Program {
        words: &[0o170401, 0o153005, 0o124000],
        change: |case| case.with(|state| state.iie = 0),
    },
    // MON, enabled, interrupts off.
    Program {
        words: &[0o153005, 0o170401, 0o124000],
        change: |case| case.with(|state| state.interrupts_on = 0),
    },
    // Illegal words, not enabled.
    Program {
        words: &[0o140700, 0o160000, 0o124376],
        change: |case| case.with(|state| state.iie = 2),
    },
    // RDIV by 0, with PIE shut for level 14.
    Program {
        words: &[0o170401, 0o141600, 0o124376],
        change: |case| case.with(|state| state.pie = 0o10),
    },
    // A fetch that fails again and again.
    Program {
        words: &[0o124377],
        change: |case| {
            let index = case.index(0, false);
            case.entry(index, 0o142003).with(|state| state.iie = 0)
        },
    },
    // MST PID raises a higher level: SAA 1, SHA 10, MST PID.
    Program {
        words: &[0o170401, 0o155010, 0o150306, 0o124000],
        change: same,
    },
    // TRR PIE shuts its own level.
    Program {
        words: &[0o170400, 0o150107, 0o124000],
        change: same,
    },
    // Stores over its own next word: LDA *3, STA *1, -, JMP *0.
    Program {
        words: &[0o044003, 0o004001, 0o124376, 0o151000],
        change: |case| case.with(|state| state.interrupts_on = 0),
    },
];

fn programs(cases: &mut Vec<Case>) {
    for program in PROGRAMS {
        for steps in [0, 1, 2, 3, 4, 5, 6, 9, 40] {
            for operation in [Operation::Through(steps), Operation::ToInterrupt(steps)] {
                let mut case = Case::new("program", operation).reg(Reg::P, 0o600);
                for (address, word) in (0o600..).zip(program.words) {
                    case = case.put(address, false, *word);
                }
                cases.push((program.change)(case));
            }
        }
    }
    // More steps than a double word holds; stopped from the start, or after two.
    for steps in [u64::MAX, 1 << 63, 1 << 32, (1 << 32) + 1] {
        for form in [Operation::Through, Operation::ToInterrupt] {
            let case = Case::new("program", form(steps))
                .paging(false)
                .reg(Reg::P, 0o600);
            let case = case.word(0o600, 0o172401).word(0o601, 0o151000);
            let stopped = (steps >> 33 != 0).into();
            cases.push(case.with(|state| {
                state.interrupts_on = 0;
                state.stopped = stopped;
            }));
        }
    }
    for steps in [9_999, 65_535, 65_536, 65_537, 70_001] {
        for form in [Operation::Through, Operation::ToInterrupt] {
            // SAX steps on: AAX 1, JMP *-1.
            let case = Case::new("program", form(steps)).reg(Reg::P, 0o600);
            let case = case.put(0o600, false, 0o173401).put(0o601, false, 0o124377);
            cases.push(case);
        }
    }
}

fn raises(cases: &mut Vec<Case>) {
    for level in (0..20).chain([26, 31, 32, 0o100012, 0o177777]) {
        for pid in [0, 0o177777, 0o125252] {
            let case = Case::new("raise", Operation::Raise(level));
            cases.push(case.with(|state| {
                state.pid = pid;
                state.stopped = pid & 1;
                state.interrupts_on = pid >> 1 & 1;
            }));
        }
    }
}

/// Runs through a memory of words of every kind, from anywhere.
fn wandering(cases: &mut Vec<Case>) {
    let mut random = Random::new(110);
    for turn in 0..1_000 {
        let steps = random.below(40);
        let operation = match turn % 3 {
            0 => Operation::Through(steps),
            1 => Operation::ToInterrupt(steps),
            _ => Operation::Through(200),
        };
        let size = random.pick(&[MEMORY, MEMORY, 2 * PAGE, PAGE]);
        let mut case = Case::sized("wander", operation, size, TABLE_WORDS);
        let level = random.below(16) as usize;
        case = case.on_level(level);
        case = case.reg(Reg::P, random.word() % size as u16);
        case = case.reg(Reg::Sts, random.word() & 0o377);
        if random.one_in(3) {
            case = case.paging(false);
        }
        if random.one_in(2) {
            case = case.ring(random.below(4) as u16);
        }
        for _ in 0..random.below(5) {
            let reg = random.pick(&Reg::ALL[1..]);
            case = case.reg(reg, random.word());
        }
        if random.one_in(2) {
            let words = [random.word(), random.word()];
            case = case.with(|state| {
                state.pie = words[0] | 1 << level;
                state.iie = words[1] & 0o3776;
                state.interrupts_on = words[0] & 1;
            });
        }
        for _ in 0..random.below(3) {
            let index = case.index(random.word(), random.one_in(2));
            let entry = random.word() & 0o177001;
            case = case.entry(index, entry);
        }
        cases.push(case);
    }
}
