//! Longer runs: the sum over steps of every kind, changes of level among them; and
//! runs of no step.

use super::*;
use crate::cases::OPEN;
use crate::state::State;

/// A program at `AT` of level 3.
pub struct Program {
    words: &'static [u16],
    change: fn(Case) -> Case,
}

/// Where the program of another level stands.
const THERE: u16 = 0o700;

impl Case {
    /// Words that a level fetches from `THERE` on, and its P there.
    fn of_other(self, level: usize, words: &[u16]) -> Case {
        let pcr = self.state.pcr[level];
        let page = self.physical_page(usize::from(pcr >> 9 & 3) * 64);
        let case = self.of_level(level, Reg::P, THERE);
        case.words(page, THERE.into(), words)
    }
}

fn same(case: Case) -> Case {
    case
}

/// X at the first address of a page that is absent, less one.
fn before_absent(case: Case) -> Case {
    case.ptm(0).paged(EDGE, 0o002000, 0).reg(Reg::X, EDGE - 1)
}

pub const PROGRAMS: [Program; 21] = [
    // Counts to WAIT: LDA, ADD, STA, MIN, JMP; then level 0 runs what it finds.
    Program {
        words: &[
            0o044006, 0o060006, 0o004004, 0o040004, 0o124374, WAIT, 0, 0o177700,
        ],
        change: same,
    },
    // LDA I, STF I, MIN I, JMP I.
    Program {
        words: &[0o045005, 0o031004, 0o041003, 0o125003, 0o124374, DATA, AT],
        change: same,
    },
    // Bytes: LBYT, SBYT, AAX 1, JMP.
    Program {
        words: &[LBYT, SBYT, AAX, 0o124375],
        change: |case| case.reg(Reg::T, 0o2000).reg(Reg::X, 0),
    },
    // Blocks of another level through memory.
    Program {
        words: &[srb(5), lrb(5), 0o173410, 0o124375],
        change: |case| case.reg(Reg::X, 0o2000),
    },
    // Blocks of the level itself.
    Program {
        words: &[srb(3), lrb(3), 0o173001, 0o124375],
        change: |case| case.reg(Reg::X, 0o2000),
    },
    // STD whose second word fails, JMP; level 14 reads the number and waits.
    Program {
        words: &[0o022000, 0o124377],
        change: |case| before_absent(case).of_other(14, &[TRA_IIC, WAIT, 0o124376]),
    },
    // The same, not enabled.
    Program {
        words: &[0o022000, 0o124377],
        change: |case| before_absent(case).quiet(),
    },
    // MON, LDA; level 14 reads the number by an indirect word.
    Program {
        words: &[MON, 0o044002, 0o124376],
        change: |case| case.of_other(14, &[TRA_IIC, 0o045003, WAIT, 0o124375, DATA]),
    },
    // Words that are none, no device, MON, RDIV by 0; none enabled.
    Program {
        words: &[ILLEGAL, IOX | 0o14, MON, 0o141600, PL13, 0o124373],
        change: Case::quiet,
    },
    // EXR of MIN I, of an EXR, of LRB; AAX, JMP.
    Program {
        words: &[EXR, 0o140660, 0o140630, AAX, 0o124374, DATA],
        change: |case| {
            let case = case.reg(Reg::L, MIN | INDIRECT | 5).reg(Reg::T, EXR);
            case.reg(Reg::B, lrb(5)).reg(Reg::X, DATA).quiet()
        },
    },
    // LDDTX, STDTX, AAX 1 up to the end of memory and past it.
    Program {
        words: &[seven(2, 0), seven(6, 2), AAX, 0o124375],
        change: |case| case.reg(Reg::T, 0).reg(Reg::X, 0o7760).quiet(),
    },
    // EXAM, DEPO, D one further, likewise.
    Program {
        words: &[EXAM, DEPO, 0o146401, 0o124375],
        change: |case| case.reg(Reg::A, 0).reg(Reg::D, 0o7760).quiet(),
    },
    // Paging off: MIN and STF into the window from below.
    Program {
        words: &[0o042000, 0o032001, AAX, 0o124375],
        change: |case| {
            let x = case.window() - 8;
            let case = case.paging(false).reg(Reg::X, x).quiet();
            case.code(AT, &[0o042000, 0o032001, AAX, 0o124375])
        },
    },
    // POF, LDA, PON, STD, JMP: the same words wherever the fetch leads.
    Program {
        words: &[0o150404, 0o046000, 0o150410, 0o022000, 0o124374],
        change: |case| {
            let words = [0o150404, 0o046000, 0o150410, 0o022000, 0o124374];
            let case = case.words(0, AT.into(), &words);
            case.reg(Reg::X, 0o12345).quiet()
        },
    },
    // SEX, LDA, REX, LDA I: entries in both forms.
    Program {
        words: &[SEX, 0o044003, REX, 0o045002, 0o124374, DATA],
        change: |case| {
            let [code, data] = [AT, DATA].map(|address| case.index(address, false));
            let case = case.entry(code, OPEN | 3).entry(data, OPEN);
            let case = case.entry(2 * code, OPEN).entry(2 * code + 1, 3);
            case.entry(2 * data, OPEN).entry(2 * data + 1, 0)
        },
    },
    // MST PID raises level 5, which waits: two changes each time round.
    Program {
        words: &[MST_PID, 0o044003, 0o040003, 0o124375, 0o40, 0o40],
        change: |case| {
            let case = case.reg(Reg::A, 0o40);
            case.of_other(5, &[WAIT, LDA | INDIRECT | 2, 0o124376, DATA])
        },
    },
    // A fetch that fails again and again.
    Program {
        words: &[0o124000],
        change: |case| case.paged(AT, 0o142000, 3).quiet(),
    },
    // Polls the console and the clock: IOX 302, IOX 12, LDA, JMP.
    Program {
        words: &[
            IOX | device::INPUT_STATUS,
            IOX | device::CLOCK_STATUS,
            0o044002,
            0o124375,
            0,
        ],
        change: same,
    },
    // TRA STS and LRB that ring 1 may not, LDA, JMP.
    Program {
        words: &[0o150001, lrb(5), 0o044002, 0o124375, 0],
        change: |case| case.on_ring(1).quiet(),
    },
    // JPL I, then JMP by L: COPY SL DP.
    Program {
        words: &[0o135003, AAA, 0o124376, 0o605, 0, 0o041002, 0o146142, DATA],
        change: same,
    },
    // Runs to its end and stops: IOF, MIN, JMP, WAIT.
    Program {
        words: &[0o150401, 0o040003, 0o124377, WAIT, 0o177500],
        change: same,
    },
];

/// Steps of the runs of a program.
pub const STEPS: [u64; 6] = [7, 24, 100, 101, 333, 1_000];

/// The program's start; what it does is still to come.
pub fn start(program: &Program, extended: bool) -> Case {
    (program.change)(of(extended, "program").code(AT, program.words))
}

pub fn programs() -> Vec<Case> {
    let mut cases = Vec::new();
    for (turn, program) in PROGRAMS.iter().enumerate() {
        for (more, steps) in STEPS.into_iter().enumerate() {
            let extended = (turn + more) % 2 == 1;
            cases.push(start(program, extended).running(Operation::Through(steps)));
            cases.push(start(program, !extended).running(Operation::ToInterrupt(steps)));
        }
    }
    // More references than 16 bits hold.
    for number in [1, 4] {
        for extended in MODES {
            let case = start(&PROGRAMS[number], extended);
            cases.push(case.clone().running(Operation::Through(20_000)));
            cases.push(case.running(Operation::ToInterrupt(19_999)));
        }
    }
    cases
}

/// Runs of no step, of a change of level alone, of a stopped machine, refused.
pub fn ends() -> Vec<Case> {
    let mut cases = Vec::new();
    changes(&mut cases);
    stops(&mut cases);
    refused(&mut cases);
    cases
}

/// Both forms of a run.
const FORMS: [fn(u64) -> Operation; 2] = [Operation::Through, Operation::ToInterrupt];

/// A level is due from the start, or after a step or two.
fn changes(cases: &mut Vec<Case>) {
    let due: [fn(&mut State); 5] = [
        |state| state.pid |= 0o100,
        |state| state.pid |= 0o40000,
        |state| state.pid = 0,
        |state| state.pie = 2,
        |state| state.pid = 0o177777,
    ];
    for extended in MODES {
        for due in due {
            for steps in [0, 1, 2, 3] {
                for form in FORMS {
                    let case = of(extended, "due").at_p(MIN).with(due);
                    cases.push(case.running(form(steps)));
                }
            }
        }
        // WAIT, MST PID, MON, a fault: the level is due after it.
        for word in [WAIT, MST_PID, MON, STF | X_RELATIVE, lrb(5), STA | 1] {
            for steps in [1, 2, 3] {
                for form in FORMS {
                    let case = before_absent(of(extended, "then")).reg(Reg::A, 0o100);
                    cases.push(case.at_p(word).running(form(steps)));
                }
            }
        }
    }
}

/// Stopped, no step asked, and more steps asked than can be.
fn stops(cases: &mut Vec<Case>) {
    for extended in MODES {
        for word in [LDA, STF | INDIRECT, WAIT, lrb(5)] {
            for form in FORMS {
                let case = of(extended, "none").at_p(word);
                cases.push(case.clone().running(form(0)));
                let case = case.with(|state| state.stopped = 1);
                cases.push(case.clone().running(form(0)));
                cases.push(case.clone().running(form(1)));
                cases.push(case.running(form(1_000)));
            }
        }
        for steps in [u64::MAX, 1 << 63, 1 << 32] {
            let case = of(extended, "stop").code(AT, &[0o041003, 0o044001, WAIT, DATA]);
            let case = case.with(|state| state.interrupts_on = 0);
            for form in FORMS {
                cases.push(case.clone().running(form(steps)));
            }
            let case = case.code(AT + 1, &[MON]);
            cases.push(case.running(Operation::ToInterrupt(steps)));
        }
    }
}

/// Refusals 1 and 2 tell no sum.
fn refused(cases: &mut Vec<Case>) {
    let operations = [
        Operation::Through(3),
        Operation::ToInterrupt(3),
        Operation::WithInput(3, vec![(1, 256), (2, 512)]),
        Operation::Through(0),
    ];
    let sizes = [
        (0, TABLE_WORDS),
        (PAGE - 1, TABLE_WORDS),
        (PAGE + 1, TABLE_WORDS),
        (MEMORY, 0),
        (MEMORY, TABLE_WORDS / 2),
        (MEMORY, TABLE_WORDS + 1),
    ];
    let states: [fn(&mut State); 8] = [
        |state| state.level = 16,
        |state| state.stopped = 2,
        |state| state.paging_on = 2,
        |state| state.extended = 2,
        |state| state.pgs_held = 2,
        |state| state.pcr[9] = 4,
        |state| state.files[7][0] = 0o400,
        |state| state.devices.length = 4,
    ];
    for (turn, operation) in operations.iter().enumerate() {
        let extended = turn % 2 == 1;
        for (memory, tables) in sizes {
            let operation = operation.clone();
            cases.push(Case::in_mode(
                extended, "refused", operation, memory, tables,
            ));
        }
        for change in states {
            let case = of(extended, "refused").at_p(LDA).with(change);
            cases.push(case.running(operation.clone()));
        }
    }
}
