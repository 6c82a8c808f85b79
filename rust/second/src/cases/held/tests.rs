//! The cases tell engines that hold PGS wrongly.

use super::*;
use crate::answer::Interrupt;
use crate::decode::{Instr, Transfer, decode};
use crate::state::State;
use crate::step::{next_word, step};
use std::collections::HashSet;

/// A step that was taken.
struct Taken {
    before: State,
    /// What was executed or gave an interrupt, by EXR or not; none if the
    /// fetch failed or there was none.
    instr: Option<Instr>,
    by_exr: bool,
    interrupt: u16,
    /// PGS after the step, if it had not been held before.
    fresh: u16,
}

impl Taken {
    fn is(&self, transfer: Transfer) -> bool {
        self.instr == Some(Instr::Transfer(transfer))
    }

    fn fault(&self) -> bool {
        matches!(self.interrupt, 2 | 3)
    }

    /// TRA PGS that was executed.
    fn reads(&self) -> bool {
        self.is(Transfer::TraPgs) && self.interrupt == 0
    }
}

/// One step of a machine, and what it was.
fn take(case: &mut Case) -> Taken {
    let before = case.state.clone();
    let mut free = case.clone();
    free.state.pgs_held = 0;
    let _ = step(&mut free.state, &mut free.memory, &mut free.tables);
    let word = next_word(&before, &mut case.memory, &case.tables);
    let (instr, by_exr) = match word.map(decode) {
        Some(Instr::Exr { src }) => (Some(decode(before.reg(src))), true),
        instr => (instr, false),
    };
    let answer = step(&mut case.state, &mut case.memory, &mut case.tables);
    let interrupt = answer.expect("in range").map_or(0, Interrupt::number);
    Taken {
        before,
        instr,
        by_exr,
        interrupt,
        fresh: free.state.pgs,
    }
}

/// Steps of a case, and whether it runs to the first interrupt.
fn form(case: &Case) -> (u64, bool) {
    match case.operation {
        Operation::Step => (1, false),
        Operation::Through(steps) => (steps, false),
        Operation::ToInterrupt(steps) => (steps, true),
        _ => panic!("no step and no run"),
    }
}

/// What an engine does beside a step.
type Change = fn(&Taken, &mut State);

/// Follows a case by steps that `change` is applied after.
fn follow(case: &Case, change: Change) -> (Vec<Taken>, Case) {
    let (steps, first) = form(case);
    let mut end = case.clone();
    let mut all = Vec::new();
    for _ in 0..steps {
        if end.state.stopped == 1 || first && end.state.change_due() {
            break;
        }
        let taken = take(&mut end);
        change(&taken, &mut end.state);
        let ended = first && taken.interrupt != 0;
        all.push(taken);
        if ended {
            break;
        }
    }
    (all, end)
}

#[test]
fn followed_as_answered() {
    for case in cases() {
        let (_, end) = follow(&case, |_, _| {});
        let mut answered = case.clone();
        answered.act();
        assert_eq!(end.state, answered.state, "{}", case.line());
    }
}

/// Ways to be wrong, each as a change after a right step.
const WRONG: [(&str, Change); 24] = [
    ("takes every fault", |taken, state| {
        state.pgs = taken.fresh;
    }),
    ("never holds", |taken, state| {
        if taken.fault() {
            state.pgs_held = taken.before.pgs_held;
        }
    }),
    ("does not release", |taken, state| {
        state.pgs_held |= taken.before.pgs_held;
    }),
    ("TRA PGS clears PGS", |taken, state| {
        if taken.reads() {
            state.pgs = 0;
        }
    }),
    ("TRA PGS holds what was not held", |taken, state| {
        if taken.reads() {
            state.pgs_held = 1 - taken.before.pgs_held;
        }
    }),
    ("TRA PGS that gives 6 releases", |taken, state| {
        if taken.is(Transfer::TraPgs) && taken.interrupt == 6 {
            state.pgs_held = 0;
        }
    }),
    ("TRA PGS by EXR does not release", |taken, state| {
        if taken.reads() && taken.by_exr {
            state.pgs_held = taken.before.pgs_held;
        }
    }),
    (
        "TRA PGS with paging off does not release",
        |taken, state| {
            if taken.reads() && taken.before.paging_on == 0 {
                state.pgs_held = taken.before.pgs_held;
            }
        },
    ),
    ("TRA IIC releases", |taken, state| {
        if taken.is(Transfer::TraIic) {
            state.pgs_held = 0;
        }
    }),
    ("TRR PCR releases", |taken, state| {
        if taken.is(Transfer::TrrPcr) {
            state.pgs_held = 0;
        }
    }),
    ("MCL and MST release", |taken, state| {
        if taken.is(Transfer::MclPid) || taken.is(Transfer::MstPid) {
            state.pgs_held = 0;
        }
    }),
    ("WAIT releases", |taken, state| {
        if taken.instr == Some(Instr::Wait) {
            state.pgs_held = 0;
        }
    }),
    ("POF releases", |taken, state| {
        if taken.instr == Some(Instr::Pof) {
            state.pgs_held = 0;
        }
    }),
    ("an illegal word releases", |taken, state| {
        if taken.interrupt == 4 {
            state.pgs_held = 0;
        }
    }),
    ("a change of level releases", |taken, state| {
        if state.level != taken.before.level {
            state.pgs_held = 0;
        }
    }),
    ("PGS of 0 is not held", |taken, state| {
        if taken.fault() && taken.before.pgs == 0 {
            state.pgs = taken.fresh;
        }
    }),
    ("PGS of 0 does not count as held", |taken, state| {
        if taken.fault() && state.pgs == 0 {
            state.pgs_held = 0;
        }
    }),
    ("a fetch fault overrides", |taken, state| {
        if taken.fault() && taken.instr.is_none() {
            state.pgs = taken.fresh;
        }
    }),
    ("interrupt 3 overrides", |taken, state| {
        if taken.interrupt == 3 {
            state.pgs = taken.fresh;
        }
    }),
    ("a register block overrides", |taken, state| {
        let block = matches!(taken.instr, Some(Instr::Srb { .. } | Instr::Lrb { .. }));
        if taken.fault() && block {
            state.pgs = taken.fresh;
        }
    }),
    ("PGS keeps old bits", |taken, state| {
        if taken.fault() && taken.before.pgs_held == 0 {
            state.pgs |= taken.before.pgs;
        }
    }),
    ("9 holds", |taken, state| {
        if taken.interrupt == 9 {
            state.pgs_held = 1;
        }
    }),
    ("9 releases", |taken, state| {
        if taken.interrupt == 9 {
            state.pgs_held = 0;
        }
    }),
    (
        "a fault that is not taken is not detected",
        |taken, state| {
            if taken.fault() && taken.before.pgs_held == 1 {
                state.iid = taken.before.iid;
            }
        },
    ),
];

#[test]
fn wrong_ways_show() {
    let cases = cases();
    for (name, change) in WRONG {
        let differs = |case: &&Case| {
            let right = follow(case, |_, _| {}).1;
            follow(case, change).1.state != right.state
        };
        let found = cases.iter().filter(differs).count();
        assert!(found >= 2, "{name}: {found}");
    }
}

/// Every kind of fault comes after every other, held and read in between.
#[test]
fn pairs_are_what_they_say() {
    let mut cases = Vec::new();
    pairs(&mut cases);
    let mut seen = HashSet::new();
    for case in &cases {
        let (taken, end) = follow(case, |_, _| {});
        let (first, last) = (&taken[0], taken.last().expect("a step"));
        assert!(taken[1].instr.is_none() && taken[1].interrupt == 0);
        assert!([2, 3, 9].contains(&first.interrupt) && [2, 3, 9].contains(&last.interrupt));
        let read = taken.len() == 4;
        assert_eq!(read, taken[2].reads());
        let wanted = match (first.fault() && !read, last.fault()) {
            (true, _) => first.fresh,
            (false, true) => last.fresh,
            (false, false) => case.state.pgs,
        };
        assert_eq!(end.state.pgs, wanted);
        assert_eq!(
            end.state.pgs_held == 1,
            first.fault() && !read || last.fault()
        );
        // Both are told apart, so the wrong one would show.
        assert!(first.fresh != last.fresh || !first.fault() || !last.fault());
        let kind = |taken: &Taken| (taken.interrupt, taken.instr.is_none());
        seen.insert((kind(first), kind(last), read));
    }
    // Interrupts 2, 3 and 9 of fetches and of data, after each other; read in
    // between without 9.
    assert_eq!(cases.len(), 256 + 144);
    assert_eq!(seen.len(), 36 + 16);
}

#[test]
fn zero_is_held() {
    let mut cases = Vec::new();
    zero(&mut cases);
    let end = |case: &Case| follow(case, |_, _| {}).1.state;
    // From PGS 140377 and not held: 0 after the first step, and after a fetch
    // fault.
    let from: Vec<_> = cases
        .iter()
        .filter(|case| case.state.pgs == OTHER && case.state.pgs_held == 0)
        .collect();
    let [one, two, three] = [0, 1, 2].map(|at| end(from[at]));
    assert_eq!((one.pgs, one.pgs_held, one.iid), (0, 1, 1 << 2));
    assert_eq!((two.pgs, two.pgs_held, two.iid), (0, 1, 1 << 3 | 1 << 2));
    assert_eq!((three.pgs, three.pgs_held), (0, 1));
    // The handler: a fault, TRA PGS gives 0, COPY SA DX, a store's fault by
    // table 2 in page 41.
    let handled = end(from[8]);
    assert_eq!((handled.level, handled.files[14][7]), (14, 0));
    assert_eq!((handled.pgs, handled.pgs_held), (0o040241, 1));
    let read = end(from[9]);
    assert_eq!((read.files[14][5], read.pgs_held), (0o040241, 0));
}

#[test]
fn a_level_that_gives_up_reads_later() {
    let mut cases = Vec::new();
    levels(&mut cases);
    let (taken, end) = follow(cases.last().expect("a case"), |_, _| {});
    let words: Vec<_> = taken
        .iter()
        .map(|taken| (taken.before.level, taken.interrupt, taken.before.pgs_held))
        .collect();
    // Faults of level 3, changes, WAIT; fault, change, JMP, TRA PGS, WAIT.
    let wanted = [
        (3, 2, 0),
        (3, 0, 1),
        (14, 0, 1),
        (14, 0, 1),
        (3, 2, 1),
        (3, 0, 1),
        (14, 0, 1),
        (14, 0, 1),
        (14, 0, 0),
        (14, 0, 0),
        (3, 2, 0),
        (3, 0, 1),
    ];
    assert_eq!(words, wanted);
    assert_eq!(end.state.pgs_held, 1);
}
