//! Runs through and to the first interrupt.

mod common;
use common::*;
use second::random::Random;
use second::*;

/// A case with a program from 000100 on.
fn program(words: &[u16]) -> Case {
    let mut case = Case::of(0);
    case.m[0o100..0o100 + words.len()].copy_from_slice(words);
    case
}

fn go(case: &mut Case, steps: u64, first: bool) -> (u64, Reason) {
    let ran = run(&mut case.s, &mut case.m, &mut case.t, steps, first).expect("in range");
    (ran.steps, ran.reason)
}

#[test]
fn spent_and_stopped() {
    let code = [0o170401, 0o172401, 0o151000]; // SAA 1, AAA 1, WAIT
    for first in [false, true] {
        for (steps, answer) in [
            (0, (0, Reason::Spent)),
            (1, (1, Reason::Spent)),
            (2, (2, Reason::Spent)),
            (3, (3, Reason::Stopped)), // stopped is tested before spent
            (4, (3, Reason::Stopped)),
        ] {
            let mut case = program(&code);
            assert_eq!(go(&mut case, steps, first), answer);
        }
        // Stopped at the start, also with no step asked.
        let mut case = program(&code);
        case.s.stopped = 1;
        assert_eq!(go(&mut case, 0, first), (0, Reason::Stopped));
        assert_eq!(go(&mut case, 9, first), (0, Reason::Stopped));
    }
}

#[test]
fn first_interrupt() {
    let code = [0o170401, 0o100000, 0o151000]; // SAA 1, illegal, WAIT
    for iie in [0, 1 << 4] {
        // In IIE or not.
        let mut case = program(&code);
        case.s.iie = iie;
        assert_eq!(go(&mut case, 9, true), (2, Reason::Interrupt));
        case.has(&[(P, 0o102), (A, 1)]);
    }
    // The last step asked gives it: interrupt, not spent.
    let mut case = program(&code);
    assert_eq!(go(&mut case, 2, true), (2, Reason::Interrupt));
    // Through: it goes on.
    let mut case = program(&code);
    assert_eq!(go(&mut case, 9, false), (3, Reason::Stopped));
    assert_eq!(case.s.iid, 1 << 4);
    // MON and RDIV count; so do fetch faults.
    assert_eq!(
        go(&mut program(&[0o153000]), 9, true),
        (1, Reason::Interrupt)
    );
    assert_eq!(
        go(&mut program(&[0o141600]), 9, true),
        (1, Reason::Interrupt)
    );
    let mut case = Case::of(0).with(P, 0o10000);
    assert_eq!(go(&mut case, 9, true), (1, Reason::Interrupt));
}

#[test]
fn level_due() {
    let code = [0o150402, 0o170401, 0o151000]; // ION, SAA 1, WAIT
    let mut case = program(&code);
    case.s.pid = 1 << 3;
    case.s.pie = 1 << 3;
    // Level is tested before spent, and the change is not made.
    let mut first = case.clone();
    assert_eq!(go(&mut first, 1, true), (1, Reason::Level));
    assert_eq!((first.s.level, first.s.pvl), (0, 0));
    assert_eq!(go(&mut first, 0, true), (0, Reason::Level));
    // Stopped is tested before level.
    first.s.stopped = 1;
    assert_eq!(go(&mut first, 5, true), (0, Reason::Stopped));
    // Through: the change is a step.
    let mut through = case;
    assert_eq!(go(&mut through, 2, false), (2, Reason::Spent));
    assert_eq!((through.s.level, through.s.pvl), (3, 0));
}

#[test]
fn a_run_is_the_step_repeated() {
    let mut random = Random::new(3);
    for _ in 0..2_000 {
        let start = second::vectors::start(&mut random);
        let steps = random.below(8);
        for first in [false, true] {
            let mut one = start.clone();
            let answer = run(
                &mut one.state,
                &mut one.memory,
                &mut one.tables,
                steps,
                first,
            );
            let mut other = start.clone();
            let mut taken = 0;
            let s = &mut other.state;
            let reason = loop {
                let highest = (0..16)
                    .rev()
                    .find(|n| s.pid & s.pie & 1 << n != 0)
                    .unwrap_or(0);
                if s.stopped == 1 {
                    break Reason::Stopped;
                }
                if first && s.interrupts_on == 1 && s.level != highest {
                    break Reason::Level;
                }
                if taken == steps {
                    break Reason::Spent;
                }
                let given = step(s, &mut other.memory, &mut other.tables).expect("in range");
                taken += 1;
                if first && given.is_some() {
                    break Reason::Interrupt;
                }
            };
            let answer = answer.map(|ran| (ran.steps, ran.reason));
            assert_eq!(answer, Ok((taken, reason)));
            assert_eq!(one, other);
        }
    }
}

#[test]
fn a_loop_of_some_length() {
    // Sums 1 to 100: SAX 0; SAA 0; AAX 1; RADD SX DA; SAT 144; SKP DX EQL ST;
    // JMP *-4; WAIT.
    let code = [
        0o171400, 0o170400, 0o173401, 0o146075, 0o171144, 0o140067, 0o124374, 0o151000,
    ];
    let mut case = program(&code);
    // Two to set up, 99 rounds of five, the last of four, WAIT.
    assert_eq!(
        go(&mut case, 10_000, false),
        (2 + 99 * 5 + 4 + 1, Reason::Stopped)
    );
    case.has(&[(A, 5050), (X, 100), (P, 0o110)]);
}

/// Physical pages that some entry of the running level's two tables permits to
/// its ring; for writing, with bit 15 as well.
fn permitted(start: &second::vectors::Start, write: bool) -> Vec<bool> {
    let pcr = start.state.pcr[usize::from(start.state.level)];
    let mut pages = vec![false; start.memory.len() / PAGE];
    for table in [pcr >> 9 & 3, pcr >> 7 & 3] {
        for page in 0..64 {
            let slot = usize::from(table << 6 | page);
            let (entry, physical) = match start.state.extended {
                0 => (start.tables[slot], start.tables[slot] & 0o777),
                _ => (start.tables[2 * slot], start.tables[2 * slot + 1] & 0o37777),
            };
            let some = entry >> 13 != 0 && entry >> 9 & 3 <= pcr & 3;
            let physical = usize::from(physical);
            if some && (!write || entry >> 15 == 1) && physical < pages.len() {
                pages[physical] = true;
            }
        }
    }
    pages
}

#[test]
fn two_machines_side_by_side() {
    // Rings 0 and 1 with paging on: words of pages not permitted play no part,
    // and only pages permitted for writing change.
    let mut random = Random::new(17);
    let mut tried = 0;
    while tried < 3_000 {
        let mut one = second::vectors::start(&mut random);
        let level = usize::from(one.state.level);
        one.state.paging_on = 1;
        one.state.pcr[level] &= !2;
        let pages = permitted(&one, false);
        if pages.iter().all(|&page| page) {
            continue;
        }
        tried += 1;
        let writable = permitted(&one, true);
        let mut two = one.clone();
        for (at, word) in two.memory.iter_mut().enumerate() {
            if !pages[at / PAGE] {
                *word = random.word();
            }
        }
        let (before_one, before_two) = (one.memory.clone(), two.memory.clone());
        let steps = random.below(30);
        let go = |start: &mut second::vectors::Start| {
            let (s, m, t) = (&mut start.state, &mut start.memory, &mut start.tables);
            run(s, m, t, steps, true)
        };
        assert_eq!(go(&mut one), go(&mut two));
        assert_eq!((&one.state, &one.tables), (&two.state, &two.tables));
        for at in 0..one.memory.len() {
            if !writable[at / PAGE] {
                assert_eq!(one.memory[at], before_one[at]);
                assert_eq!(two.memory[at], before_two[at]);
            }
            if pages[at / PAGE] {
                assert_eq!(one.memory[at], two.memory[at]);
            }
        }
    }
}
