//! Memory references: answers worked out from card 7 and its rulings 7.1 to 7.5.

mod common;
use common::*;
use second::random::Random;
use second::*;

const LDA: u16 = 0o044000;
const STA: u16 = 0o004000;
const STD: u16 = 0o020000;
const LDD: u16 = 0o024000;
const STF: u16 = 0o030000;
const LDF: u16 = 0o034000;
const MIN: u16 = 0o040000;
const JMP: u16 = 0o124000;
const JPL: u16 = 0o134000;
/// Bits of the address modes.
const BY_B: u16 = 0o000400;
const INDIRECT: u16 = 0o001000;
const BY_X: u16 = 0o002000;

const EXR_L: u16 = 0o140640;
const LBYT: u16 = 0o142200;
const SBYT: u16 = 0o142600;
const EXAM: u16 = 0o150416;
const DEPO: u16 = 0o150417;
const WAIT: u16 = 0o151000;
const SRB: u16 = 0o152452; // level 5
const LRB: u16 = 0o152650; // level 5
const LRB_OWN: u16 = 0o152600; // level 0, which runs
const MON: u16 = 0o153001;
const ILLEGAL: u16 = 0o140700;

/// An address in page 1, and the first one there.
const THERE: u16 = 0o2100;
const EDGE: u16 = 0o2000;

/// One of the seven.
fn seven(low: u16, disp: u16) -> u16 {
    0o143300 | disp << 3 | low
}

fn go(case: &mut Case, steps: u64, first: bool) -> Ran {
    run(&mut case.s, &mut case.m, &mut case.t, steps, first).expect("in range")
}

/// Interrupt and references of a step, which are those of a run of one, by either
/// form.
fn counted(case: &Case) -> (u16, u64) {
    let interrupt = case.clone().step();
    let through = go(&mut case.clone(), 1, false);
    let first = go(&mut case.clone(), 1, true);
    assert_eq!(through.references, first.references);
    (interrupt, through.references)
}

/// Both modes: in extended mode table 0 in the other form, as `Case::paged` has it.
fn modes(case: &Case) -> [Case; 2] {
    let mut extended = case.clone();
    extended.s.extended = 1;
    for page in 0..4 {
        let word = case.t[page];
        extended.t[2 * page] = word & 0o177000;
        extended.t[2 * page + 1] = word & 0o777;
    }
    [case.clone(), extended]
}

fn assert_counts(case: &Case, interrupt: u16, references: u64) {
    for case in modes(case) {
        assert_eq!(counted(&case), (interrupt, references));
    }
}

// Ruling 7.1.

#[test]
fn fetch_indirect_word_and_operands() {
    // Words beside fetch and indirect word.
    let codes = [
        (0, 1), // STZ
        (STA, 1),
        (0o010000, 1), // STT
        (0o014000, 1), // STX
        (STD, 2),
        (LDD, 2),
        (STF, 3),
        (LDF, 3),
        (MIN, 2),
        (LDA, 1),
        (0o050000, 1), // LDT
        (0o054000, 1), // LDX
        (0o060000, 1), // ADD
        (0o064000, 1), // SUB
        (0o070000, 1), // AND
        (0o074000, 1), // ORA
        (0o120000, 1), // MPY
        (JMP, 0),
        (JPL, 0),
    ];
    for (code, words) in codes {
        for mode in 0..8 {
            let word = code | mode << 8 | 1;
            let indirect = u64::from(mode >> 1 & 1);
            let case = Case::of(word).with(B, 0o300).with(X, 0o400);
            assert_counts(&case, 0, 1 + indirect + words);
            let case = Case::paged(word, 1).with(B, 0o300).with(X, 0o400);
            assert_counts(&case, 0, 1 + indirect + words);
        }
    }
    // The figures in short.
    for (word, references) in [
        (LDA | 1, 2),
        (LDA | INDIRECT | 1, 3),
        (STF | INDIRECT | 1, 5),
        (MIN | 1, 3),
        (MIN | INDIRECT | 1, 4),
        (JMP | 1, 1),
        (JMP | INDIRECT | 1, 2),
        (LBYT, 2),
        (SBYT, 3),
    ] {
        assert_counts(&Case::of(word), 0, references);
    }
}

/// Entries by which an access on ring 2 fails that needs a permit, and the interrupt.
fn failing(permit: u16) -> [(u16, u16); 4] {
    [
        (0o002000, 3),
        (0o162001 & !permit, 2),
        (0o163001, 2),
        (0o162004, 9),
    ]
}

const WRITE: u16 = 0o100000;
const READ: u16 = 0o040000;
const FETCH: u16 = 0o020000;

#[test]
fn a_failing_fetch_is_one() {
    for word in [LDA, STF | INDIRECT, LRB, EXR_L, MON, ILLEGAL, WAIT] {
        for (entry, number) in failing(FETCH) {
            assert_counts(&Case::paged(word, 2).table(0, entry), number, 1);
        }
        // Paging off, past the memory.
        assert_counts(&Case::of(word).with(P, 0o10000), 9, 1);
    }
}

#[test]
fn a_failing_indirect_word_is_two() {
    for code in [LDA, STD, STF, MIN, JMP, JPL] {
        let word = code | INDIRECT | BY_B;
        for (entry, number) in failing(READ | FETCH) {
            let case = Case::paged(word, 2).with(B, THERE).table(1, entry);
            assert_counts(&case, number, 2);
        }
        assert_counts(&Case::of(word).with(B, 0o10000), 9, 2);
    }
}

#[test]
fn a_failing_word_counts_and_none_after_it() {
    for (code, words, permit) in [
        (STA, 1, WRITE),
        (LDA, 1, READ),
        (STD, 2, WRITE),
        (LDD, 2, READ),
        (STF, 3, WRITE),
        (LDF, 3, READ),
    ] {
        for before in 0..words {
            // Behind `before` words that pass.
            let ea = EDGE - before as u16;
            for (entry, number) in failing(permit) {
                let case = Case::paged(code | BY_X, 2).with(X, ea).table(1, entry);
                assert_counts(&case, number, 2 + before);
                let case = Case::paged(code | INDIRECT | 1, 2).table(1, entry);
                assert_counts(&case.mem(0o101, ea), number, 3 + before);
            }
            // Paging off, at the end of memory.
            let case = Case::of(code | BY_X).with(X, 0o10000 - before as u16);
            assert_counts(&case, 9, 2 + before);
        }
    }
    // STD whose second word fails: 3, and no store.
    let case = Case::paged(STD | BY_X, 2).with(X, EDGE - 1).with(A, 7);
    let case = case.table(1, 0o002001);
    assert_counts(&case, 3, 3);
    case.gives(3).holds(usize::from(EDGE) - 1, 0);
}

#[test]
fn min_and_sbyt_fail_at_the_read_or_at_the_write() {
    for (entry, number) in failing(READ) {
        let min = Case::paged(MIN | BY_X, 2).with(X, THERE);
        assert_counts(&min.table(1, entry), number, 2);
        let min = Case::paged(MIN | INDIRECT | 1, 2).mem(0o101, THERE);
        assert_counts(&min.table(1, entry), number, 3);
        for word in [LBYT, SBYT] {
            let byte = Case::paged(word, 2).with(T, THERE);
            assert_counts(&byte.table(1, entry), number, 2);
        }
    }
    // Read permitted, write not.
    let shut = 0o042001;
    let min = Case::paged(MIN | BY_X, 2).with(X, THERE);
    assert_counts(&min.table(1, shut), 2, 3);
    let min = Case::paged(MIN | INDIRECT | 1, 2).mem(0o101, THERE);
    assert_counts(&min.table(1, shut), 2, 4);
    let byte = Case::paged(SBYT, 2).with(T, THERE);
    assert_counts(&byte.table(1, shut), 2, 3);
}

#[test]
fn lookups_and_marks_are_none() {
    // The first LDA marks both pages, the second finds them marked.
    let mut case = Case::paged(LDA | BY_X, 1).with(X, THERE);
    case.m[0o101] = LDA | BY_X;
    for _ in 0..2 {
        assert_eq!(go(&mut case, 1, false).references, 2);
    }
    assert_eq!(
        (case.t[0] & 0o014000, case.t[1] & 0o014000),
        (0o4000, 0o4000)
    );
}

#[test]
fn window_words_count() {
    for extended in [0, 1] {
        for (paging, ring) in [(0, 0), (1, 3)] {
            let of = |word| {
                let [mut case, long] = modes(&Case::paged(word, 3));
                if extended == 1 {
                    case = long;
                }
                case.s.paging_on = paging;
                case.s.pcr[0] = ring;
                case
            };
            let at = 0o177500;
            assert_eq!(counted(&of(LDA | BY_X).with(X, at)), (0, 2));
            assert_eq!(counted(&of(STF | BY_X).with(X, at)), (0, 4));
            assert_eq!(counted(&of(MIN | BY_X).with(X, at)), (0, 3));
            assert_eq!(counted(&of(SBYT).with(T, at)), (0, 3));
            assert_eq!(counted(&of(SRB).with(X, at)), (0, 9));
            assert_eq!(counted(&of(JMP | INDIRECT | BY_B).with(B, at)), (0, 2));
            // Over its end to address 0.
            assert_eq!(counted(&of(LRB).with(X, 0o177774)), (0, 9));
            // A fetch there: LDA *0.
            let mut case = of(0).with(P, at);
            case.t[[0o100, 0o500][extended]] = LDA;
            assert_eq!(counted(&case), (0, 2));
        }
    }
}

// Ruling 7.2.

#[test]
fn register_instructions_are_one() {
    let words = [
        0o130002, // JAP
        0o140057, // SKP
        0o141257, // RMPY
        0o143200, // MIX3
        0o144057, // SWAP
        0o146157, // COPY
        0o155003, // SHA
        0o170403, // SAA
        0o172403, // AAA
        0o174035, // BSET
        0o150001, // TRA STS
        0o150101, // TRR STS
        0o150201, // MCL STS
        0o150301, // MST STS
        0o150402, // ION
        0o150404, // POF
        0o150406, // SEX
        0o150407, // REX
        0o153457, // IRW
        0o153657, // IRR
        WAIT,
    ];
    for word in words {
        assert_counts(&Case::of(word), 0, 1);
        assert_counts(&Case::paged(word, 2), 0, 1);
    }
    assert_counts(&Case::of(0o141600), 5, 1); // RDIV by 0
    assert_counts(&Case::of(MON), 1, 1);
    for word in [ILLEGAL, 0o100000, 0o150000, 0o143307] {
        assert_counts(&Case::of(word), 4, 1);
        assert_counts(&Case::paged(word, 0), 4, 1);
    }
    // A WAIT that stops.
    assert_eq!(go(&mut Case::of(WAIT), 9, false).references, 1);
}

#[test]
fn privileged_refused_is_one() {
    let words = [
        WAIT, EXAM, DEPO, SRB, LRB, LRB_OWN, 0o164010, 0o143643, 0o150406,
    ];
    for word in words.into_iter().chain((0..7).map(|low| seven(low, 0))) {
        for ring in [0, 1] {
            assert_counts(&Case::paged(word, ring), 6, 1);
            assert_counts(&Case::paged(EXR_L, ring).with(L, word), 6, 1);
        }
        // Lowered by the fetch.
        assert_counts(&Case::paged(word, 3).table(0, 0o161000), 6, 1);
    }
}

#[test]
fn devices_are_none() {
    for word in [0o164010, 0o164300, 0o164301, 0o164305, 0o164307] {
        assert_counts(&Case::of(word), 0, 1);
    }
    assert_counts(&Case::of(0o150415).with(T, 0o300), 0, 1); // IOXT
    assert_counts(&Case::of(0o164014), 7, 1);
    assert_counts(&Case::of(0o150415), 7, 1);
    assert_counts(&Case::of(0o143643), 7, 1);
    let mut case = Case::of(0o143643);
    case.s.devices.clock_asks = 1;
    assert_counts(&case, 0, 1);
}

#[test]
fn jumps_make_none_at_the_target() {
    for code in [JMP, JPL] {
        // The target's page is absent.
        let case = Case::paged(code | BY_X, 2)
            .with(X, THERE)
            .table(1, 0o002000);
        assert_counts(&case, 0, 1);
        let case = Case::paged(code | INDIRECT | 1, 2).table(1, 0o002000);
        assert_counts(&case.mem(0o101, THERE), 0, 2);
    }
}

#[test]
fn exr_adds_none() {
    for (word, interrupt, references) in [
        (LDA | 1, 0, 2),
        (LDA | INDIRECT | 1, 0, 3),
        (STF | INDIRECT | 1, 0, 5),
        (MIN | 1, 0, 3),
        (JMP | INDIRECT | 1, 0, 2),
        (SBYT, 0, 3),
        (LRB, 0, 9),
        (EXAM, 0, 2),
        (seven(2, 0), 0, 3),
        (0o164010, 0, 1),
        (0o170401, 0, 1),
        (MON, 1, 1),
        (ILLEGAL, 4, 1),
        (EXR_L, 4, 1),
        (LDA | BY_B, 9, 2),
        (LDA | INDIRECT | BY_B, 9, 2),
    ] {
        let case = Case::of(EXR_L).with(L, word).with(B, 0o10000);
        assert_counts(&case, interrupt, references);
    }
    // Source 0: STZ.
    assert_counts(&Case::of(0o140600), 0, 2);
}

#[test]
fn exam_and_depo_are_two() {
    for word in [EXAM, DEPO] {
        assert_counts(&Case::of(word).with(D, 0o7777), 0, 2);
        assert_counts(&Case::paged(word, 2).with(D, 0o7777), 0, 2);
        // Past the memory, the window's addresses too.
        for (a, d) in [(0, 0o10000), (0, 0o177400), (1, 0), (0o177777, 0o177777)] {
            assert_counts(&Case::of(word).with(A, a).with(D, d), 9, 2);
        }
    }
}

#[test]
fn register_blocks_are_nine() {
    for (word, permit) in [(SRB, WRITE), (LRB, READ), (LRB_OWN, READ)] {
        assert_counts(&Case::of(word).with(X, THERE), 0, 9);
        assert_counts(&Case::paged(word, 2).with(X, THERE), 0, 9);
        for before in 0..8 {
            for (entry, number) in failing(permit) {
                let case = Case::paged(word, 2).with(X, EDGE - before as u16);
                assert_counts(&case.table(1, entry), number, 2 + before);
            }
            let case = Case::of(word).with(X, 0o10000 - before as u16);
            assert_counts(&case, 9, 2 + before);
        }
    }
}

#[test]
fn a_change_of_level_is_none() {
    let mut case = Case::of(LDA | 1);
    (case.s.interrupts_on, case.s.pid, case.s.pie) = (1, 0o40, 0o40);
    case.s.files[5][2] = 0o200; // P
    case.m[0o200] = MIN | 1;
    for (steps, references) in [(0, 0), (1, 0), (2, 3)] {
        let ran = go(&mut case.clone(), steps, false);
        assert_eq!((ran.steps, ran.references), (steps, references));
        // To the first interrupt it is not made.
        let ran = go(&mut case.clone(), steps, true);
        let none = Ran {
            steps: 0,
            reason: Reason::Level,
            references: 0,
        };
        assert_eq!(ran, none);
    }
}

#[test]
fn a_stopped_machine_makes_none() {
    let mut case = Case::of(LDA | 1);
    case.s.stopped = 1;
    for steps in [0, 1, u64::MAX] {
        for first in [false, true] {
            let ran = go(&mut case.clone(), steps, first);
            assert_eq!((ran.steps, ran.references), (0, 0));
        }
    }
}

// Ruling 7.3.

#[test]
fn the_seven() {
    for low in 0..7 {
        let words = if low == 2 || low == 6 { 2 } else { 1 };
        let case = |x| Case::of(seven(low, 0)).with(X, x);
        assert_counts(&case(THERE), 0, 1 + words);
        assert_counts(&Case::paged(seven(low, 3), 2).with(X, THERE), 0, 1 + words);
        // At p, and at p + 1.
        assert_counts(&case(0o10000), 9, 2);
        assert_counts(&case(THERE).with(T, 1), 9, 2);
        if words == 2 {
            assert_counts(&case(0o7777), 9, 3);
            // The last table word, then past the memory.
            assert_counts(&case(0o177777), 9, 3);
        }
        // Table words.
        assert_counts(&case(0o177400), 0, 1 + words);
    }
}

// Ruling 7.4.

/// A case with a program from 000100 on.
fn program(words: &[u16]) -> Case {
    let mut case = Case::of(0);
    case.m[0o100..0o100 + words.len()].copy_from_slice(words);
    case
}

#[test]
fn a_run_answers_the_sum() {
    // LDA I *4, MIN *4, MON, JMP *-3: 3, 3, 1, 1.
    let code = [LDA | INDIRECT | 4, MIN | 4, MON, 0o124375, THERE, 0];
    let sums = [0, 3, 6, 7, 8, 11, 14, 15, 16];
    for (steps, sum) in (0..).zip(sums) {
        let ran = go(&mut program(&code), steps, false);
        let expected = Ran {
            steps,
            reason: Reason::Spent,
            references: sum,
        };
        assert_eq!(ran, expected);
        // In two parts.
        for part in 0..=steps {
            let mut case = program(&code);
            let first = go(&mut case, part, false).references;
            assert_eq!(first + go(&mut case, steps - part, false).references, sum);
        }
    }
    // The step that gives the interrupt counts.
    let ran = go(&mut program(&code), 8, true);
    let expected = Ran {
        steps: 3,
        reason: Reason::Interrupt,
        references: 7,
    };
    assert_eq!(ran, expected);
    assert_eq!(go(&mut program(&code), 8_000, false).references, 16_000);
}

#[test]
fn a_run_with_input_sums_all_parts() {
    // LDA I *3, MIN *3, JMP *-2: 3, 3, 1.
    let code = [LDA | INDIRECT | 3, MIN | 3, 0o124376, THERE, 0];
    let lists: [&[(u64, Input)]; 5] = [
        &[],
        &[(0, Input::Tick)],
        &[(2, Input::Tick), (5, Input::Typed(7)), (5, Input::ReadOut)],
        &[(6, Input::Tick), (1, Input::Typed(7))],
        &[(7, Input::Tick)],
    ];
    for inputs in lists {
        let Case {
            mut s,
            mut m,
            mut t,
        } = program(&code);
        let ran = run_with_input(&mut s, &mut m, &mut t, 6, inputs).expect("in range");
        assert_eq!(
            (ran.steps, ran.reason, ran.references),
            (6, Reason::Spent, 14)
        );
    }
    // A level is due after the tick at 4: 3, 3, 1, 3.
    let Case {
        mut s,
        mut m,
        mut t,
    } = program(&code);
    (s.interrupts_on, s.pie, s.devices.clock_enabled) = (1, 1 << 13, 1);
    let inputs = [(1, Input::ReadOut), (4, Input::Tick), (5, Input::Tick)];
    let ran = run_with_input(&mut s, &mut m, &mut t, 6, &inputs).expect("in range");
    assert_eq!(
        (ran.steps, ran.reason, ran.references),
        (4, Reason::Level, 10)
    );
    // Stopped, and an interrupt.
    for (word, reason) in [(WAIT, Reason::Stopped), (MON, Reason::Interrupt)] {
        let Case {
            mut s,
            mut m,
            mut t,
        } = program(&[MIN | 3, LDA | 2, word]);
        let inputs = [(1, Input::Tick), (2, Input::Tick), (3, Input::Tick)];
        let ran = run_with_input(&mut s, &mut m, &mut t, 6, &inputs).expect("in range");
        assert_eq!((ran.steps, ran.reason, ran.references), (3, reason, 6));
    }
}

#[test]
fn a_refused_run_tells_none() {
    let case = Case::of(LDA);
    for first in [false, true] {
        let Case {
            mut s,
            mut m,
            mut t,
        } = case.clone();
        s.level = 16;
        assert_eq!(run(&mut s, &mut m, &mut t, 3, first), Err(Refusal::State));
        m.pop();
        assert_eq!(run(&mut s, &mut m, &mut t, 3, first), Err(Refusal::Size));
    }
}

// Ruling 7.5.

/// A run has the references of its steps one by one, and no step more than nine.
#[test]
fn a_run_has_those_of_its_steps() {
    let mut random = Random::new(7);
    let mut most = 0;
    for _ in 0..3_000 {
        let second::vectors::Start {
            state,
            memory,
            tables,
        } = second::vectors::start(&mut random);
        let start = Case {
            s: state,
            m: memory,
            t: tables,
        };
        let steps = random.below(24);
        let whole = go(&mut start.clone(), steps, false);
        let mut case = start;
        let mut sum = 0;
        for _ in 0..whole.steps {
            let one = go(&mut case, 1, false).references;
            assert!(one <= 9);
            most = most.max(one);
            sum += one;
        }
        assert_eq!(whole.references, sum);
    }
    assert_eq!(most, 9);
}
