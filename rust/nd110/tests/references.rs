//! Memory references: what a run tells beside its steps and why it ended. Through the archive, by every form of the run.
//! What must come is worked out by hand from document 02, card 7: a word fetched, an indirect word, an operand word read
//! or written, an access that fails included and none after it. tests/calls.c has a part of it through the C header.

#[allow(dead_code)]
mod common;

use common::*;
use nd110::{Input, InputRun, Machine as Owned, Ran, Reason, Refusal};

const ON_RING_2: &Named = &[(PAGING, 1), (PCR_0, 2)];

/// The references of so many steps, of which none but the last may give an interrupt: every form of the run tells them,
/// and leaves the same machine.
fn references(m: &Machine, steps: u64, what: &str) -> u64 {
    let [mut through, mut first, mut with_input] = [(); 3].map(|()| m.clone());
    let ran = through.run(steps).unwrap();
    let to_interrupt = first.run_to_interrupt(steps).unwrap();
    let input = with_input.run_with_input(steps, &[]).unwrap();
    assert_eq!(ran.references, to_interrupt.references, "{what}");
    let want = InputRun {
        steps: to_interrupt.steps,
        reason: to_interrupt.reason,
        references: to_interrupt.references,
        told: vec![],
    };
    assert_eq!(input, want, "{what}");
    first.is(&through, what);
    with_input.is(&through, what);
    ran.references
}

/// One step of a machine of one page with the word at 0, B 100 and 300 there, T 320, and these words of the state: the
/// interrupt, and the references.
type One = (&'static str, u16, &'static Named, u16, u64);

const LAST: u16 = 0o1777;

const STEPS: [One; 52] = [
    ("SAA 5", 0o170405, &[], 0, 1),
    ("RADD SA DX", 0o146057, &[], 0, 1),
    ("LDA", 0o044400, &[], 0, 2),
    ("LDA I", 0o045400, &[], 0, 3),
    ("LDA I ,X", 0o047400, &[(X_0, 7)], 0, 3),
    ("STZ", 0o000400, &[], 0, 2),
    ("STA I", 0o005400, &[], 0, 3),
    ("ADD", 0o060400, &[], 0, 2),
    ("MPY I", 0o121400, &[], 0, 3),
    ("LDD", 0o024400, &[], 0, 3),
    ("STD I", 0o021400, &[], 0, 4),
    ("LDF", 0o034400, &[], 0, 4),
    ("STF", 0o030400, &[], 0, 4),
    ("STF I", 0o031400, &[], 0, 5),
    ("MIN", 0o040400, &[], 0, 3),
    ("MIN I", 0o041400, &[], 0, 4),
    ("JMP", 0o124400, &[], 0, 1),
    ("JMP I", 0o125400, &[], 0, 2),
    ("JPL I", 0o135400, &[], 0, 2),
    // past the memory: the fetch there is the next step's
    ("JMP I to no word", 0o125400, &[(B_0, 0o101)], 0, 2),
    ("JAP that jumps", 0o130010, &[], 0, 1),
    ("LBYT", 0o142200, &[(X_0, 5)], 0, 2),
    ("SBYT", 0o142600, &[(X_0, 5)], 0, 3),
    ("EXR of LDA", EXR_D, &[(D_0, 0o044400)], 0, 2),
    ("EXR of STF I", EXR_D, &[(D_0, 0o031400)], 0, 5),
    ("EXR of SRB", EXR_D, &[(D_0, 0o152412)], 0, 9),
    ("EXR of EXR", EXR_D, &[(D_0, EXR_D)], 4, 1),
    ("EXAM", EXAM, &[], 0, 2),
    ("DEPO", DEPO, &[], 0, 2),
    ("EXAM past memory", EXAM, &[(D_0, LAST + 1)], 9, 2),
    ("DEPO past memory", DEPO, &[(D_0, LAST + 1)], 9, 2),
    ("LDATX", LDATX, &[(T_0, 0)], 0, 2),
    ("LDDTX", LDDTX, &[(T_0, 0)], 0, 3),
    ("STDTX", STDTX, &[(T_0, 0)], 0, 3),
    ("STDTX past memory", STDTX, &[], 9, 2),
    ("SRB", 0o152412, &[(X_0, 0o200)], 0, 9),
    ("SRB of the running level", 0o152402, &[(X_0, 0o200)], 0, 9),
    ("LRB", 0o152610, &[(X_0, 0o200)], 0, 9),
    ("LRB of the running level", 0o152600, &[(X_0, 0o200)], 0, 9),
    ("MON 7", 0o153007, &[], 1, 1),
    ("no instruction", 0o160000, &[], 4, 1),
    ("IOX 306", 0o164306, &[], 0, 1),
    ("IOX 7", 0o164007, &[], 7, 1),
    ("IOXT", 0o150415, &[], 7, 1),
    ("IDENT PL10", 0o143604, &[], 7, 1),
    ("TRA STS", TRA_STS, &[], 0, 1),
    ("IRR", 0o153610, &[], 0, 1),
    ("WAIT", WAIT, &[], 0, 1),
    // a word of the page tables, as an operand and as an indirect word
    ("STA in the window", 0o004400, &[(B_0, 0o177400)], 0, 2),
    ("LDA I in the window", 0o045400, &[(B_0, 0o177400)], 0, 3),
    // accesses that fail
    ("a fetch", SAA_5, &[(P_0, LAST + 1)], 9, 1),
    ("an indirect word", 0o031400, &[(B_0, LAST + 1)], 9, 2),
];

#[test]
fn of_one_step() {
    for (what, word, state, interrupt, made) in STEPS {
        let start = Machine::new(1)
            .with(&[(B_0, 0o100), (T_0, 0o320)], &[(0, word)], &[])
            .with(state, &[(0o100, 0o300), (0o101, LAST + 1)], &[]);
        start.stepped(interrupt, what);
        assert_eq!(references(&start, 1, what), made, "{what}");
        assert_eq!(references(&start, 0, what), 0, "no step of {what}");
    }
}

/// STZ, STA, STT, STX, STD, LDD, STF, LDF, MIN, LDA, LDT, LDX, ADD, SUB, AND, ORA, MPY, JMP and JPL in every address
/// mode: the fetch, the indirect word and so many for the operand. Displacement 0, so that P + 0 is the word itself.
#[test]
fn of_the_nineteen() {
    let codes = (0..0o20).chain([0o24, 0o25, 0o27]);
    let operands = [1, 1, 1, 1, 2, 2, 3, 3, 2, 1, 1, 1, 1, 1, 1, 1, 1, 0, 0];
    assert_eq!(codes.clone().count(), operands.len());
    for (code, operand) in codes.zip(operands) {
        for mode in 0..8 {
            let word: u16 = code << 11 | mode << 8;
            // bit 9, I; the word at B, and the instruction itself, are addresses within the memory
            let indirect = u64::from(mode >> 1 & 1);
            let start = Machine::new(64).with(
                &[(P_0, 0o200), (B_0, 0o100), (X_0, 0o1000)],
                &[(0o200, word), (0o100, 0o300)],
                &[],
            );
            let what = format!("{word:06o}");
            start.stepped(0, &what);
            assert_eq!(
                references(&start, 1, &what),
                1 + indirect + operand,
                "{what}"
            );
        }
    }
}

/// Operands of several words that end beyond the memory, by X: up to and with the word that fails.
#[test]
fn of_operands_that_fail() {
    for (word, words) in [
        (0o026000, 2), // LDD
        (0o022000, 2), // STD
        (0o036000, 3), // LDF
        (0o032000, 3), // STF
        (0o152412, 8), // SRB
        (0o152610, 8), // LRB
    ] {
        for there in 0..=words {
            let start = Machine::new(1).with(&[(X_0, LAST + 1 - there)], &[(0, word)], &[]);
            let interrupt = if there == words { 0 } else { 9 };
            let what = format!("{word:06o} with {there} words");
            start.stepped(interrupt, &what);
            let made = 1 + u64::from(words.min(there + 1));
            assert_eq!(references(&start, 1, &what), made, "{what}");
        }
    }
}

/// With paging on, on ring 2: page 0 has the program, page 1 may be read alone, page 2 has no entry. Looking an entry up
/// and marking it is no reference.
#[test]
fn of_pages() {
    let rows: [One; 12] = [
        ("LDA", 0o046000, &[(X_0, 0o2000)], 0, 2),
        ("STA", 0o006000, &[(X_0, 0o2000)], 2, 2),
        // it is read before it cannot be written
        ("MIN", 0o042000, &[(X_0, 0o2000)], 2, 3),
        ("SBYT", 0o142600, &[(T_0, 0o2000)], 2, 3),
        ("MIN of no page", 0o042000, &[(X_0, 0o4000)], 3, 2),
        ("LDD at the page's end", 0o026000, &[(X_0, 0o3777)], 3, 3),
        ("STD from page 0 to 1", 0o022000, &[(X_0, LAST)], 2, 3),
        ("LDA I of no page", 0o045400, &[(B_0, 0o4000)], 3, 2),
        ("LDA I to no page", 0o045400, &[(B_0, 0o2000)], 3, 3),
        (
            "a fetch that is not permitted",
            SAA_5,
            &[(P_0, 0o2000)],
            2,
            1,
        ),
        ("a fetch on ring 0", SAA_5, &[(PCR_0, 0)], 2, 1),
        ("MON", 0o153000, &[], 1, 1),
    ];
    for (what, word, state, interrupt, made) in rows {
        let start = Machine::new(2)
            .with(
                ON_RING_2,
                &[(0, word), (1024, 0o4000)],
                &[(0, 0o162000), (1, 0o042001)],
            )
            .with(state, &[], &[]);
        start.stepped(interrupt, what);
        assert_eq!(references(&start, 1, what), made, "{what}");
    }
    // a privileged code on ring 1, in a page of ring 1
    let start = Machine::new(1).with(
        &[(PAGING, 1), (PCR_0, 1)],
        &[(0, 0o152412)],
        &[(0, 0o161000)],
    );
    start.stepped(6, "SRB on ring 1");
    assert_eq!(references(&start, 1, "SRB on ring 1"), 1);
}

/// A change of level makes none, and a machine that is stopped takes no step; a run to the interrupt ends before the
/// change.
#[test]
fn of_no_fetch() {
    let due: &Named = &[(ION, 1), (PID, 0o2000), (PIE, 0o2000)];
    let start = Machine::new(1).with(due, &[(0, SAA_5)], &[]);
    let mut m = start.clone();
    assert_eq!(m.run_to_interrupt(5), Ok(ran(0, Reason::Level, 0)));
    assert_eq!(m.run(1), Ok(ran(1, Reason::Spent, 0)));
    assert_eq!(m.state.0[LEVEL], 10);
    assert_eq!(m.run(1), Ok(ran(1, Reason::Spent, 1)));
    let mut m = start.with(&[(STOPPED, 1)], &[], &[]);
    assert_eq!(m.run(5), Ok(ran(0, Reason::Stopped, 0)));
    assert_eq!(m.run_to_interrupt(5), Ok(ran(0, Reason::Stopped, 0)));
}

/// LDA I 0,B, STF I 1,B, MIN 2,B, LBYT and JMP *-4: 3, 5, 3, 2 and 1 references, 14 for five steps.
fn looping() -> Machine {
    let program = [0o045400, 0o031401, 0o040402, 0o142200, 0o124374];
    let mut m = Machine::new(1).with(
        &[(B_0, 0o100), (T_0, 0o320)],
        &[(0o100, 0o300), (0o101, 0o310)],
        &[],
    );
    m.memory[..5].copy_from_slice(&program);
    m
}

#[test]
fn of_a_thousand_steps() {
    let start = looping();
    assert_eq!(references(&start, 1000, "a loop"), 200 * 14);
    let mut whole = start.clone();
    assert_eq!(whole.run(1000), Ok(ran(1000, Reason::Spent, 2800)));
    // step by step, and in two runs wherever it is parted
    let forms: [fn(&mut Machine, u64) -> _; 2] = [Machine::run, Machine::run_to_interrupt];
    for form in forms {
        let mut m = start.clone();
        let mut sum = 0;
        for _ in 0..1000 {
            let Ran { references, .. } = form(&mut m, 1).unwrap();
            sum += references;
        }
        assert_eq!(sum, 2800);
        m.is(&whole, "single steps");
        for parted in (0..=1000).step_by(37) {
            let mut m = start.clone();
            let first = form(&mut m, parted).unwrap().references;
            assert_eq!(
                first + form(&mut m, 1000 - parted).unwrap().references,
                2800
            );
        }
    }
    // more than 16 bits hold; MIN would skip in the 65,536th round
    let mut m = start.clone();
    assert_eq!(m.run(300_000), Ok(ran(300_000, Reason::Spent, 840_000)));
}

/// What is handed in makes none.
#[test]
fn of_a_run_with_input() {
    let inputs = [
        (0, Input::Tick),
        (3, Input::Raise(11)),
        (3, Input::Raise(9)),
        (500, Input::Typed(b'A')),
        (500, Input::Typed(b'B')),
        (999, Input::ReadOut),
    ];
    let mut m = looping();
    let told = m.run_with_input(1000, &inputs).unwrap();
    assert_eq!(
        (told.steps, told.reason, told.references),
        (1000, Reason::Spent, 2800)
    );
    assert_eq!(told.told.len(), 6);
    let mut m = looping();
    let told = m.run_with_input(0, &inputs).unwrap();
    assert_eq!((told.steps, told.references), (0, 0));
}

/// Of a machine that is owned, and none where it is refused.
#[test]
fn of_a_machine() {
    let image = [1, 1, 0, 0, 0, 3, 0o044000, 0o004001, WAIT];
    let mut machine = Owned::load(&image, 1).unwrap();
    // LDA *0 and STA *1, over the WAIT: A is 044000, so that LDA *0 is executed once more
    assert_eq!(machine.run(2), Ok(ran(2, Reason::Spent, 4)));
    assert_eq!(machine.run_to_interrupt(1), Ok(ran(1, Reason::Spent, 2)));
    machine.state_mut().0[LEVEL] = 16;
    assert_eq!(machine.run(2), Err(Refusal::State));
    assert_eq!(machine.run_to_interrupt(2), Err(Refusal::State));
    assert_eq!(machine.run_with_input(2, &[]), Err(Refusal::State));
}
