//! Memory of 16,777,216 words, the most: its last word, and one past it; sizes beside it. Through the archive, with
//! answers worked out by hand from document 02, card 4, and document 01.

#[allow(dead_code)]
mod common;

use common::*;
use nd110::{
    IMAGE_EXTRA, MEMORY_MOST, Machine as Owned, Reason, Refusal, STATE_WORDS, State, Target, load,
    raise, view, write,
};

const LARGEST: usize = 16_777_216;
const LAST: usize = LARGEST - 1;

/// An image for the largest memory: its last word; B at the end of page 1; T and X of the last word; D of it; paging on
/// and extended mode on ring 2; pages 0 and 1, which is memory's last, 16,383.
fn largest_image(program: &[u16]) -> Vec<u16> {
    let mut image = vec![6];
    image.extend([1, 0, 0, 0, program.len() as u16]);
    image.extend([1, 0o377, 0o177777, 0, 1]);
    image.extend([2, 0, 0, 0, 8]);
    image.extend([3, 0, 2, 0, 9]);
    image.extend([3, 0, 27, 0, 1]);
    image.extend([4, 0, 0, 0, 4]);
    image.extend(program);
    image.push(WORD);
    image.extend([0, 0o177777, 0, 0o3777, 0, 0o054321, 0o377, 0o177777]);
    image.extend([1, 0, 0, 0, 0, 0, 0, 0, 2]);
    image.push(1);
    image.extend([0o162000, 0, 0o162000, 0o037777]);
    image
}

/// The machine of that image, loaded over memory that is filled.
fn largest(program: &[u16]) -> Machine {
    let mut m = Machine::new(16_384);
    assert_eq!(m.memory.len(), LARGEST);
    m.memory.fill(FILLED);
    m.tables.fill(FILLED);
    m.state = load(&largest_image(program), &mut m.memory, &mut m.tables).unwrap();
    m
}

/// One step at address 0 on the largest memory itself, not on copies of it, with these words of the state: the
/// interrupt; what it changes of the state, and the last word after it. Then the machine is as it was.
fn gives(m: &mut Machine, word: u16, named: &Named, interrupt: u16, state: &Named, last: u16) {
    let what = format!("{word:06o}, {named:?}");
    let (before, tables, was) = (m.state, m.tables.clone(), m.memory[LAST]);
    m.memory[0] = word;
    for form in [Machine::step, Machine::step_lent] {
        set(&mut m.state.0, named);
        let mut want = m.state;
        set(&mut want.0, state);
        assert_eq!(form(m), Ok(interrupt), "{what}");
        assert_eq!(differ(&m.state.0, &want.0), None, "{what}");
        assert_eq!(m.memory[LAST - 1..], [0, last], "{what}");
        m.state = before;
        m.tables.copy_from_slice(&tables);
        m.memory[LAST] = was;
    }
}

/// The word that the last one of memory has.
const WORD: u16 = 0o123321;
/// P one further, and interrupt 9 detected.
const PAST: (usize, u16) = (P_0, 1);
const NINE: &Named = &[PAST, (IID, 0o1000)];

/// By an entry of page 16,383: read, stored to and fetched.
#[test]
fn last_word_by_an_entry() {
    let mut m = largest(&[LDA_B, WAIT]);
    assert_eq!(m.memory[..2], [LDA_B, WAIT]);
    assert_eq!(m.memory[LAST], WORD);
    assert!(m.memory[2..LAST].iter().all(|word| *word == 0));
    assert_eq!(m.tables[..4], [0o162000, 0, 0o162000, 0o037777]);
    assert!(m.tables[4..].iter().all(|word| *word == 0));
    gives(&mut m, LDA_B, &[], 0, &[PAST, (A_0, WORD)], WORD);
    gives(&mut m, STA_X, &[(X_0, 0o3777)], 0, &[PAST], 0o054321);
    m.memory[LAST] = SAA_5;
    let fetched = [(P_0, 0o4000), (A_0, 5)];
    gives(&mut m, 0, &[(P_0, 0o3777)], 0, &fetched, SAA_5);
}

/// By T and X, and by A and D, with paging on and off, in either mode; and one past it, by displacement, by the second
/// word, by T: 9.
#[test]
fn last_word_by_registers() {
    let mut m = largest(&[WAIT]);
    for (paging, extended) in [(0, 0), (0, 1), (1, 0), (1, 1)] {
        let mode = [(PAGING, paging), (EXTENDED, extended)];
        let with = |named: &Named| [&mode, named].concat();
        gives(&mut m, LDATX, &mode, 0, &[PAST, (A_0, WORD)], WORD);
        gives(&mut m, LDXTX, &mode, 0, &[PAST, (X_0, WORD)], WORD);
        gives(&mut m, LDBTX, &mode, 0, &[PAST, (B_0, 0o177642)], WORD);
        gives(&mut m, STATX, &mode, 0, &[PAST], 0o054321);
        gives(&mut m, STZTX, &mode, 0, &[PAST], 0);
        for code in [LDDTX, STDTX, LDATX + 0o10, STATX + 0o70] {
            gives(&mut m, code, &mode, 9, NINE, WORD);
        }
        for code in SEVEN {
            gives(
                &mut m,
                code,
                &with(&[(T_0, 0o400), (X_0, 0)]),
                9,
                NINE,
                WORD,
            );
        }
        // A x 65,536 + D, by which EXAM loads T and DEPO stores it
        let last = with(&[(A_0, 0o377)]);
        gives(&mut m, EXAM, &last, 0, &[PAST, (T_0, WORD)], WORD);
        gives(&mut m, DEPO, &last, 0, &[PAST], 0o377);
        let beyond = with(&[(A_0, 0o400), (D_0, 0)]);
        gives(&mut m, EXAM, &beyond, 9, NINE, WORD);
        gives(&mut m, DEPO, &beyond, 9, NINE, WORD);
    }
}

/// A run of either form, a raise, a view, and the machine written and loaded again.
#[test]
fn largest_image_again() {
    let program = [LDA_B, STATX, LDATX + 8, WAIT];
    let mut m = largest(&program);
    // LDA by page 16,383, STATX of it, then LDATX one past the memory: two references each
    assert_eq!(m.run_to_interrupt(10), Ok(ran(3, Reason::Interrupt, 6)));
    let named: &Named = &[
        (D_0, 0o177777),
        (P_0, 3),
        (B_0, 0o3777),
        (A_0, 0o123321),
        (T_0, 0o377),
        (X_0, 0o177777),
        (PAGING, 1),
        (IID, 0o1000),
        (PCR_0, 2),
        (EXTENDED, 1),
    ];
    let mut want = State::new();
    set(&mut want.0, named);
    assert_eq!(m.state, want);
    assert_eq!(raise(&mut m.state, 10, &m.memory, &m.tables), Ok(()));
    assert_eq!(m.state.0[PID], 0o2000);
    assert_eq!(m.run(10), Ok(ran(1, Reason::Stopped, 1)));
    let part = |start, len| view(Target::Memory, start, len, &m.memory, &m.tables);
    assert_eq!(part(LAST, 1), Ok(&[0o123321][..]));
    assert_eq!(part(LARGEST, 0), Ok(&[][..]));
    assert_eq!(part(LAST, 2), Err(Refusal::View));
    assert_eq!(part(LARGEST, 1), Err(Refusal::View));
    assert_eq!(part(0, LARGEST).map(<[u16]>::len), Ok(LARGEST));
    let mut image = vec![FILLED; LARGEST + 706 + 1];
    let written = write(&m.state, &m.memory, &m.tables, &mut image[..LARGEST + 705]);
    assert_eq!(written, Err(Refusal::Output));
    assert!(image.iter().all(|word| *word == FILLED));
    assert_eq!(write(&m.state, &m.memory, &m.tables, &mut image), Ok(()));
    assert_eq!(image.pop(), Some(FILLED));
    let contents = [
        5, 1, 0, 0, 256, 0, 2, 0, 0, 0, 128, 3, 0, 0, 0, 28, 4, 0, 0, 0, 512, 5, 0, 0, 0, 12,
    ];
    assert_eq!(image[..26], contents);
    assert_eq!(differ(&image[26..26 + LARGEST], &m.memory), None);
    assert_eq!(image[26 + LARGEST..][..156], m.state.0[..156]);
    assert_eq!(image[26 + LARGEST + 156..][..512], m.tables);
    assert_eq!(image[26 + LARGEST + 156 + 512..], m.state.0[156..]);
    let owned = Owned::load(&image, 16_384).unwrap();
    assert_eq!(*owned.state(), m.state);
    assert_eq!(differ(owned.memory(), &m.memory), None);
    assert_eq!(owned.tables()[..], m.tables);
}

/// One page more than the most, and one word less than it: 1.
#[test]
fn sizes_about_the_largest() {
    assert_eq!((MEMORY_MOST, STATE_WORDS, IMAGE_EXTRA), (LARGEST, 168, 706));
    let mut m = Machine::new(16_385);
    for len in [16_778_240, 16_777_217, 16_777_215] {
        m.memory.truncate(len);
        assert_eq!(m.memory.len(), len);
        for extended in [0, 1] {
            m.state.0[EXTENDED] = extended;
            m.refuses_sizes();
        }
    }
    m.memory.truncate(16_776_192);
    assert_eq!(m.step(), Ok(0));
}
