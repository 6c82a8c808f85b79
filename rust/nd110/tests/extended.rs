//! Extended mode: SEX and REX, page table entries of two words, the seven instructions that reach physical memory by T
//! and X, and images of either mode. Through the archive, by every form of the step. What must come is worked out by
//! hand from document 02, card 4, and documents 01 and 002. largest.rs has the largest memory, tests/calls.c a part of
//! both through the C header.

#[allow(dead_code)]
mod common;

use common::*;
use nd110::{
    Control, IMAGE_EXTRA, Machine as Owned, PAGE_WORDS, Reason, Refusal, TABLE_WORDS, load, write,
};

/// SEX or REX, TRA STS, WAIT, from either mode: bit 12 of the full status word is always 1, bit 13 is the flag.
#[test]
fn status() {
    for (word, flag, a) in [(SEX, 1, 0o030000), (REX, 0, 0o010000)] {
        for before in [0, 1] {
            let program = [(0, word), (1, TRA_STS), (2, WAIT)];
            let start = Machine::new(1).with(&[(EXTENDED, before)], &program, &[]);
            let m = start.gives(0, &[(P_0, 1), (EXTENDED, flag)], &[], &[], "SEX, REX");
            let m = m.gives(0, &[(P_0, 2), (A_0, a)], &[], &[], "TRA STS");
            let end = m.gives(0, &[(P_0, 3), (STOPPED, 1)], &[], &[], "WAIT");
            let mut through = start.clone();
            assert_eq!(through.run(10), Ok(ran(3, Reason::Stopped, 3)));
            through.is(&end, "a run");
            assert_eq!(through.state.control(Control::Extended), flag);
        }
    }
}

/// On level 9 with interrupts and paging on and flags 252; then TRR, MCL and MST of STS, which reach bits 7-0 only.
#[test]
fn full_status() {
    for (flag, a) in [(0, 0o154652), (1, 0o174652)] {
        let level_9 = [
            (8 * 9, 0o252),
            (LEVEL, 9),
            (ION, 1),
            (PAGING, 1),
            (PID, 0o1000),
            (PIE, 0o1000),
            (PCR_0 + 9, 2),
            (EXTENDED, flag),
        ];
        // page 0 by its first word, in the one form and in the other
        let start = Machine::new(1).with(&level_9, &[(0, TRA_STS)], &[(0, 0o162000)]);
        let change: &Named = &[(8 * 9 + P_0, 1), (8 * 9 + A_0, a)];
        start.gives(0, change, &[], &[(0, 0o166000)], "TRA STS");
        for (word, a, sts) in [
            (TRR_STS, 0o177777, 0o377),
            (TRR_STS, 0, 0),
            (MCL_STS, 0o020000, 0o252),
            (MCL_STS, 0o177777, 0),
            (MST_STS, 0o020000, 0o252),
            (MST_STS, 0o177777, 0o377),
        ] {
            let named = [(0, 0o252), (A_0, a), (EXTENDED, flag)];
            let start = Machine::new(1).with(&named, &[(0, word)], &[]);
            let what = format!("{word:06o} of {a:06o}");
            start.gives(0, &[(P_0, 1), (0, sts)], &[], &[], &what);
        }
    }
}

/// SEX, REX and the seven on every ring, with paging on and off, by themselves and by EXR. T and X are 0, and word 0 of
/// memory is 0: a load of it into B gives 177000.
#[test]
fn privileged() {
    for code in SEVEN.into_iter().chain([SEX, REX]) {
        for (ring, paging) in (0..4).flat_map(|ring| [(ring, 0), (ring, 1)]) {
            for word in [code, EXR_D] {
                let what = format!("{word:06o} {code:06o} on ring {ring}, paging {paging}");
                let entry = 0o160000 | ring << 9;
                let start = Machine::new(1).with(
                    &[(P_0, 0o100), (D_0, code), (PAGING, paging), (PCR_0, ring)],
                    &[(0o100, word)],
                    &[(0, entry)],
                );
                let fetched = [(0, entry | paging << 11)];
                let end = |state: &Named, memory: &Named, interrupt| {
                    let m = start.with(&[(P_0, 0o101)], &[], &[]);
                    let m = m.with(state, memory, &fetched);
                    start.stepped(interrupt, &what).is(&m, &what);
                };
                if paging == 1 && ring < 2 {
                    end(&[(IID, 0o100)], &[], 6);
                    continue;
                }
                match code {
                    SEX => end(&[(EXTENDED, 1)], &[], 0),
                    LDBTX => end(&[(B_0, 0o177000)], &[], 0),
                    LDDTX => end(&[(D_0, 0)], &[], 0),
                    STDTX => end(&[], &[(1, STDTX)], 0),
                    _ => end(&[], &[], 0),
                }
            }
        }
    }
}

/// On ring 3, from a page of ring 1, to which the fetch lowers the program: 6.
#[test]
fn privileged_after_the_fetch() {
    for code in SEVEN.into_iter().chain([SEX, REX]) {
        for extended in [0, 1] {
            let named = [(PAGING, 1), (PCR_0, 3), (EXTENDED, extended)];
            let start = Machine::new(1).with(&named, &[(0, code)], &[(0, 0o161000)]);
            let change: &Named = &[(P_0, 1), (PCR_0, 1)];
            let what = format!("{code:06o}");
            start.gives(6, change, &[], &[(0, 0o165000)], &what);
        }
    }
}

/// On ring 2 with normal table 2: slot 128 is word 128, page 0, in 19-bit mode and the words 256 and 257, page 1, in
/// extended mode. SEX in page 0; SAA 5 and REX in page 1; AAA 3 and WAIT in page 0.
fn both_forms() -> Machine {
    Machine::new(2).with(
        &[(PAGING, 1), (PCR_0, 0o2002)],
        &[(0, SEX), (1025, SAA_5), (1026, REX), (3, AAA_3), (4, WAIT)],
        &[(128, 0o162000), (256, 0o162777), (257, 0o140001)],
    )
}

/// Its first step, SEX, which is fetched by the short entry.
fn sex_executed(start: &Machine) -> Machine {
    let state = [(P_0, 1), (EXTENDED, 1)];
    start.gives(0, &state, &[], &[(128, 0o166000)], "SEX")
}

#[test]
fn next_access() {
    let start = both_forms();
    let m = sex_executed(&start);
    let m = m.gives(0, &[(P_0, 2), (A_0, 5)], &[], &[(256, 0o166777)], "SAA");
    let m = m.gives(0, &[(P_0, 3), (EXTENDED, 0)], &[], &[], "REX");
    let m = m.gives(0, &[(P_0, 4), (A_0, 0o10)], &[], &[], "AAA");
    let end = m.gives(0, &[(P_0, 5), (STOPPED, 1)], &[], &[], "WAIT");
    let forms: [fn(&mut Machine, u64) -> _; 2] = [Machine::run, Machine::run_to_interrupt];
    for form in forms {
        let mut m = start.clone();
        assert_eq!(form(&mut m, 100), Ok(ran(5, Reason::Stopped, 5)));
        m.is(&end, "a run");
    }
}

/// The fetch behind SEX faults by the long entry: PGS has the slot as it is, 128, not doubled. Of a page that is not
/// there nothing is told.
#[test]
fn next_fetch_faults() {
    for (entry, interrupt, pgs) in [
        ([0o017777, 1], 3, Some(0o140200)),
        ([0o142000, 1], 2, Some(0o140200)),
        ([0o163000, 1], 2, Some(0o100200)),
        ([0o162000, 2], 9, None),
        ([0o162000, 0o037777], 9, None),
    ] {
        let tables = [(256, entry[0]), (257, entry[1])];
        let start = both_forms().with(&[], &[], &tables);
        let m = sex_executed(&start);
        let told = pgs.map(|pgs| [(PGS, pgs), (HELD, 1)]);
        let state: &Named = told.as_ref().map_or(&[], |told| told);
        m.gives(interrupt, state, &[], &[], "the fetch behind SEX");
        let mut m = start.clone();
        // SEX, and the fetch that fails
        assert_eq!(m.run_to_interrupt(10), Ok(ran(2, Reason::Interrupt, 2)));
    }
}

/// One step in extended mode at 002000 with A 054321, B 004005 and X 006007, normal table 1: its word; the ring; the
/// first words of the entries of pages 1, 2 and 3, by which it is fetched, B reads and X stores, or what B reads is an
/// address. Then what comes: the interrupt; P, A and the ring; PGS, if it is written; the first words; and whether A is
/// stored.
type One = (
    u16,
    u16,
    [u16; 3],
    u16,
    [u16; 3],
    Option<u16>,
    [u16; 3],
    bool,
);

/// P, A and the ring of a step that loads nothing: past the word, and at the word.
const fn past(ring: u16) -> [u16; 3] {
    [0o2001, 0o054321, ring]
}
const fn here(ring: u16) -> [u16; 3] {
    [0o2000, 0o054321, ring]
}

#[rustfmt::skip]
const ONES: &[One] = &[
    // reads on each ring; of a page of ring 0 with only the read permit, and bits that mean nothing
    (LDA_B, 0, [0o160000, 0o160000, 0], 0, [0o2001, 0o006007, 0], None, [0o164000, 0o164000, 0], false),
    (LDA_B, 1, [0o161000, 0o161000, 0], 0, [0o2001, 0o006007, 1], None, [0o165000, 0o165000, 0], false),
    (LDA_B, 2, [0o162000, 0o162000, 0], 0, [0o2001, 0o006007, 2], None, [0o166000, 0o166000, 0], false),
    (LDA_B, 3, [0o163000, 0o163000, 0], 0, [0o2001, 0o006007, 3], None, [0o167000, 0o167000, 0], false),
    (LDA_B, 3, [0o163777, 0o040777, 0], 0, [0o2001, 0o006007, 3], None, [0o167777, 0o044777, 0], false),
    // of a page of a ring above
    (LDA_B, 0, [0o160000, 0o161000, 0], 2, past(0), Some(0o000102), [0o164000, 0o161000, 0], false),
    (LDA_B, 1, [0o161000, 0o162000, 0], 2, past(1), Some(0o000102), [0o165000, 0o162000, 0], false),
    (LDA_B, 2, [0o162000, 0o163000, 0], 2, past(2), Some(0o000102), [0o166000, 0o163000, 0], false),
    // without the read permit, which is told before the ring; without any
    (LDA_B, 2, [0o162000, 0o122000, 0], 2, past(2), Some(0o040102), [0o166000, 0o122000, 0], false),
    (LDA_B, 0, [0o160000, 0o123000, 0], 2, past(0), Some(0o040102), [0o164000, 0o123000, 0], false),
    (LDA_B, 3, [0o163000, 0o017777, 0], 3, past(3), Some(0o040102), [0o167000, 0o017777, 0], false),
    (LDA_B, 0, [0o160000, 0o000000, 0], 3, past(0), Some(0o040102), [0o164000, 0o000000, 0], false),
    // stores on each ring; with only the write permit
    (STA_X, 0, [0o160000, 0, 0o160000], 0, past(0), None, [0o164000, 0, 0o174000], true),
    (STA_X, 1, [0o161000, 0, 0o161000], 0, past(1), None, [0o165000, 0, 0o175000], true),
    (STA_X, 2, [0o162000, 0, 0o162000], 0, past(2), None, [0o166000, 0, 0o176000], true),
    (STA_X, 3, [0o163000, 0, 0o163000], 0, past(3), None, [0o167000, 0, 0o177000], true),
    (STA_X, 2, [0o162000, 0, 0o100777], 0, past(2), None, [0o166000, 0, 0o114777], true),
    // without the write permit; to a ring above; without any permit
    (STA_X, 2, [0o162000, 0, 0o062000], 2, past(2), Some(0o040103), [0o166000, 0, 0o062000], false),
    (STA_X, 1, [0o161000, 0, 0o162000], 2, past(1), Some(0o000103), [0o165000, 0, 0o162000], false),
    (STA_X, 0, [0o160000, 0, 0o000777], 3, past(0), Some(0o040103), [0o164000, 0, 0o000777], false),
    // fetches from a ring above, without the fetch permit, without any
    (LDA_B, 0, [0o161000, 0o160000, 0], 2, here(0), Some(0o100101), [0o161000, 0o160000, 0], false),
    (LDA_B, 2, [0o163000, 0o160000, 0], 2, here(2), Some(0o100101), [0o163000, 0o160000, 0], false),
    (LDA_B, 3, [0o143000, 0o160000, 0], 2, here(3), Some(0o140101), [0o143000, 0o160000, 0], false),
    (LDA_B, 1, [0o000777, 0o160000, 0], 3, here(1), Some(0o140101), [0o000777, 0o160000, 0], false),
    // fetches from a ring below, to which they lower the program, with only the fetch permit
    (LDA_B, 3, [0o020777, 0o160000, 0], 0, [0o2001, 0o006007, 0], None, [0o024777, 0o164000, 0], false),
    (LDA_B, 3, [0o161000, 0o162000, 0], 2, past(1), Some(0o000102), [0o165000, 0o162000, 0], false),
    (STA_X, 2, [0o161000, 0, 0o161000], 0, past(1), None, [0o165000, 0, 0o175000], true),
    // indirect words on each ring; by the fetch permit alone, by the read permit alone
    (LDA_I_B, 0, [0o160000, 0o160000, 0o160000], 0, [0o2001, 0o123321, 0], None, [0o164000, 0o164000, 0o164000], false),
    (LDA_I_B, 1, [0o161000, 0o161000, 0o161000], 0, [0o2001, 0o123321, 1], None, [0o165000, 0o165000, 0o165000], false),
    (LDA_I_B, 2, [0o162000, 0o162000, 0o162000], 0, [0o2001, 0o123321, 2], None, [0o166000, 0o166000, 0o166000], false),
    (LDA_I_B, 3, [0o163000, 0o163000, 0o163000], 0, [0o2001, 0o123321, 3], None, [0o167000, 0o167000, 0o167000], false),
    (LDA_I_B, 2, [0o162000, 0o022000, 0o042000], 0, [0o2001, 0o123321, 2], None, [0o166000, 0o026000, 0o046000], false),
    (LDA_I_B, 2, [0o162000, 0o042000, 0o042000], 0, [0o2001, 0o123321, 2], None, [0o166000, 0o046000, 0o046000], false),
    // by the write permit alone, of a ring above, without any permit; then the word that it names may not be read
    (LDA_I_B, 2, [0o162000, 0o102000, 0o162000], 2, past(2), Some(0o040102), [0o166000, 0o102000, 0o162000], false),
    (LDA_I_B, 1, [0o161000, 0o162000, 0o161000], 2, past(1), Some(0o000102), [0o165000, 0o162000, 0o161000], false),
    (LDA_I_B, 3, [0o163000, 0o000000, 0o163000], 3, past(3), Some(0o040102), [0o167000, 0o000000, 0o163000], false),
    (LDA_I_B, 2, [0o162000, 0o162000, 0o022000], 2, past(2), Some(0o040103), [0o166000, 0o166000, 0o022000], false),
];

/// The machine of such a step. The pages 1, 2 and 3 are memory's 4, 3 and 1: in the second words, which also have bits
/// 15 and 14, that mean nothing.
fn one(word: u16, ring: u16, first: [u16; 3]) -> Machine {
    Machine::new(5).with(
        &[
            (P_0, 0o2000),
            (B_0, 0o004005),
            (A_0, 0o054321),
            (X_0, 0o006007),
            (PAGING, 1),
            (PCR_0, 0o1000 | ring),
            (EXTENDED, 1),
        ],
        &[(4096, word), (3077, 0o006007), (1031, 0o123321)],
        &[
            (130, first[0]),
            (131, 0o140004),
            (132, first[1]),
            (133, 0o040003),
            (134, first[2]),
            (135, 0o100001),
        ],
    )
}

#[test]
fn one_step() {
    for &(word, ring, first, interrupt, [p, a, lowered], pgs, marked, stored) in ONES {
        let start = one(word, ring, first);
        let mut state = vec![(P_0, p), (A_0, a), (PCR_0, 0o1000 | lowered)];
        if let Some(pgs) = pgs {
            state.extend([(PGS, pgs), (HELD, 1)]);
        }
        let memory = [(1031, if stored { 0o054321 } else { 0o123321 })];
        let tables = [(130, marked[0]), (132, marked[1]), (134, marked[2])];
        let row = format!("{word:06o} on ring {ring} by {first:?}");
        start.gives(interrupt, &state, &memory, &tables, &row);
    }
}

/// A page has fourteen bits: every one that memory, of five pages, does not have gives 9, also those whose low bits are
/// of one that it has. An entry that fails is not marked, and PGS stays.
#[test]
fn pages_beyond() {
    for page in [
        5, 0o777, 0o1001, 0o4003, 0o10004, 0o20001, 0o37777, 0o140005,
    ] {
        let what = format!("page {page:o}");
        let all = [0o162000; 3];
        let beyond = |word, at| one(word, 2, all).with(&[], &[], &[(at, page)]);
        let past = (P_0, 0o2001);
        let fetched = (130, 0o166000);
        beyond(LDA_B, 131).gives(9, &[], &[], &[], &what);
        beyond(LDA_B, 133).gives(9, &[past], &[], &[fetched], &what);
        beyond(STA_X, 135).gives(9, &[past], &[], &[fetched], &what);
        beyond(LDA_I_B, 133).gives(9, &[past], &[], &[fetched], &what);
        let marked = [fetched, (132, 0o166000)];
        beyond(LDA_I_B, 135).gives(9, &[past], &[], &marked, &what);
    }
}

/// With PTM 1 B reads by the alternate table, 3: page 2 is slot 194 there, the words 388 and 389, and page 63 slot 255,
/// the last two.
#[test]
fn alternate_table() {
    let named = [(0, 1), (PCR_0, 0o1602)];
    let start = one(LDA_B, 2, [0o162000, 0, 0]).with(&named, &[], &[]);
    let (past, fetched) = ((P_0, 0o2001), (130, 0o166000));
    let state = [past, (PGS, 0o040302), (HELD, 1)];
    start.gives(3, &state, &[], &[fetched], "no entry");
    let with = start.with(&[], &[], &[(388, 0o042000), (389, 3)]);
    let state = [past, (A_0, 0o006007)];
    with.gives(0, &state, &[], &[fetched, (388, 0o046000)], "slot 194");
    let start = start.with(&[(B_0, 0o176005)], &[], &[]);
    let state = [past, (PGS, 0o040377), (HELD, 1)];
    start.gives(3, &state, &[], &[fetched], "no last entry");
    let with = start.with(&[], &[], &[(510, 0o042000), (511, 3)]);
    let state = [past, (A_0, 0o006007)];
    with.gives(0, &state, &[], &[fetched, (510, 0o046000)], "slot 255");
}

/// Where a word is.
#[derive(Clone, Copy)]
enum Place {
    Memory(usize),
    Table(usize),
}

/// Addresses from the window on and before it, with paging off or on ring 3 with it on: what B reads, X stores to and P
/// fetches from. Either is a word of the page tables or of memory, of 64 pages.
#[test]
fn window() {
    use Place::{Memory, Table};
    for (extended, address, place) in [
        (0, 0o176777, Memory(65023)),
        (0, 0o177000, Memory(65024)),
        (0, 0o177377, Memory(65279)),
        (0, 0o177400, Table(0)),
        (0, 0o177777, Table(255)),
        (1, 0o176777, Memory(65023)),
        (1, 0o177000, Table(0)),
        (1, 0o177377, Table(255)),
        (1, 0o177400, Table(256)),
        (1, 0o177777, Table(511)),
    ] {
        let start = |word: u16, there: u16| {
            let m = Machine::new(64).with(
                &[
                    (B_0, address),
                    (A_0, 0o054321),
                    (X_0, address),
                    (EXTENDED, extended),
                ],
                &[(0, word)],
                &[],
            );
            match place {
                Memory(at) => m.with(&[], &[(at, there)], &[]),
                Table(at) => m.with(&[], &[], &[(at, there)]),
            }
        };
        let what = format!("{address:06o} in mode {extended}");
        let read = start(LDA_B, 0o123321);
        read.gives(0, &[(P_0, 1), (A_0, 0o123321)], &[], &[], &what);
        let store = start(STA_X, 0);
        match place {
            Memory(at) => store.gives(0, &[(P_0, 1)], &[(at, 0o054321)], &[], &what),
            Table(at) => store.gives(0, &[(P_0, 1)], &[], &[(at, 0o054321)], &what),
        };
        let next = address.wrapping_add(1);
        let fetched = start(0, SAA_5).with(&[(P_0, address)], &[], &[]);
        fetched.gives(0, &[(P_0, next), (A_0, 5)], &[], &[], &what);
        // ring 3, paging on: the window needs no entry and marks none, and other addresses have none, slot 63: 3
        let on = fetched.with(&[(PAGING, 1), (PCR_0, 3)], &[], &[]);
        match place {
            Table(_) => on.gives(0, &[(P_0, next), (A_0, 5)], &[], &[], &what),
            Memory(_) => on.gives(3, &[(PGS, 0o140077), (HELD, 1)], &[], &[], &what),
        };
        // ring 2, paging on: every address goes by its entry, which is 0
        let on = fetched.with(&[(PAGING, 1), (PCR_0, 2)], &[], &[]);
        on.gives(3, &[(PGS, 0o140077), (HELD, 1)], &[], &[], &what);
    }
}

// Words that the seven find, in a memory of 128 pages, 131,072 words: at 1000 and 1001; before and at the windows; from
// 65,536 on; in the second bank where the windows are in the first; the last two.
const FOUND: &Named = &[
    (1000, 0o001111),
    (1001, 0o002222),
    (65023, 0o004444),
    (65024, 0o005555),
    (65279, 0o003333),
    (65280, 0o006666),
    (65535, 0o007777),
    (65536, 0o010101),
    (65537, 0o020202),
    (130_560, 0o060606),
    (130_816, 0o050505),
    (131_070, 0o040404),
    (131_071, 0o030303),
];
const FOUND_TABLES: &Named = &[
    (0, 0o111111),
    (1, 0o122222),
    (255, 0o133333),
    (256, 0o144444),
    (511, 0o155555),
];

/// Paging off, at 002000: one of the seven with this displacement and T and X, A 054321 and D 012345.
fn seven(extended: u16, code: u16, [t, x, d]: [u16; 3]) -> Machine {
    let m = Machine::new(128).with(&[], FOUND, FOUND_TABLES);
    let named = [
        (D_0, 0o012345),
        (P_0, 0o2000),
        (B_0, 0o000777),
        (A_0, 0o054321),
        (T_0, t),
        (X_0, x),
        (EXTENDED, extended),
    ];
    m.with(&named, &[(1024, code + 8 * d)], &[])
}

/// Each of the seven, with each displacement, at 1000.
#[test]
fn each_of_the_seven() {
    for extended in [0, 1] {
        for d in 0..8 {
            let (past, x) = ((P_0, 0o2001), 1000 - d);
            let changes: [(u16, &Named, &Named); 7] = [
                (LDATX, &[past, (A_0, 0o001111)], &[]),
                (LDXTX, &[past, (X_0, 0o001111)], &[]),
                (LDDTX, &[past, (A_0, 0o001111), (D_0, 0o002222)], &[]),
                (LDBTX, &[past, (B_0, 0o177222)], &[]),
                (STATX, &[past], &[(1000, 0o054321)]),
                (STZTX, &[past], &[(1000, 0)]),
                (STDTX, &[past], &[(1000, 0o054321), (1001, 0o012345)]),
            ];
            for (code, state, memory) in changes {
                let what = format!("{code:06o}, displacement {d}");
                seven(extended, code, [0, x, d]).gives(0, state, memory, &[], &what);
            }
            // the eighth is illegal
            let none = seven(extended, 0o143307, [0, x, d]);
            none.gives(4, &[past], &[], &[], "1433d7");
        }
    }
}

/// LDBTX doubles the word, drops the carry and sets bits 15 to 9.
#[test]
fn b_of_a_word() {
    for (word, b) in [
        (0, 0o177000),
        (1, 0o177002),
        (0o000377, 0o177776),
        (0o000400, 0o177000),
        (0o100123, 0o177246),
        (0o177777, 0o177776),
    ] {
        let start = seven(1, LDBTX, [0, 1000, 0]).with(&[], &[(1000, word)], &[]);
        start.gives(0, &[(P_0, 0o2001), (B_0, b)], &[], &[], "LDBTX");
    }
}

/// T, X and displacement; where the words at p and p + 1 are, and what is there.
type Two = (u16, [u16; 3], [Place; 2], [u16; 2]);

#[rustfmt::skip]
const TWO: &[Two] = {
    use Place::{Memory, Table};
    &[
        // 19-bit mode: up to the window, in it, behind it; with T 1 there is none
        (0, [0, 0o177000, 0], [Memory(65024), Memory(65025)], [0o005555, 0]),
        (0, [0, 0o177377, 0], [Memory(65279), Table(0)], [0o003333, 0o111111]),
        (0, [0, 0o177371, 7], [Table(0), Table(1)], [0o111111, 0o122222]),
        (0, [0, 0o177400, 0], [Table(0), Table(1)], [0o111111, 0o122222]),
        (0, [0, 0o177777, 0], [Table(255), Memory(65536)], [0o133333, 0o010101]),
        (0, [0, 0o177777, 1], [Memory(65536), Memory(65537)], [0o010101, 0o020202]),
        (0, [0, 0o177771, 7], [Memory(65536), Memory(65537)], [0o010101, 0o020202]),
        (0, [1, 0, 0], [Memory(65536), Memory(65537)], [0o010101, 0o020202]),
        (0, [1, 0o177400, 0], [Memory(130_816), Memory(130_817)], [0o050505, 0]),
        (0, [1, 0o177776, 0], [Memory(131_070), Memory(131_071)], [0o040404, 0o030303]),
        // extended mode
        (1, [0, 0o176777, 0], [Memory(65023), Table(0)], [0o004444, 0o111111]),
        (1, [0, 0o176771, 7], [Table(0), Table(1)], [0o111111, 0o122222]),
        (1, [0, 0o177000, 0], [Table(0), Table(1)], [0o111111, 0o122222]),
        (1, [0, 0o177377, 0], [Table(255), Table(256)], [0o133333, 0o144444]),
        (1, [0, 0o177777, 0], [Table(511), Memory(65536)], [0o155555, 0o010101]),
        (1, [0, 0o177777, 1], [Memory(65536), Memory(65537)], [0o010101, 0o020202]),
        (1, [1, 0, 0], [Memory(65536), Memory(65537)], [0o010101, 0o020202]),
        (1, [1, 0o177000, 0], [Memory(130_560), Memory(130_561)], [0o060606, 0]),
        (1, [1, 0o177400, 0], [Memory(130_816), Memory(130_817)], [0o050505, 0]),
        (1, [1, 0o177776, 0], [Memory(131_070), Memory(131_071)], [0o040404, 0o030303]),
    ]
};

#[test]
fn two_words() {
    for &(extended, at, places, [w, v]) in TWO {
        let what = format!("{at:?} in mode {extended}");
        let past = (P_0, 0o2001);
        let of = |code| seven(extended, code, at);
        of(LDATX).gives(0, &[past, (A_0, w)], &[], &[], &what);
        of(LDXTX).gives(0, &[past, (X_0, w)], &[], &[], &what);
        of(LDDTX).gives(0, &[past, (A_0, w), (D_0, v)], &[], &[], &what);
        let stored = |code, words: &[u16]| {
            let (mut memory, mut tables) = (Vec::new(), Vec::new());
            for (place, word) in places.iter().zip(words) {
                match *place {
                    Place::Memory(at) => memory.push((at, *word)),
                    Place::Table(at) => tables.push((at, *word)),
                }
            }
            of(code).gives(0, &[past], &memory, &tables, &what);
        };
        stored(STATX, &[0o054321]);
        stored(STZTX, &[0]);
        stored(STDTX, &[0o054321, 0o012345]);
    }
}

/// Past the memory: 9, nothing loaded and nothing stored, P one further. No carry is dropped, out of bit 15, 23 or 31:
/// T and X all ones with displacement 7 is 4,294,967,302.
#[test]
fn past_the_memory() {
    let (past, pid) = ((P_0, 0o2001), (PID, 0o40000));
    for extended in [0, 1] {
        for at in [
            [1, 0o177777, 1],
            [2, 0, 0],
            [0o400, 1000, 0],
            [0o100000, 1000, 0],
            [0o177777, 0, 0],
            [0o177777, 0o177777, 0],
            [0o177777, 0o177777, 1],
            [0o177777, 0o177777, 7],
        ] {
            for code in SEVEN {
                let what = format!("{code:06o} at {at:?}");
                let start = seven(extended, code, at);
                start.gives(9, &[past], &[], &[], &what);
                // and where IIE has it
                let start = start.with(&[(IIE, 0o1000)], &[], &[]);
                start.gives(9, &[past, pid], &[], &[], &what);
            }
        }
        // the last word alone, and with the one behind it
        let last = [1, 0o177777, 0];
        let state: &Named = &[past, (A_0, 0o030303)];
        seven(extended, LDATX, last).gives(0, state, &[], &[], "the last word");
        for code in [LDDTX, STDTX] {
            seven(extended, code, last).gives(9, &[past], &[], &[], "the last word and one");
        }
    }
}

/// On ring 2 with paging on, whose page 0 alone has an entry: no entry is looked up or marked, and PGS stays. The page
/// tables are reached, which addresses on this ring do not reach; the next fetch finds what is stored there.
#[test]
fn by_no_entry() {
    let paged = |word: u16, named: &Named| {
        let state = [(PAGING, 1), (PCR_0, 2), (PGS, 0o105), (EXTENDED, 1)];
        let m = Machine::new(3).with(&state, &[(0, word), (2500, 0o123321)], &[(0, 0o162000)]);
        m.with(named, &[], &[])
    };
    let fetched: &Named = &[(0, 0o166000)];
    let start = paged(LDATX, &[(X_0, 2500)]);
    start.gives(0, &[(P_0, 1), (A_0, 0o123321)], &[], fetched, "LDATX");
    let start = paged(STATX, &[(X_0, 0o177776), (A_0, 0o162000)]);
    let tables = [fetched[0], (510, 0o162000)];
    start.gives(0, &[(P_0, 1)], &[], &tables, "STATX");
    let start = paged(STZTX, &[(X_0, 0o177000)]);
    let m = start.gives(0, &[(P_0, 1)], &[], &[(0, 0)], "STZTX");
    m.gives(3, &[(PGS, 0o140000), (HELD, 1)], &[], &[], "no entry");
    let start = paged(STATX, &[(X_0, 0o177001), (A_0, 2)]);
    let m = start.gives(0, &[(P_0, 1)], &[], &[fetched[0], (1, 2)], "STATX");
    m.with(&[], &[(2049, SAA_5)], &[])
        .gives(0, &[(P_0, 2), (A_0, 5)], &[], &[], "page 2");
}

/// Control word 27 is 0 or 1: every function that tests the state refuses each other value, and so does load.
#[test]
fn flag_out_of_range() {
    let mut m = Machine::new(1).with(&[], &[(0, SAA_5)], &[(3, 0o111111)]);
    let mut out = vec![FILLED; PAGE_WORDS + IMAGE_EXTRA];
    for flag in 2..=u16::MAX {
        m.state.0[EXTENDED] = flag;
        m.refuses(Refusal::State, &mut out);
        let was = m.clone();
        let loaded = load(&[1, 3, 0, 27, 0, 1, flag], &mut m.memory, &mut m.tables);
        assert_eq!(loaded, Err(Refusal::State));
        assert!(m == was, "a refused load changed a word");
    }
    assert!(out.iter().all(|word| *word == FILLED));
    for flag in [0, 1] {
        m.state.0[EXTENDED] = flag;
        m.gives(0, &[(P_0, 1), (A_0, 5)], &[], &[], "SAA");
        assert_eq!(write(&m.state, &m.memory, &m.tables, &mut out), Ok(()));
    }
}

/// Page tables of 256 words, as they were before, or of any other length: 1, in either mode, from every function, and
/// before a state that is out of range.
#[test]
fn table_lengths() {
    for len in [0, 1, 64, 128, 255, 256, 257, 511, 513, 768, 1024] {
        for extended in [0, 1, 2] {
            let mut m = Machine::new(1).with(&[(EXTENDED, extended)], &[(0, SAA_5)], &[]);
            m.tables = vec![0o111111; len];
            m.refuses_sizes();
        }
    }
    assert_eq!(TABLE_WORDS, 512);
}

/// Words from a start on, as an image with one entry of this kind.
fn image_of(kind: u16, start: u16, words: &[u16]) -> Vec<u16> {
    let mut image = vec![1, kind, 0, start, 0, words.len() as u16];
    image.extend(words);
    image
}

/// An image into a machine of one page whose words are all filled.
fn loaded(image: &[u16]) -> Result<Machine, Refusal> {
    let mut m = Machine::new(1);
    m.memory.fill(FILLED);
    m.tables.fill(FILLED);
    m.state = load(image, &mut m.memory, &mut m.tables)?;
    Ok(m)
}

/// Kind 3 of 26 words, as it was first, of 27, as it was then, and of 28: what is not named is 0. 29 are too many.
#[test]
fn control_words_of_images() {
    let mut control = [0; 29];
    control[2] = 1;
    control[10] = 0o1002;
    control[25] = 0o3603;
    control[26] = 1;
    control[27] = 1;
    let named = [(PAGING, 1), (PCR_0, 0o1002), (PCR_0 + 15, 0o3603)];
    let want = Machine::new(1).with(&named, &[], &[]);
    let m = loaded(&image_of(3, 0, &control[..26])).unwrap();
    m.is(&want, "26 words");
    let m = loaded(&image_of(3, 0, &control[..27])).unwrap();
    m.is(&want.with(&[(HELD, 1)], &[], &[]), "27 words");
    let m = loaded(&image_of(3, 0, &control[..28])).unwrap();
    let want = want.with(&[(HELD, 1), (EXTENDED, 1)], &[], &[]);
    m.is(&want, "28 words");
    let m = loaded(&image_of(3, 27, &[1])).unwrap();
    m.is(&Machine::new(1).with(&[(EXTENDED, 1)], &[], &[]), "word 27");
    for (start, len) in [(0, 29), (1, 28), (26, 3), (27, 2), (28, 1)] {
        let image = image_of(3, start, &control[..len]);
        assert_eq!(loaded(&image).err(), Some(Refusal::Target));
    }
    assert!(loaded(&image_of(3, 28, &[])).is_ok());
    assert_eq!(loaded(&image_of(3, 29, &[])).err(), Some(Refusal::Target));
}

/// Kind 4 of 256 words, as it was before, and of 512: what is not named is 0. 513 are too many.
#[test]
fn table_words_of_images() {
    let words: Vec<u16> = (0..513).map(|n| 0o100001 + n).collect();
    let want = |start: usize, len: usize| {
        let mut m = Machine::new(1);
        m.tables[start..start + len].copy_from_slice(&words[..len]);
        m
    };
    for (start, len) in [
        (0, 256),
        (0, 512),
        (0, 257),
        (256, 256),
        (255, 2),
        (511, 1),
        (512, 0),
    ] {
        let m = loaded(&image_of(4, start as u16, &words[..len])).unwrap();
        m.is(&want(start, len), "table words");
    }
    for (start, len) in [(0, 513), (1, 512), (256, 257), (511, 2), (512, 1), (513, 0)] {
        let image = image_of(4, start, &words[..len]);
        assert_eq!(loaded(&image).err(), Some(Refusal::Target));
    }
}

/// An image as it was written before there was an extended mode: kinds 3 and 4 of 27 and 256 words. It goes on as it
/// would have, in 19-bit mode.
#[test]
fn older_image() {
    let mut image = vec![
        4, 1, 0, 0, 0, 1024, 2, 0, 0, 0, 128, 3, 0, 0, 0, 27, 4, 0, 0, 0, 256,
    ];
    let at = image.len();
    image.resize(at + 1024 + 128 + 27 + 256, 0);
    image[at..at + 2].copy_from_slice(&[SAA_5, WAIT]);
    image[at + 1024 + 128 + 2] = 1;
    image[at + 1024 + 128 + 10] = 2;
    image[at + 1024 + 128 + 27] = 0o162000;
    assert_eq!(image.len(), 1024 + 432);
    let named = [(PAGING, 1), (PCR_0, 2)];
    let want = Machine::new(1).with(&named, &[(0, SAA_5), (1, WAIT)], &[(0, 0o162000)]);
    let m = loaded(&image).unwrap();
    m.is(&want, "the machine");
    let change: &Named = &[(P_0, 1), (A_0, 5)];
    m.gives(0, change, &[], &[(0, 0o166000)], "SAA");
}

/// In extended mode, written and loaded again over other contents, then stepped on.
#[test]
fn written() {
    let m = sex_executed(&both_forms());
    let m = m.with(&[], &[], &[(255, 0o101), (511, 0o202)]);
    let mut image = vec![FILLED; 2 * 1024 + 707];
    assert_eq!(write(&m.state, &m.memory, &m.tables, &mut image), Ok(()));
    assert_eq!(image.pop(), Some(FILLED));
    assert_eq!(image[11..21], [3, 0, 0, 0, 28, 4, 0, 0, 0, 512]);
    assert_eq!(image[26 + 2048 + 128 + 27], 1);
    assert_eq!(image[26 + 2048 + 128 + 28 + 257], 0o140001);
    assert_eq!(image[26 + 2048 + 128 + 28 + 511], 0o202);
    let mut again = Machine::new(2);
    again.memory.fill(FILLED);
    again.tables.fill(FILLED);
    again.state = load(&image, &mut again.memory, &mut again.tables).unwrap();
    again.is(&m, "the machine again");
    again.gives(0, &[(P_0, 2), (A_0, 5)], &[], &[(256, 0o166777)], "SAA");
    let owned = Owned::load(&image, 2).unwrap();
    assert_eq!(owned.control(Control::Extended), 1);
    assert_eq!(owned.write(), Ok(image));
    let mut short = vec![FILLED; 2 * 1024 + 705];
    let written = write(&m.state, &m.memory, &m.tables, &mut short);
    assert_eq!(written, Err(Refusal::Output));
    assert!(short.iter().all(|word| *word == FILLED));
}
