//! PGS keeps the first fault until TRA PGS is executed (card 3, rulings 41 to
//! 43).

mod common;
use common::*;
use second::*;

const PGU: u16 = 0o004000;
const WIP: u16 = 0o010000;

const TRA_PGS: u16 = 0o150003;
/// COPY SA DT.
const TO_T: u16 = 0o146156;

/// LDA ,B, which reads page 1: interrupt 3, PGS 040001.
const ABSENT: u16 = 0o044400;
/// STA ,X, which writes page 2: interrupt 2, PGS 040002.
const SHUT: u16 = 0o006000;
/// LDA ,X ,B, which reads page 3: interrupt 2, PGS 000003.
const FOREIGN: u16 = 0o046400;

/// A program at 000100. Page 1 has no permit, page 2 may be read and fetched,
/// page 3 is of ring 3.
fn program(words: &[u16], ring: u16) -> Case {
    let mut case = Case::paged(0, ring)
        .with(B, 0o2000)
        .with(X, 0o4000)
        .table(1, 1)
        .table(2, 0o060002)
        .table(3, 0o163003);
    case.m[0o100..0o100 + words.len()].copy_from_slice(words);
    case
}

impl Case {
    fn held(mut self, pgs: u16, held: u16) -> Case {
        (self.s.pgs, self.s.pgs_held) = (pgs, held);
        self
    }

    /// Expects PGS, and whether it is held.
    fn status(self, pgs: u16, held: u16) -> Case {
        assert_eq!((self.s.pgs, self.s.pgs_held), (pgs, held));
        self
    }
}

#[test]
fn the_first_fault_stays_until_it_is_read() {
    let words = [
        ABSENT, SHUT, TRA_PGS, TO_T, TRA_PGS, FOREIGN, ABSENT, TRA_PGS,
    ];
    let case = program(&words, 2)
        .gives(3)
        .status(0o040001, 1)
        .gives(2)
        .status(0o040001, 1)
        .ok()
        .status(0o040001, 0)
        .has(&[(A, 0o040001)])
        .ok();
    // Read again it is the same; then another fault is taken, and kept.
    let case = case
        .with(A, 0)
        .ok()
        .status(0o040001, 0)
        .has(&[(A, 0o040001), (T, 0o040001)])
        .gives(2)
        .status(0o000003, 1)
        .gives(3)
        .status(0o000003, 1)
        .ok()
        .status(0o000003, 0)
        .has(&[(A, 3), (P, 0o110)]);
    assert_eq!(case.s.iid, 1 << 3 | 1 << 2);
}

#[test]
fn a_fault_that_is_not_taken_is_a_fault_like_any() {
    // Word, entry of page 1, interrupt, PGS if it is taken; B and X name page 1.
    for (word, entry, number, pgs) in [
        (0o044400, 0o000001, 3, 0o040001), // read
        (0o044400, 0o122001, 2, 0o040001),
        (0o044400, 0o163001, 2, 0o000001),
        (0o004400, 0o000001, 3, 0o040001), // write
        (0o004400, 0o062001, 2, 0o040001),
        (0o004400, 0o163001, 2, 0o000001),
        (0o045400, 0o000001, 3, 0o040001), // indirect word
        (0o045400, 0o102001, 2, 0o040001),
        (0o045400, 0o163001, 2, 0o000001),
        (0o152412, 0o000001, 3, 0o040001), // SRB 10
        (0o152412, 0o062001, 2, 0o040001),
        (0o152610, 0o000001, 3, 0o040001), // LRB 10
        (0o152610, 0o163001, 2, 0o000001),
    ] {
        for (before, held) in [(0, 0), (0o100231, 0), (0, 1), (0o100231, 1)] {
            let mut case = Case::paged(word, 2)
                .with(B, 0o2000)
                .with(X, 0o2000)
                .table(1, entry)
                .held(before, held);
            case.s.iie = 1 << number;
            let mut expected = case.clone().with(P, 0o101).table(0, 0o162000 | PGU);
            expected.s.iid = 1 << number;
            expected.s.pid = 1 << 14;
            let pgs = if held == 1 { before } else { pgs };
            assert_eq!(case.gives(number), expected.held(pgs, 1), "{word:o}");
        }
    }
}

#[test]
fn fetch_faults_are_held_too() {
    for (entry, number, pgs) in [
        (0o000001, 3, 0o140001),
        (0o142001, 2, 0o140001),
        (0o163001, 2, 0o100001),
    ] {
        for held in [0, 1] {
            // The word there is TRA PGS: it is not executed.
            let case = Case::paged(0, 2)
                .with(P, 0o2000)
                .mem(1024, TRA_PGS)
                .table(1, entry)
                .held(0o000023, held);
            let mut expected = case.clone();
            expected.s.iid = 1 << number;
            let pgs = if held == 1 { 0o000023 } else { pgs };
            let case = case.gives(number);
            assert_eq!(case, expected.held(pgs, 1));
            // Again and again.
            case.gives(number).status(pgs, 1).has(&[(P, 0o2000)]);
        }
    }
}

#[test]
fn a_later_word_of_a_block() {
    // Five words of the block on page 0, the sixth on page 1.
    for (word, marks) in [(0o152412, PGU | WIP), (0o152610, PGU)] {
        for (before, held, after) in [(0o100231, 0, 0o040001), (0o100231, 1, 0o100231)] {
            program(&[word], 2)
                .with(X, 0o1773)
                .held(before, held)
                .gives(3)
                .status(after, 1)
                .entry(0, 0o162000 | marks)
                .entry(1, 1);
        }
    }
}

#[test]
fn nine_touches_neither_word() {
    for (pgs, held) in [(0, 0), (0o100231, 0), (0, 1), (0o100231, 1)] {
        // A read, a fetch, a physical address, and a fetch with paging off.
        let beyond = |word| Case::paged(word, 2).table(1, 0o162004).held(pgs, held);
        beyond(0o044400).with(B, 0o2000).gives(9).status(pgs, held);
        beyond(0).with(P, 0o2000).gives(9).status(pgs, held);
        beyond(0o150416).with(A, 1).gives(9).status(pgs, held);
        let off = Case::of(0).with(P, 0o10000).held(pgs, held);
        off.gives(9).status(pgs, held);
    }
    // Between two faults, and before one.
    let words = [ABSENT, FOREIGN, SHUT, TRA_PGS, FOREIGN, SHUT];
    program(&words, 2)
        .table(3, 0o162004)
        .gives(3)
        .gives(9)
        .status(0o040001, 1)
        .gives(2)
        .status(0o040001, 1)
        .ok()
        .gives(9)
        .status(0o040001, 0)
        .gives(2)
        .status(0o040002, 1);
}

#[test]
fn tra_pgs_that_is_not_executed_releases_nothing() {
    for ring in [0, 1] {
        // On that ring, and lowered to it by the fetch.
        for from in [ring, 2, 3] {
            let mut case = program(&[ABSENT, TRA_PGS, SHUT], ring).with(A, 7);
            case.s.pcr[0] = from;
            let case = case
                .gives(3)
                .status(0o040001, 1)
                .gives(6)
                .status(0o040001, 1)
                .has(&[(A, 7), (P, 0o102)])
                .gives(2)
                .status(0o040001, 1);
            assert_eq!(case.s.iid, 1 << 6 | 1 << 3 | 1 << 2);
        }
    }
    // Numbers that are not served.
    for word in [0o150013, 0o150023, 0o150043, 0o150063, 0o150203, 0o150303] {
        let case = Case::of(word).held(0o100231, 1);
        case.gives(4).status(0o100231, 1);
    }
}

#[test]
fn tra_pgs_where_it_is_permitted() {
    for held in [0, 1] {
        for ring in [2, 3] {
            let case = Case::paged(TRA_PGS, ring).held(0o140377, held).ok();
            case.status(0o140377, 0).has(&[(A, 0o140377)]);
        }
        // With paging off, on every ring.
        let case = Case::of(TRA_PGS).held(0o140377, held).ok();
        case.status(0o140377, 0).has(&[(A, 0o140377)]);
        // By EXR; that of A leaves PGS there.
        for (word, reg) in [(0o140610, D), (0o140650, A), (0o140670, X)] {
            let case = Case::paged(word, 2).with(reg, TRA_PGS);
            let case = case.held(0o000123, held).ok();
            case.status(0o000123, 0).has(&[(A, 0o123), (P, 0o101)]);
        }
        // By EXR on ring 1: 6. By an EXR of an EXR: 4.
        let case = Case::paged(0o140610, 1).with(D, TRA_PGS).with(A, 7);
        let case = case.held(0o000123, held).gives(6);
        case.status(0o000123, held).has(&[(A, 7), (P, 0o101)]);
        let case = Case::paged(0o140610, 2).with(D, 0o140650).with(A, TRA_PGS);
        case.held(0o000123, held).gives(4).status(0o000123, held);
    }
}

#[test]
fn a_held_pgs_may_be_zero() {
    // Data in page 0 of table 0, which is of ring 3; the code is on page 1.
    let case = Case::paged(0, 2)
        .with(P, 0o2000)
        .with(B, 0o100)
        .mem(1024, 0o044400)
        .table(0, 0o163000)
        .held(0o140377, 0)
        .gives(2)
        .status(0, 1);
    // A fetch fault in page 3 is not taken.
    let case = case.with(P, 0o6000).table(3, 0);
    case.clone().gives(3).status(0, 1);
    // Read, it is.
    case.with(P, 0o2001)
        .mem(1025, TRA_PGS)
        .ok()
        .status(0, 0)
        .has(&[(A, 0)])
        .with(P, 0o6000)
        .gives(3)
        .status(0o140003, 1);
}

#[test]
fn nothing_else_writes_the_word() {
    // Every word, with pages that permit everything: only TRA PGS releases.
    let base = Case::paged(0, 2).with(B, 0o2000).with(X, 0o4000);
    for word in 0..=0o177777 {
        let mut case = base.clone().held(0o100231, 1);
        case.m[0o100] = word;
        case.step();
        let held = u16::from(word != TRA_PGS);
        assert_eq!((case.s.pgs, case.s.pgs_held), (0o100231, held), "{word:o}");
        // Not held, it is by 2 and 3 alone.
        let mut case = base.clone().held(0o100231, 0);
        case.m[0o100] = word;
        let fault = matches!(case.step(), 2 | 3);
        assert_eq!(case.s.pgs_held, u16::from(fault), "{word:o}");
    }
}

#[test]
fn levels_raises_and_stops_leave_the_word() {
    for held in [0, 1] {
        let mut case = Case::paged(0, 2).held(0o100231, held);
        case.s.interrupts_on = 1;
        case.s.pie = 0o177777;
        assert_eq!(raise(&mut case.s, &case.m, &case.t, 12), Ok(()));
        let case = case.status(0o100231, held).ok();
        assert_eq!(case.s.level, 12);
        let mut case = case.status(0o100231, held);
        case.s.stopped = 1;
        case.ok().status(0o100231, held);
    }
}

#[test]
fn the_handler_reads_the_first_fault() {
    // Level 1 faults in page 1; level 14 faults in page 2 before it reads PGS.
    let mut case = program(&[ABSENT], 2);
    case.s.level = 1;
    case.s.files[1] = case.s.files[0];
    case.s.files[14][2] = 0o200; // P
    case.s.files[14][7] = 0o4000; // X
    case.m[0o200..0o203].copy_from_slice(&[SHUT, TRA_PGS, 0o151000]);
    (case.s.pcr[1], case.s.pcr[14]) = (2, 2);
    (case.s.interrupts_on, case.s.pid, case.s.pie) = (1, 0o2, 0o40002);
    case.s.iie = 1 << 3 | 1 << 2;
    // The fault, the change of level, the second fault, TRA PGS, WAIT.
    let answer = run(&mut case.s, &mut case.m, &mut case.t, 5, false);
    let ran = Ran {
        steps: 5,
        reason: Reason::Spent,
        references: 1 + 1 + 2 + 1 + 1,
    };
    assert_eq!(answer, Ok(ran));
    assert_eq!((case.s.level, case.s.pid), (14, 0o2));
    let case = case.status(0o040001, 0);
    case.has(&[(A, 0o040001), (P, 0o203)]);
}
