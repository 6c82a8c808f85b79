//! Runs in which a fetch must not go by what an earlier fetch from its page
//! found: entries, tables, rings, levels and words change between two fetches.
//!
//! Level 3 runs, with table 3 as the normal one and table 0 as the alternate
//! one unless said otherwise. By table 3 the virtual pages 0 to 7 are the
//! physical pages 3 0 1 2 3 0 1 2, and page 63 is page 2.

use super::{Case, Operation};
use crate::decode::Reg;
use crate::{PAGE, TABLE_WORDS};

/// Bits of an entry.
const PERMITS: u16 = 0o160000;
const WIP: u16 = 1 << 12;
const PGU: u16 = 1 << 11;

/// Where most programs begin: virtual page 1, physical page 0.
const AT: u16 = 0o2600;
/// Where they go: virtual page 6, physical page 1.
const THERE: u16 = 0o14600;
/// Window addresses of the entries of pages 1, 2 and 6 in table 3.
const OWN: u16 = 0o177701;
const NEXT: u16 = 0o177702;
const FAR: u16 = 0o177706;
/// An entry of ring 3 with every permit: physical page 2.
const MOVED: u16 = 0o163002;

pub fn cases() -> Vec<Case> {
    let mut cases = Vec::new();
    entries(&mut cases);
    crossings(&mut cases);
    wraps(&mut cases);
    switches(&mut cases);
    lowerings(&mut cases);
    marks(&mut cases);
    stores(&mut cases);
    levels(&mut cases);
    accesses(&mut cases);
    loops(&mut cases);
    sorted(&mut cases);
    cases
}

/// An entry with every permit.
fn open(ring: u16, page: u16) -> u16 {
    PERMITS | ring << 9 | page
}

/// Level 3 on a ring, with a program; its page is of the ring.
fn program(label: &'static str, ring: u16, at: u16, words: &[u16]) -> Case {
    let case = Case::new(label, Operation::Step).ring(ring).reg(Reg::P, at);
    case.own(at).code(at, words)
}

/// Runs of so many steps each, every third one to the first interrupt.
fn push(cases: &mut Vec<Case>, case: &Case, steps: &[u64]) {
    for &steps in steps {
        let operation = match cases.len() % 3 {
            2 => Operation::ToInterrupt(steps),
            _ => Operation::Through(steps),
        };
        let case = case.clone();
        cases.push(Case { operation, ..case });
    }
}

/// Runs through, for programs on which a change of level is due.
fn through(cases: &mut Vec<Case>, case: &Case, steps: &[u64]) {
    for &steps in steps {
        let operation = Operation::Through(steps);
        let case = case.clone();
        cases.push(Case { operation, ..case });
    }
}

/// A run of one of these numbers of steps, by turns.
fn one(cases: &mut Vec<Case>, case: &Case, steps: &[u64]) {
    let turn = cases.len() * 7 / 5 % steps.len();
    push(cases, case, &steps[turn..=turn]);
}

impl Case {
    /// Words from a virtual address on, by the normal table.
    pub(super) fn code(self, at: u16, words: &[u16]) -> Case {
        let put = |case: Case, (offset, &word): (u16, &u16)| {
            case.put(at.wrapping_add(offset), false, word)
        };
        (0..).zip(words).fold(self, put)
    }

    /// Words from an offset of a physical page on.
    pub(super) fn words(mut self, page: usize, offset: usize, words: &[u16]) -> Case {
        let at = page * PAGE + offset;
        self.memory[at..at + words.len()].copy_from_slice(words);
        self
    }

    /// The entry that an address goes by in the normal table.
    pub(super) fn page(self, address: u16, entry: u16) -> Case {
        let index = self.index(address, false);
        self.entry(index, entry)
    }

    /// The page of an address is of the user's ring.
    pub(super) fn own(self, address: u16) -> Case {
        let ring = self.state.pcr[self.level()] & 3;
        let entry = self.tables[self.index(address, false)];
        self.page(address, entry & !0o3000 | ring << 9)
    }

    pub(super) fn ptm(self, ptm: u16) -> Case {
        let sts = self.get(Reg::Sts);
        self.reg(Reg::Sts, sts & !1 | ptm)
    }

    /// No interrupt raises level 14.
    pub(super) fn quiet(self) -> Case {
        self.with(|state| state.iie = 0)
    }
}

/// What an entry of ring 3 is changed to; it named `page`.
fn changed(page: u16) -> [u16; 12] {
    [
        MOVED,
        open(3, page),
        open(3, page) | WIP | PGU,
        open(3, page) | WIP,
        0o023000 | page, // fetch alone
        0,               // no permit
        0o143000 | page, // no fetch permit
        open(2, page),
        open(1, 2),
        open(0, page),
        open(3, 4), // beyond the memory
        open(2, 0o777),
    ]
}

/// A ring 3 program writes entries, its own or another's.
fn entries(cases: &mut Vec<Case>) {
    // Its own page's, then goes on.
    for (ptm, new) in (0..).zip(changed(0)) {
        // STA ,X 0; SAA 1; SAA 2; JMP *-1. Page 2: -; SAT 1; SAT 2; JMP *-1.
        let case = program("own", 3, AT, &[0o006000, 0o170401, 0o170402, 0o124377])
            .words(2, 0o601, &[0o171001, 0o171002, 0o124377])
            .ptm(ptm % 2)
            .reg(Reg::X, OWN)
            .reg(Reg::A, new);
        push(cases, &case, &[2]);
        one(cases, &case, &[1, 5]);
    }
    for (word, set) in WAYS {
        // The word; SAA 1; SAA 2. Pages 1 and 2: -; SAT 1; JMP *-1.
        let case = program("way", 3, AT, &[word, 0o170401, 0o170402])
            .words(1, 0o601, &[0o171001, 0o124377])
            .words(2, 0o601, &[0o171001, 0o124377]);
        one(cases, &set(case), &[2, 3]);
    }
    // The next page's, then falls into it.
    for (ptm, new) in (0..).zip(changed(1)) {
        // STA ,X 0; SAA 1 at the end. Page 1: SAT 1; JMP *-1. Page 2: SAB 1; JMP *-1.
        let case = program("next", 3, 0o3776, &[0o006000, 0o170401])
            .page(0o4000, open(3, 1))
            .words(1, 0, &[0o171001, 0o124377])
            .words(2, 0, &[0o170001, 0o124377])
            .ptm(ptm % 2)
            .reg(Reg::X, NEXT)
            .reg(Reg::A, new);
        one(cases, &case, &[3, 4]);
    }
    // Another page's, twice, and calls it after each.
    for (first, second) in [
        (MOVED, open(3, 3)),
        (open(3, 3), 0),
        (MOVED, open(2, 3)),
        (MOVED, open(3, 4)),
        (0o123002, 0o143003),
    ] {
        // STA ,X 0; JPL ,B 0; STT ,X 0; JPL ,B 0; JMP *-4.
        // Page 2: RINC DD; EXIT. Page 3: RDCR DD; EXIT.
        let words = [0o006000, 0o134400, 0o012000, 0o134400, 0o124374];
        let case = program("call", 3, AT, &words)
            .words(2, 0o600, &[0o146401, 0o146142])
            .words(3, 0o600, &[0o146201, 0o146142])
            .reg(Reg::B, THERE)
            .reg(Reg::X, FAR)
            .reg(Reg::A, first)
            .reg(Reg::T, second);
        push(cases, &case, &[7, 18]);
    }
    // From another page, and back.
    for new in changed(0) {
        // JPL ,B 0; SAA 1; JMP *-1. There: STA ,X 0; EXIT. Page 2: -; SAT 1; JMP *-1.
        let case = program("back", 3, AT, &[0o134400, 0o170401, 0o124377])
            .page(THERE, open(3, 1))
            .words(1, 0o600, &[0o006000, 0o146142])
            .words(2, 0o601, &[0o171001, 0o124377])
            .reg(Reg::B, THERE)
            .reg(Reg::X, OWN)
            .reg(Reg::A, new);
        one(cases, &case, &[4, 6]);
    }
    // The same page's in each table: of the alternate one only the operand knows.
    for ptm in [0, 1] {
        for table in 0..4 {
            // STZ ,X 0; SAA 1; LDT ,B 0.
            let case = program("table", 3, AT, &[0o002000, 0o170401, 0o050400])
                .ptm(ptm)
                .reg(Reg::B, AT)
                .reg(Reg::X, 0o177401 + 0o100 * table);
            push(cases, &case, &[3]);
        }
    }
    // PGU of its own page cleared: STA ,X 0; JMP *-1.
    let case = program("clear", 3, AT, &[0o006000, 0o124377]).reg(Reg::X, OWN);
    for new in [open(3, 0), open(3, 0) | WIP] {
        push(cases, &case.clone().reg(Reg::A, new), &[1, 2, 3]);
    }
    // Cleared and seen: STA ,X 0; LDT ,X 0; LDD ,X 0.
    let case = program("clear", 3, AT, &[0o006000, 0o052000, 0o026000])
        .reg(Reg::X, OWN)
        .reg(Reg::A, open(3, 0));
    push(cases, &case, &[2, 3]);
    // Its page is of a lower ring from now on, so the window is shut.
    for ring in 0..3 {
        // STA ,X 0; STT ,X 0; LDA ,X 0; JMP *0.
        let case = program("shut", 3, AT, &[0o006000, 0o012000, 0o046000, 0o124000])
            .reg(Reg::X, OWN)
            .reg(Reg::A, open(ring, 0))
            .reg(Reg::T, 0);
        push(cases, &case, &[2, 4]);
    }
    // Page 63 by table 0: P-relative stores reach its entry from below the window.
    for new in [MOVED, 0, open(2, 3), open(3, 3)] {
        // STA *177; SAA 1; JMP *-1, by page 3 of memory. Page 2: -; SAT 1; JMP *-1.
        let case = Case::new("relative", Operation::Step)
            .with(|state| state.pcr[3] = 3)
            .reg(Reg::P, 0o177300)
            .own(0o177300)
            .code(0o177300, &[0o004177, 0o170401, 0o124377])
            .words(2, 0o1301, &[0o171001, 0o124377])
            .reg(Reg::A, new);
        one(cases, &case, &[2, 4]);
    }
}

/// A word, and the registers and memory that it needs.
type Way = (u16, fn(Case) -> Case);

/// Ways to write the entry of the program's own page.
const WAYS: [Way; 17] = [
    // STZ ,X 0
    (0o002000, |case| case.reg(Reg::X, OWN)),
    // STA ,B 0
    (0o004400, |case| case.reg(Reg::B, OWN).reg(Reg::A, MOVED)),
    // STA I ,B 10
    (0o005410, |case| {
        case.reg(Reg::B, 0o2700)
            .code(0o2710, &[OWN])
            .reg(Reg::A, MOVED)
    }),
    // STA I *10
    (0o005010, |case| {
        case.code(0o2610, &[OWN]).reg(Reg::A, MOVED).ptm(1)
    }),
    // STA ,X I *10
    (0o007010, |case| {
        case.code(0o2610, &[OWN - 5])
            .reg(Reg::X, 5)
            .reg(Reg::A, MOVED)
    }),
    // STA ,X ,B 0
    (0o006400, |case| {
        case.reg(Reg::B, 0o177700).reg(Reg::X, 1).reg(Reg::A, MOVED)
    }),
    // STT ,X 0
    (0o012000, |case| case.reg(Reg::X, OWN).reg(Reg::T, MOVED)),
    // STX ,B 0
    (0o014400, |case| case.reg(Reg::B, OWN).reg(Reg::X, MOVED)),
    // STD ,X 0: the first word.
    (0o022000, |case| {
        case.reg(Reg::X, OWN).reg(Reg::A, MOVED).reg(Reg::D, 0)
    }),
    // STD ,X -1: the second word.
    (0o022377, |case| {
        case.reg(Reg::X, OWN).reg(Reg::A, 0).reg(Reg::D, MOVED)
    }),
    // STF ,X -1: the second word.
    (0o032377, |case| {
        case.reg(Reg::X, OWN).reg(Reg::T, 0).reg(Reg::A, MOVED)
    }),
    // STF ,X -2: the third word.
    (0o032376, |case| {
        case.reg(Reg::X, OWN).reg(Reg::A, 0).reg(Reg::D, MOVED)
    }),
    // MIN ,X 0: physical page 0 becomes 1.
    (0o042000, |case| case.reg(Reg::X, OWN)),
    // SBYT: the page's number.
    (0o142600, |case| {
        case.reg(Reg::T, OWN).reg(Reg::X, 1).reg(Reg::A, 2)
    }),
    // SBYT: permits and ring 2.
    (0o142600, |case| {
        case.reg(Reg::T, OWN).reg(Reg::X, 0).reg(Reg::A, 0o344)
    }),
    // SRB 50: X of level 5 is the second word.
    (0o152452, |case| {
        case.reg(Reg::X, OWN - 1).of_level(5, Reg::X, MOVED)
    }),
    // EXR SD, STA ,X 0 in D
    (0o140610, |case| {
        case.reg(Reg::D, 0o006000)
            .reg(Reg::X, OWN)
            .reg(Reg::A, MOVED)
    }),
];

/// Last words of a page; D holds what EXR executes, B the address of 177777.
const LAST: [u16; 10] = [
    0o170402, // SAA 2
    0o140011, // SKP DD EQL SD: skips
    0o140610, // EXR SD
    0o124001, // JMP *1
    0o040400, // MIN ,B 0: skips
    0o124000, // JMP *0
    0o134002, // JPL *2
    0o140610, // EXR SD, a skip in D
    0o130002, // JAP *2
    0o153001, // MON 1
];

/// Off a page's end into the next virtual page.
fn crossings(cases: &mut Vec<Case>) {
    let mut turn = 0;
    for ring in 0..4u16 {
        for next in [
            open(ring, 2),                   // elsewhere
            0o140001 | ring << 9,            // no fetch permit
            0o001001,                        // no permit
            open(ring, 4),                   // beyond the memory
            open(ring.saturating_sub(1), 2), // lower, if there is one
            open((ring + 1).min(3), 2),      // higher, if there is one
            open(ring, 0),                   // the page it comes from
        ] {
            for _ in 0..2 {
                let last = LAST[turn % 10];
                let d = if turn % 10 == 7 { 0o140011 } else { 0o170403 }; // SKP, SAA 3
                // SAA 1; the last word. Page 2: SAT 1; JMP *-1; SAT 2. Pages 0, 1: JMP *-1.
                let mut case = program("cross", ring, 0o3776, &[0o170401, last])
                    .page(0o4000, next)
                    .words(2, 0, &[0o171001, 0o124377, 0o171002])
                    .words(1, 0, &[0o124377])
                    .words(0, 0, &[0o124377]);
                if last == 0o140610 {
                    case = case.reg(Reg::D, d);
                }
                if last == 0o040400 {
                    case = case.reg(Reg::B, 0o2700).code(0o2700, &[0o177777]);
                }
                if turn % 4 == 1 {
                    case = case.quiet();
                }
                one(cases, &case, &[3, 4, 2]);
                turn += 1;
            }
        }
        // To and fro over the edge: AAA 1. Page 1: JMP *-1.
        let case = program("edge", ring, 0o3777, &[0o172401])
            .own(0o4000)
            .words(1, 0, &[0o124377]);
        one(cases, &case, &[3, 8]);
        // A last word made another each time: MIN *1; JMP *0, which becomes JMP *1, then
        // JMP *2. Page 1: SAT 1; JMP *-3.
        let case = program("edge", ring, 0o3776, &[0o040001, 0o124000])
            .own(0o4000)
            .words(1, 0, &[0o171001, 0o124375]);
        one(cases, &case, &[3, 8]);
    }
}

/// P from 177777 to 000000, and into the window.
fn wraps(cases: &mut Vec<Case>) {
    let mut turn = 0;
    for ring in 0..3 {
        for entry in [
            open(ring, 3),
            open(ring, 2),
            open(0, 1),
            0o140003 | ring << 9,
            0,
            open(ring, 4),
            open(ring + 1, 3),
        ] {
            let last = LAST[turn * 3 % 10];
            // SAA 1; the last word. Page 0: SAT 1; JMP *-2; SAT 2.
            let mut case = program("wrap", ring, 0o177776, &[0o170401, last]).page(0, entry);
            if entry & 4 == 0 {
                let words = [0o171001, 0o124376, 0o171002];
                case = case.words(usize::from(entry & 3), 0, &words);
            }
            if last == 0o140610 {
                case = case.reg(Reg::D, 0o170403);
            }
            if last == 0o040400 {
                case = case.reg(Reg::B, 0o177700).code(0o177700, &[0o177777]);
            }
            one(cases, &case, &[3, 4, 6]);
            turn += 1;
        }
    }
    // Just before and just after: SAA 2. Page 0: SAT 1.
    for ring in 0..3 {
        let case = program("wrap", ring, 0o177777, &[0o170402]);
        one(cases, &case.own(0).code(0, &[0o171001]), &[1, 2]);
    }
    // On ring 3 the last words come from table 3; table 1 is the normal one.
    for entry in [open(3, 1), open(2, 1), open(0, 3), 0, open(3, 5), 0o143001] {
        // SAA 1; SAA 2. Page 0: SAT 1; JMP *-2. Page 63, for ring 2: SAB 1.
        let case = Case::new("wrap", Operation::Step)
            .with(|state| state.pcr[3] = 0o1003)
            .reg(Reg::P, 0o177776)
            .code(0o177776, &[0o170401, 0o170402])
            .page(0, entry)
            .words(usize::from(entry & 3), 0, &[0o171001, 0o124376])
            .words(0, 0o1777, &[0o170001]);
        push(cases, &case, &[3, 5]);
    }
    // From page 63 on: the window on ring 3, the page's own words on the others.
    for ring in 0..4u16 {
        for page_ring in [ring, ring.saturating_sub(1)] {
            // SAA 1; SAA 2; page: SAB 1; JMP *-2; tables: SAT 1; JMP *-2.
            let case = program("window", ring, 0o177376, &[0o170401, 0o170402])
                .page(0o177376, open(page_ring, 2))
                .words(2, 0o1400, &[0o170001, 0o124376])
                .entry(0, 0o171001)
                .entry(1, 0o124376);
            match ring {
                3 => push(cases, &case, &[3, 4, 9]),
                _ => one(cases, &case, &[3, 4, 9]),
            }
        }
    }
    // Into the window by a jump, and out of it by one: JMP ,X 0; SAA 1.
    for ring in [2, 3] {
        // Tables: STX *1 (which the step after executes); -; JMP ,B 0.
        let case = program("window", ring, AT, &[0o126000, 0o170401])
            .own(0o177500)
            .entry(0o100, 0o014001)
            .entry(0o102, 0o124400)
            .words(2, 0o1500, &[0o170405, 0o124400])
            .reg(Reg::X, 0o177500)
            .reg(Reg::B, 0o2601);
        push(cases, &case, &[3, 5]);
    }
    // Paging off: the window, then physical page 0, and the end of the memory.
    for ring in [0, 3] {
        // SAA 1; SAA 2. Page 0: SAT 1; JMP *-2.
        let case = Case::new("wrap", Operation::Step)
            .paging(false)
            .ring(ring)
            .reg(Reg::P, 0o177776)
            .code(0o177776, &[0o170401, 0o170402])
            .words(0, 0, &[0o171001, 0o124376]);
        push(cases, &case, &[3, 7]);
        // SAA 1; SAA 2, then the memory ends.
        let case = Case::new("end", Operation::Step).paging(false).ring(ring);
        let case = case.reg(Reg::P, 0o7776).code(0o7776, &[0o170401, 0o170402]);
        one(cases, &case, &[3, 4]);
        // Memory up to the window: SAA 1; SAA 2. Tables: SAT 1; JMP *-2.
        let case = Case::sized("end", Operation::Step, 64 * PAGE, TABLE_WORDS);
        let case = case
            .paging(false)
            .ring(ring)
            .reg(Reg::P, 0o177376)
            .code(0o177376, &[0o170401, 0o170402, 0o171001, 0o124376]);
        push(cases, &case, &[3, 5]);
    }
}

/// PCR and paging change in mid-run.
fn switches(cases: &mut Vec<Case>) {
    // TRR PCR of the own level: every table and ring. Table t has page 1 at t + 1.
    for ring in [2, 3] {
        for table in 0..4 {
            for new in (0..4).filter(|new| ring == 2 || (table + new) % 2 == 1) {
                // TRR PCR; SAA 1; JMP *-1. The other page: -; SAT 1; JMP *-1.
                let case = program("pcr", ring, AT, &[0o150103, 0o170401, 0o124377])
                    .reg(Reg::A, table << 9 | (table ^ new) << 7 | 0o30 | new);
                let case = if table < 3 {
                    case.words(usize::from(table) + 1, 0o601, &[0o171001, 0o124377])
                } else {
                    case
                };
                push(cases, &case, &[if (table + new) % 3 == 0 { 4 } else { 2 }]);
            }
        }
        // The new table's entry is of another ring, or fails.
        for (new, entry) in [
            (1, open(0, 2)),
            (0, open(0, 2)),
            (3, open(1, 2)),
            (3, open(3, 2)),
            (2, 0o142002),
            (2, 0),
            (2, open(2, 4)),
        ] {
            // TRR PCR; SAA 1. Page 2: -; SAT 1; IOF; JMP *-2.
            let case = program("pcr", ring, AT, &[0o150103, 0o170401])
                .words(2, 0o601, &[0o171001, 0o150401, 0o124376])
                .entry(0o101, entry)
                .reg(Reg::A, 0o1030 | new);
            one(cases, &case, &[2, 4]);
        }
        // Of another level: this one stays. TRR PCR; SAA 1; JMP *-1.
        for level in [2, 11] {
            let case = program("pcr", ring, AT, &[0o150103, 0o170401, 0o124377])
                .reg(Reg::A, level << 3 | 1 << 9 | level & 3);
            push(cases, &case, &[3]);
        }
    }
    // By tables 3 and 1 in turn. Page 0: TRR PCR; SAA 3; SAA 4; SWAP SA DD; JMP *-4, of
    // which the SAA are never fetched. Page 2: -; SWAP SA DD; TRR PCR.
    let case = program(
        "pcr",
        2,
        AT,
        &[0o150103, 0o170403, 0o170404, 0o144051, 0o124374],
    )
    .words(2, 0o601, &[0o144051, 0o150103])
    .reg(Reg::A, 0o1032)
    .reg(Reg::D, 0o3032);
    push(cases, &case, &[2, 4, 5, 19]);

    paging_switches(cases);
}

/// The code goes on in the same virtual page, at another physical place.
fn paging_switches(cases: &mut Vec<Case>) {
    for ring in [2, 3] {
        for (off, on) in [(0o150404, 0o150410), (0o150405, 0o150412)] {
            // Page 0: off; -; -; SAT 1; JMP *-4. Page 1: -; SAA 1; on; -.
            let case = program(
                "paging",
                ring,
                AT,
                &[off, 0o171401, off, 0o171001, 0o124374],
            )
            .words(1, 0o601, &[0o170401, on, 0o171402]);
            push(cases, &case, &[3, 4, 13]);
        }
        // The entry is written while paging is off.
        for new in [open(ring, 2), open(ring, 0), 0, open(1, 0), 0o142000] {
            // POF. Page 1: -; STA ,X 0; PON. Page 0: SAT 1. Page 2: SAB 1.
            let case = program("paging", ring, AT, &[0o150404])
                .code(AT + 3, &[0o171001, 0o124000])
                .words(1, 0o601, &[0o006000, 0o150410])
                .words(2, 0o603, &[0o170001, 0o124000])
                .reg(Reg::X, OWN)
                .reg(Reg::A, new);
            one(cases, &case, &[4, 5]);
        }
        // To the same place: page 5 by an entry of physical page 5 in six pages.
        let case = Case::sized("paging", Operation::Step, 6 * PAGE, TABLE_WORDS);
        let case = case
            .ring(ring)
            .reg(Reg::P, 0o12600)
            .page(0o12600, open(ring, 5))
            .words(5, 0o600, &[0o150404, 0o002000, 0o150410, 0o170401])
            .reg(Reg::X, 0o177705);
        // POF; STZ ,X 0; PON; SAA 1.
        one(cases, &case, &[4, 5]);
        // Off where there is no memory, and just below the window.
        // POF; SAA 1. Tables: SAT 1; PON; SAT 2; JMP *0.
        push(
            cases,
            &program("paging", ring, 0o32600, &[0o150404, 0o170401]),
            &[2, 3],
        );
        let case = program("paging", ring, 0o177377, &[0o150404])
            .words(2, 0o1400, &[0o170401, 0o170402, 0o170403, 0o124000])
            .entry(0, 0o171001)
            .entry(1, 0o150410)
            .entry(2, 0o171002)
            .entry(3, 0o124000);
        push(cases, &case, &[3, 4]);
    }
    // From paging off on, on every ring: PON by page 1; page 0: SAA 1; IOF; SAA 2.
    for ring in 0..4 {
        for page_ring in [ring, 3 - ring] {
            let case = Case::new("paging", Operation::Step)
                .paging(false)
                .ring(ring)
                .reg(Reg::P, AT)
                .words(1, 0o600, &[0o150410, 0o171001])
                .page(AT, open(page_ring, 0))
                .words(0, 0o601, &[0o170401, 0o150401, 0o170402]);
            push(cases, &case, &[3]);
        }
    }
    // Paging off and all in the window: its words, stores over the next one, PON.
    for ring in 0..4 {
        // SAA 1; STT *1; -; PON; SAB 1. Page 63: SAX 1; JMP *0.
        let case = Case::new("paging", Operation::Step)
            .paging(false)
            .ring(ring)
            .reg(Reg::P, 0o177500)
            .reg(Reg::T, 0o173403) // AAX 3
            .code(0o177500, &[0o170401, 0o010001, 0, 0o150410, 0o170001])
            .words(2, 0o1504, &[0o171401, 0o124000]);
        one(cases, &case, &[3, 5]);
    }
}

/// The fetch lowers the ring.
fn lowerings(cases: &mut Vec<Case>) {
    for (ring, low) in [(3, 2), (3, 1), (3, 0), (2, 1), (2, 0), (1, 0)] {
        // JMP ,B 0; SAA 1. There: SAA 2; JMP ,X 0, back to a page of the old ring.
        let case = program("lower", ring, AT, &[0o124400, 0o170401, 0o124400])
            .page(THERE, open(low, 1))
            .words(1, 0o600, &[0o170402, 0o126000])
            .reg(Reg::B, THERE)
            .reg(Reg::X, AT + 1);
        push(cases, &case, &[3]);
        one(cases, &case.clone().quiet(), &[4, 6]);
        // Back to a page of the lower ring, by the same physical page.
        let back = case.clone().reg(Reg::X, 0o12601);
        one(cases, &back.page(0o12600, open(low, 0)), &[4, 7]);
        // A privileged word: IOF, TRR PCR to the old ring.
        for word in [0o150401, 0o150103] {
            let case = case
                .clone()
                .words(1, 0o600, &[word, 0o124377])
                .reg(Reg::A, 0o3030 | ring);
            one(cases, &case, &[2, 4]);
        }
        // The window before and after: LDA ,X 0; JMP ,B 0. There: LDT ,X 0; STT ,X 0.
        let shut = program("lower", ring, AT, &[0o046000, 0o124400])
            .page(THERE, open(low, 1))
            .words(1, 0o600, &[0o052000, 0o012000])
            .page(0o177500, open(low, 2))
            .reg(Reg::B, THERE)
            .reg(Reg::X, FAR);
        one(cases, &shut, &[4, 3]);
        // Through the page's end, and back: SAA 1; SAA 2. Page 1: SAT 1; JMP *-2.
        let fall = program("lower", ring, 0o3776, &[0o170401, 0o170402])
            .page(0o4000, open(low, 1))
            .words(1, 0, &[0o171001, 0o124376]);
        one(cases, &fall, &[3, 5]);
        // By its own page, and raised again where ring 2 is left: TRR PCR; JMP *-1.
        let again = program("lower", ring, AT, &[0o150103, 0o124377])
            .page(AT, open(low, 0))
            .reg(Reg::A, 0o3030 | ring);
        push(cases, &again, &[2]);
    }
    // Down step by step, a page for each ring.
    for first in [3, 2] {
        // AAA 1, into page 2; from there JMP I *1, page by page to page 5, of ring 0.
        let mut case = program("stairs", 3, 0o3777, &[0o172401])
            .page(0o4000, open(first, 1))
            .page(0o6000, open(2, 2))
            .page(0o10000, open(1, 3))
            .page(0o12000, open(0, 0));
        for (page, to) in [(1, 0o6000), (2, 0o10000), (3, 0o12000), (0, 0o4000)] {
            case = case.words(page, 0, &[0o125001, to]);
        }
        push(cases, &case, &[3, 5]);
    }
}

/// First fetches, marks that are there, and pages left and fetched again.
fn marks(cases: &mut Vec<Case>) {
    for ring in 0..4 {
        for mark in [0, PGU, WIP, WIP | PGU] {
            // SAA 1; LDA *2; STA *2.
            let case = program("mark", ring, AT, &[0o170401, 0o044002, 0o004002])
                .page(AT, open(ring, 0) | mark)
                .ptm(ring & 1);
            one(cases, &case, &[2, 3]);
        }
        // Read and written by the alternate table: LDA ,B 0; STA ,B 1; MIN ,B 1; JMP *-3.
        for ptm in [0, 1] {
            let words = [0o044400, 0o004401, 0o040401, 0o124375];
            let case = program("mark", ring, AT, &words)
                .entry(1, open(ring, 1))
                .ptm(ptm)
                .reg(Reg::B, 0o2700);
            one(cases, &case, &[2, 3, 6]);
        }
        // One physical page by two virtual ones: JMP ,B 0; JMP ,X 0.
        let case = program("twice", ring, AT, &[0o124400, 0o126000])
            .page(0o12600, open(ring, 0) | WIP)
            .reg(Reg::B, 0o12601)
            .reg(Reg::X, AT);
        one(cases, &case, &[2, 3, 4]);
        // By turns: JMP ,B 0. There: JMP ,X 0.
        let case = program("turns", ring, AT, &[0o124400])
            .own(THERE)
            .own(0o16600)
            .words(1, 0o600, &[0o126000])
            .reg(Reg::B, THERE)
            .reg(Reg::X, AT);
        one(cases, &case, &[2, 3, 7]);
        // Three of them: JMP ,B 0; JMP ,X 0; JMP I *1.
        let case = case.reg(Reg::X, 0o16600).words(2, 0o600, &[0o125001, AT]);
        one(cases, &case, &[3, 4, 10]);
    }
    // The program sees its page's marks: LDA ,X 0; STA *10; LDT ,X 0; JMP *-3.
    let case = program("seen", 3, AT, &[0o046000, 0o004010, 0o052000, 0o124375]).reg(Reg::X, OWN);
    push(cases, &case, &[3]);
    // A failed fetch marks nothing, and passes by no mark: JMP ,B 0.
    for entry in [PGU | WIP, 0o156001, 0o176004, 0o177001] {
        let case = program("failed", 2, AT, &[0o124400])
            .page(THERE, entry)
            .quiet()
            .reg(Reg::B, THERE);
        one(cases, &case, &[3, 5]);
    }
}

/// Stores over the words that are executed next.
fn stores(cases: &mut Vec<Case>) {
    for ring in 0..4 {
        let ptm = ring & 1;
        // STA *1; -; JMP *-2. A is SAT 7.
        let case = program("store", ring, AT, &[0o004001, 0o170401, 0o124376])
            .ptm(ptm)
            .reg(Reg::A, 0o171007);
        one(cases, &case, &[2, 4]);
        // By another virtual page: STA ,B 0, B is 12601, physical page 0 too.
        let case = program("store", ring, AT, &[0o004400, 0o170401, 0o124376])
            .page(0o12600, open(ring, 0))
            .reg(Reg::B, 0o12601)
            .reg(Reg::A, 0o171007);
        one(cases, &case, &[2, 3]);
        // By the alternate table, whose page 4 is physical page 0.
        let case = case.entry(4, open(ring, 0)).ptm(1).reg(Reg::B, 0o10601);
        one(cases, &case, &[2, 4]);
        // MIN *1: SAA 5 becomes SAA 6, then 7; JMP *-2.
        let case = program("store", ring, AT, &[0o040001, 0o170405, 0o124376]);
        one(cases, &case, &[2, 5]);
        // MIN *1 makes the word 0 and skips it, JMP *-2; then it is 1, STZ *1.
        let case = program("store", ring, AT, &[0o040001, 0o177777, 0o124376]);
        one(cases, &case, &[2, 4, 5]);
        // STD *1; STF *1: two and three words. A SAT 1, D SAX 2, T SAB 3.
        for word in [0o020001, 0o030001] {
            let case = program("store", ring, AT, &[word, 0, 0, 0, 0o124375])
                .reg(Reg::A, 0o171001)
                .reg(Reg::D, 0o171402)
                .reg(Reg::T, 0o170003);
            one(cases, &case, &[3, 5]);
        }
        // SBYT: the lower byte of the next word, SAA 1; JMP *-1.
        let case = program("store", ring, AT, &[0o142600, 0o170401, 0o124377])
            .reg(Reg::T, AT + 1)
            .reg(Reg::X, 1)
            .reg(Reg::A, 0o52);
        push(cases, &case, &[2]);
        // EXR SD, STA *1 in D; -; JMP *-2. A is EXR SX, X is AAT 5.
        let case = program("store", ring, AT, &[0o140610, 0o172401, 0o124376])
            .reg(Reg::D, 0o004001)
            .reg(Reg::A, 0o140670)
            .reg(Reg::X, 0o173005);
        one(cases, &case, &[2, 4]);
        // Over the first word of the next page: STA *1 at the end; SAA 1 there.
        let case = program("store", ring, 0o3777, &[0o004001])
            .own(0o4000)
            .words(1, 0, &[0o170401, 0o124376])
            .reg(Reg::A, 0o171007);
        one(cases, &case, &[2, 4]);
    }
    for ring in [2, 3] {
        // DEPO at 000601 of the memory: -; JMP *-2. T is SAX 4.
        let case = program("store", ring, AT, &[0o150417, 0o170401, 0o124376])
            .reg(Reg::A, 0)
            .reg(Reg::D, 0o601)
            .reg(Reg::T, 0o171404);
        one(cases, &case, &[2, 4]);
        // SRB 50 over the next eight words: P X T A D L STS B of level 5.
        for ptm in [0, 1] {
            let case = program("block", ring, AT, &[0o152452])
                .entry(4, open(ring, 0))
                .ptm(ptm)
                .reg(Reg::X, if ptm == 0 { AT + 1 } else { 0o10601 })
                .reg(Reg::D, 0o605)
                .of_level(5, Reg::P, 0o170400) // SAA 0
                .of_level(5, Reg::X, 0o171002) // SAT 2
                .of_level(5, Reg::T, 0o124001) // JMP *1
                .of_level(5, Reg::A, 0o150417) // DEPO: STZ *2 after it
                .of_level(5, Reg::Sts, 0o377); // STZ *-1
            one(cases, &case, &[5, 8]);
        }
    }
}

/// Level 5 goes by table 1, level 14 by table 2, level 0 by table 0, level 7 by
/// table 3: page 1 is physical page 2, 3, 1 and 0 for them.
fn levels(cases: &mut Vec<Case>) {
    // Level 5 is due from the start. SAA 1; SAA 2; JMP *-2. Level 5: SAT 1; WAIT; JMP *-2.
    let case = program("level", 2, AT, &[0o170401, 0o170402, 0o124376])
        .words(2, 0o600, &[0o171001, 0o151000, 0o124376])
        .with(|state| state.pid |= 0o40)
        .of_level(5, Reg::P, AT);
    through(cases, &case, &[2, 5, 7]);
    cases.push(Case {
        operation: Operation::ToInterrupt(7),
        ..case
    });
    for ring in [2, 3] {
        // SAA 40; MST PID; SAT 2; JMP *-3. Level 5: SAT 1; WAIT; JMP *-2.
        let words = [0o170440, 0o150306, 0o171002, 0o124375];
        let case = program("level", ring, AT, &words)
            .words(2, 0o602, &[0o171001, 0o151000, 0o124376])
            .of_level(5, Reg::P, AT + 2);
        through(cases, &case, &[4, 7, 23]);
        // Level 5 on ring 1: its page of ring 2 fails, or one of ring 0 lowers it.
        for entry in [open(2, 2), open(0, 2)] {
            let case = case.clone().with(|state| state.pcr[5] = 0o1401);
            through(cases, &case.entry(0o101, entry), &[5]);
        }
        // ION with level 5 pending: SAA 1; ION; SAA 2; JMP *-1. Level 5: SAT 1; WAIT.
        let case = program("level", ring, AT, &[0o170401, 0o150402, 0o170402, 0o124377])
            .words(2, 0o602, &[0o171001, 0o151000])
            .of_level(5, Reg::P, AT + 2)
            .with(|state| {
                state.interrupts_on = 0;
                state.pid |= 0o40;
            });
        through(cases, &case, &[7]);
        // WAIT gives up to level 0: SAA 1; WAIT; JMP *-2. Level 0: SAA 10; MST PID; JMP *-2.
        let case = program("wait", ring, AT, &[0o170401, 0o151000, 0o124376])
            .words(1, 0o602, &[0o170410, 0o150306, 0o124376])
            .of_level(0, Reg::P, AT + 2);
        through(cases, &case, &[4, 7, 20]);
        // Level 7, by the same table, on each ring: MST PID; SAT 1; WAIT; JMP *-2.
        for other in 0..4 {
            let case = program("level", ring, AT, &[0o150306, 0o171001, 0o151000, 0o124376])
                .with(|state| state.pcr[7] = 0o3000 | other)
                .of_level(7, Reg::P, AT + 1)
                .reg(Reg::A, 0o200);
            through(cases, &case, &[if other < 2 { 4 } else { 6 }]);
        }
    }
    calls(cases);
    handlers(cases);
}

/// MON, with a handler on level 14 in the same virtual page.
fn calls(cases: &mut Vec<Case>) {
    for ring in 0..4 {
        // SAA 1; MON 5; SAA 2; JMP *-3. Level 14: TRA IIC; WAIT; JMP *-2.
        let case = program("call", ring, AT, &[0o170401, 0o153005, 0o170402, 0o124375])
            .words(3, 0o602, &[0o150005, 0o151000, 0o124376])
            .of_level(14, Reg::P, AT + 2);
        through(cases, &case, &[4, 7]);
        // By the same table as level 3, on ring 3: its page lowers it to ring's.
        let case = case
            .words(
                0,
                0o602,
                &[0o170402, 0o124375, 0o150005, 0o151000, 0o124376],
            )
            .of_level(14, Reg::P, AT + 4)
            .with(|state| state.pcr[14] = 0o3003);
        through(cases, &case, &[7]);
    }
    // The page's last word is MON: the way back is in the next page.
    for next in [open(1, 1), open(0, 2), 0, open(2, 1)] {
        // SAA 1; MON 5. Pages 1, 2: SAT 1. Level 14: WAIT.
        let case = program("call", 1, 0o3776, &[0o170401, 0o153005])
            .page(0o4000, next)
            .words(1, 0, &[0o171001])
            .words(2, 0, &[0o171001])
            .words(3, 0o1777, &[0o151000])
            .of_level(14, Reg::P, 0o3777);
        through(cases, &case, &[6]);
    }
}

/// Level 14 changes what level 3 goes by, and gives back.
fn handlers(cases: &mut Vec<Case>) {
    // MON 5; SAA 1; JMP *-1. Page 2, and page 3 for table 2: -; SAT 1; JMP *-1.
    let called = |ring: u16, words: &[u16]| {
        program("handler", ring, AT, &[0o153005, 0o170401, 0o124377])
            .words(2, 0o601, &[0o171001, 0o124377])
            .words(3, 0o601, &[0o171001, 0o124377])
            .words(3, 0o700, words)
            .of_level(14, Reg::P, 0o2700)
            .with(|state| state.pcr[14] = 0o2403)
            .entry(0o201, open(3, 3))
    };
    for (ring, new) in [
        (0, open(0, 2)),
        (0, 0),
        (1, open(1, 2)),
        (1, open(0, 0)),
        (1, 0o142000),
        (2, open(2, 2)),
        (2, open(2, 0)),
        (2, open(3, 0)),
        (3, open(2, 0)),
        (3, open(3, 4)),
    ] {
        // STA ,X 0; WAIT.
        let case = called(ring, &[0o006000, 0o151000])
            .of_level(14, Reg::X, OWN)
            .of_level(14, Reg::A, new);
        through(cases, &case, &[6]);
    }
    for (ring, pcr) in [
        (0, 0o1032),
        (0, 0o3033),
        (1, 0o3030),
        (1, 0o3032),
        (2, 0o2032),
        (2, 0o3031),
        (2, 0o3033),
        (3, 0o3032),
    ] {
        // TRR PCR; WAIT.
        let case = called(ring, &[0o150103, 0o151000]).of_level(14, Reg::A, pcr);
        through(cases, &case, &[6]);
    }
    // IRW 30 DP moves P of level 3; LRB 30 all of it: to THERE, of lower ring or closed.
    for (ring, entry) in [(2, open(2, 1)), (3, open(1, 1)), (1, open(2, 1)), (0, 0)] {
        // IRW 30 DP; WAIT. There: SAT 2; JMP *-1.
        let case = called(ring, &[0o153432, 0o151000])
            .page(THERE, entry)
            .words(1, 0o600, &[0o171002, 0o124377])
            .of_level(14, Reg::A, THERE);
        through(cases, &case, &[6]);
        // LRB 30; WAIT: the block is at 2720.
        let case = case
            .words(3, 0o700, &[0o152630])
            .words(3, 0o720, &[THERE])
            .of_level(14, Reg::X, 0o2720);
        through(cases, &case, &[6]);
    }
    // A fetch fails, level 14 repairs the entry, the fetch is made again.
    for (ring, bad) in [(0, 0), (1, 0o141001), (2, open(3, 1)), (3, open(3, 4))] {
        for good in [open(ring, 1), open(0, 2), bad] {
            // JMP ,B 0. There, page 1: SAT 2; JMP *-1; page 2: SAT 3; JMP *-1.
            // Level 14: STA ,X 0; WAIT; JMP *-2.
            let case = program("repair", ring, AT, &[0o124400])
                .page(THERE, bad)
                .words(1, 0o600, &[0o171002, 0o124377])
                .words(2, 0o600, &[0o171003, 0o124377])
                .words(3, 0o700, &[0o006000, 0o151000, 0o124376])
                .of_level(14, Reg::P, 0o2700)
                .with(|state| state.pcr[14] = 0o2403)
                .entry(0o201, open(3, 3))
                .reg(Reg::B, THERE)
                .of_level(14, Reg::X, FAR)
                .of_level(14, Reg::A, good);
            through(cases, &case, &[7]);
        }
    }
}

/// Accesses between fetches, other levels' registers, and late faults.
fn accesses(cases: &mut Vec<Case>) {
    for ring in 0..4 {
        for ptm in [0, 1] {
            // LDA I *5; ADD ,X I *4; MIN I ,B 0; STA ,X ,B 1; JMP *-4; all in page 1.
            let words = [0o045005, 0o063004, 0o041400, 0o006401, 0o124374, 0o2620];
            let case = program("access", ring, AT, &words)
                .code(0o2630, &[0o2640])
                .ptm(ptm)
                .entry(1, open(ring, 0))
                .reg(Reg::B, 0o2630)
                .reg(Reg::X, 7);
            one(cases, &case, &[2, 4, 11]);
        }
        // The indirect words are in a page without the fetch permit, which is entered then.
        // LDA I ,B 0; STA I ,B 1; JMP ,B 2.
        let case = program("access", ring, AT, &[0o045400, 0o005401, 0o124402])
            .page(THERE, 0o140001 | ring << 9)
            .words(1, 0o600, &[0o2605, THERE + 3, 0o170401])
            .reg(Reg::B, THERE);
        one(cases, &case, &[3, 4]);
        // Many fetches pass, then P is at a page that fails: AAX 1; JXN *-1; JMP ,B 0.
        for (entry, x) in [
            (0, 0o177775),
            (0o140001 | ring << 9, 0o177771),
            (open(3, 4), 0),
        ] {
            let case = program("late", ring, AT, &[0o173401, 0o133777, 0o124400])
                .page(THERE, entry)
                .reg(Reg::B, THERE)
                .reg(Reg::X, x);
            push(cases, &case, &[20]);
        }
        // The same, but the page falls off its end: JNC *0 counts; SAA 1.
        let case = program("late", ring, 0o3776, &[0o132400, 0o170401])
            .page(0o4000, 0o140001 | ring << 9)
            .quiet()
            .reg(Reg::X, 0o177770);
        one(cases, &case, &[9, 10, 12]);
        // PTM set and cleared on the way is nothing to fetches.
        // BSET ONE SSPTM; LDA ,B 0; BSET ZRO SSPTM; JMP *-3.
        let case = program(
            "access",
            ring,
            AT,
            &[0o174200, 0o044400, 0o174000, 0o124375],
        )
        .entry(1, open(ring, 2))
        .reg(Reg::B, 0o2700);
        one(cases, &case, &[2, 3, 5]);
    }
    for ring in [2, 3] {
        // IRW 50 DP, or LRB 50 with its block at 2620; SAA 40; MST PID; SAA 1: level 5
        // begins at 2640 by its own table. SAT 1; WAIT.
        for word in [0o153452, 0o152650] {
            let case = program("levels", ring, AT, &[word, 0o170440, 0o150306, 0o170401])
                .code(0o2620, &[0o2640])
                .words(2, 0o640, &[0o171001, 0o151000])
                .reg(Reg::A, 0o2640)
                .reg(Reg::X, 0o2620);
            through(cases, &case, &[8]);
        }
        // LRB 30 of the running level leaves P: STS, B and the rest are new.
        let case = program("levels", ring, AT, &[0o152630, 0o170401, 0o124376])
            .code(0o2620, &[0o14600, 0o2620])
            .reg(Reg::X, 0o2620);
        one(cases, &case, &[2, 4]);
        // IRW 30 DP does nothing to P; IRR 30 DP shows it: and JMP *-2.
        let case = program("levels", ring, AT, &[0o153432, 0o153632, 0o124376]);
        one(cases, &case, &[2, 5]);
    }
}

/// Long loops of mixed instructions.
fn loops(cases: &mut Vec<Case>) {
    for ring in 0..3 {
        for (turn, (at, words)) in LOOPS.into_iter().enumerate() {
            let case = program("loop", ring, at, words)
                .own(0o4000)
                .own(THERE)
                .ptm(turn as u16 & 1)
                .entry(1, open(ring, 0))
                .entry(2, open(ring, 1))
                // AAT 3; SHT ROT 2; EXIT.
                .words(1, 0o600, &[0o173003, 0o155002, 0o146142])
                .reg(Reg::B, THERE)
                .reg(Reg::X, 0o2700)
                .reg(Reg::T, 0o1340)
                .reg(Reg::D, 0o172777) // AAA -1
                .reg(Reg::A, 0o12345);
            one(cases, &case.quiet(), &[31, 200, 77]);
        }
    }
}

const LOOPS: [(u16, &[u16]); 6] = [
    // SAX -20; AAA 7; ADD *10; SHA ROT 3; STA *7; RADD SA DD; BSKP ONE 0 DA; MIN *4;
    // JNC *-6; JMP *-11.
    (
        AT,
        &[
            0o171760, 0o172407, 0o060010, 0o155403, 0o004007, 0o146051, 0o175205, 0o040004,
            0o132772, 0o124367,
        ],
    ),
    // AAA 1; JPL ,B 0; SWAP SA DD; SKP DD GRE SA; REXO ST DA; JMP *-5.
    (
        AT,
        &[0o172401, 0o134400, 0o144051, 0o141051, 0o145065, 0o124373],
    ),
    // Bytes: LBYT; AAX 1; SBYT; AAX -1; EXR SD; JAF *-5; JMP *-6.
    (
        AT,
        &[
            0o142200, 0o173401, 0o142600, 0o173777, 0o140610, 0o131773, 0o124372,
        ],
    ),
    // MPY *6; RMPY SA DT; RDIV ST; SAD ZIN SHR 2; JAP *-4; RINC DT; JMP *-6.
    (
        AT,
        &[
            0o120006, 0o141256, 0o141660, 0o156676, 0o130374, 0o146406, 0o124372,
        ],
    ),
    // Over the edge: AAA 3; STA ,X 0; LDA ,X 1; SUB ,X 0; EXR SD; JPL ,B 0; SHT LIN 1;
    // JMP *-7.
    (
        0o3774,
        &[
            0o172403, 0o006000, 0o046001, 0o066000, 0o140610, 0o134400, 0o157001, 0o124371,
        ],
    ),
    // Over the edge, both ways: SKP DA UEQ 0; RINC DA; JAN *3; STD ,X 2; LDF ,X 1; JXN *2;
    // ORA *-2; AND *-5; JMP *-10.
    (
        0o3775,
        &[
            0o142005, 0o146405, 0o130403, 0o022002, 0o036001, 0o133402, 0o074376, 0o070373,
            0o124370,
        ],
    ),
];

/// Words of every class, by the top ten bits: a run sorts them as a step does.
fn sorted(cases: &mut Vec<Case>) {
    for top in 0..1024 {
        let low = top * 37 % 64;
        let case = Case::new("sort", Operation::Step).at_p(top << 6 | low);
        push(cases, &case, &[2]);
    }
}

#[cfg(test)]
mod tests;
