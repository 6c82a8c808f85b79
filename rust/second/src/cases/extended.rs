//! Extended mode: SEX and REX, the seven instructions that go by a physical
//! address, entries of two words, the window of 512; most beside 19-bit mode.
//!
//! Level 3 runs on ring 2, with table 3 as the normal one and table 0 as the
//! alternate one. The entries of table 3 are words 192 to 255 in 19-bit mode and
//! 384 to 511 in extended mode, so that both forms can stand side by side.

use super::images;
use super::{Case, LEVEL, MEMORY, OPEN, Operation};
use crate::decode::Reg;
use crate::image::{IMAGE_EXTRA, Target};
use crate::random::Random;
use crate::state::{CONTROL_WORDS, REGISTER_WORDS, control};
use crate::vectors::instruction;
use crate::{PAGE, TABLE_WORDS};

#[cfg(test)]
mod tests;

/// 19-bit mode, extended mode.
const MODES: [bool; 2] = [false, true];

const SEX: u16 = 0o150406;
const REX: u16 = 0o150407;
const TRA_STS: u16 = 0o150001;
const TRA_PGS: u16 = 0o150003;
const WAIT: u16 = 0o151000;
/// EXR SL.
const EXR: u16 = 0o140640;
/// AAA 1, SAX 3.
const AAA: u16 = 0o172401;
const SAX: u16 = 0o171403;

/// LDATX, LDDTX, LDBTX, STATX and STDTX by the low digit.
const LDATX: u16 = 0;
const LDDTX: u16 = 2;
const LDBTX: u16 = 3;
const STATX: u16 = 4;
const STDTX: u16 = 6;

const PERMITS: u16 = 0o160000;
const MARKS: u16 = 0o014000;

/// Where the words under test stand, unless said otherwise; and operands.
const AT: u16 = 0o600;
const DATA: u16 = 0o24500;

/// Bits of an entry of two words that mean nothing: 8-0 of the first and 15-14 of
/// the second.
const UNUSED: [(u16, u16); 4] = [(0, 0), (0o777, 0o140000), (0o401, 0o40000), (2, 0o100000)];

/// One of the seven, or the eighth that is none.
fn seven(low: u16, disp: u16) -> u16 {
    0o143300 | disp << 3 | low
}

/// A step of the base machine of a mode, with so many pages.
fn lent(extended: bool, label: &'static str, pages: usize) -> Case {
    Case::in_mode(extended, label, Operation::Step, pages * PAGE, TABLE_WORDS)
}

/// A step of the base machine of a mode, at `AT`.
fn of(extended: bool, label: &'static str) -> Case {
    lent(extended, label, 4).reg(Reg::P, AT)
}

impl Case {
    /// The entry of a slot in the form of the mode: permits, marks and ring, and
    /// the page.
    pub(super) fn slot(self, slot: usize, word: u16, page: u16) -> Case {
        match self.state.extended {
            0 => self.short(slot, word, page),
            _ => self.long(slot, word, page),
        }
    }

    fn short(self, slot: usize, word: u16, page: u16) -> Case {
        self.entry(slot, word | page)
    }

    fn long(self, slot: usize, word: u16, page: u16) -> Case {
        self.entry(2 * slot, word).entry(2 * slot + 1, page)
    }

    /// The entry of an address in the normal table, in the form of the mode.
    pub(super) fn paged(self, address: u16, word: u16, page: u16) -> Case {
        let slot = self.index(address, false);
        self.slot(slot, word, page)
    }

    /// A ring, with the code's page of it too.
    pub(super) fn on_ring(self, ring: u16) -> Case {
        let slot = self.index(self.get(Reg::P), false);
        let page = self.physical_page(slot) as u16;
        self.ring(ring).slot(slot, PERMITS | ring << 9, page)
    }

    pub(super) fn running(mut self, operation: Operation) -> Case {
        self.operation = operation;
        self
    }

    /// The same words in every physical page, followed by a loop that adds the
    /// page's number plus one to A.
    fn everywhere(mut self, at: u16, words: &[u16]) -> Case {
        let offset = usize::from(at) % PAGE;
        for page in 0..self.memory.len() / PAGE {
            let add = 0o172401 + page as u16; // AAA page + 1
            self = self.words(page, offset, words);
            self = self.words(page, offset + words.len(), &[add, 0o124377]);
        }
        self
    }
}

/// Both forms of a run, of so many steps each.
fn push_runs(cases: &mut Vec<Case>, case: &Case, steps: &[u64]) {
    for &steps in steps {
        cases.push(case.clone().running(Operation::Through(steps)));
        cases.push(case.clone().running(Operation::ToInterrupt(steps)));
    }
}

/// SEX, REX, the flag in STS.
pub fn mode() -> Vec<Case> {
    let mut cases = Vec::new();
    switches(&mut cases);
    status(&mut cases);
    first_programs(&mut cases);
    other_form(&mut cases);
    flips(&mut cases);
    cases
}

/// On every ring, already so or not, by EXR, and lowered by the fetch.
fn switches(cases: &mut Vec<Case>) {
    for extended in MODES {
        for word in [SEX, REX] {
            for paging in [true, false] {
                for ring in 0..4 {
                    let case = of(extended, "switch").reg(Reg::Sts, 0o377);
                    let case = case.paging(paging).on_ring(ring).reg(Reg::L, word);
                    cases.push(case.clone().at_p(word));
                    cases.push(case.at_p(EXR));
                }
            }
            for (ring, low) in [(3, 2), (3, 1), (3, 0), (2, 1), (2, 0), (1, 0)] {
                let case = of(extended, "switch").at_p(word).on_ring(low).ring(ring);
                cases.push(case);
            }
            for level in [0, 9, 14, 15] {
                let case = lent(extended, "switch", 4).on_level(level);
                cases.push(case.at_p(word));
            }
        }
        // Their neighbours.
        for word in [0o150400, 0o150403, 0o150411, 0o150446, 0o150506, 0o150606] {
            for ring in [1, 2] {
                cases.push(of(extended, "switch").on_ring(ring).at_p(word));
            }
        }
    }
}

/// Bit 13 of STS is read and never written.
fn status(cases: &mut Vec<Case>) {
    for extended in MODES {
        for bits in 0..4 {
            for level in [0, LEVEL, 15] {
                let case = lent(extended, "status", 4).on_level(level);
                let case = case.reg(Reg::P, AT).paging(bits & 1 == 1).at_p(TRA_STS);
                cases.push(case.with(|state| state.interrupts_on = bits >> 1));
            }
        }
        // TRR, MCL and MST; IRW and BSET of STS.
        for word in [0o150101, 0o150201, 0o150301, 0o153430, 0o174350, 0o174150] {
            for a in [0, 0o177777, 0o020000, 0o157777] {
                cases.push(of(extended, "status").reg(Reg::A, a).at_p(word));
            }
        }
    }
}

/// SEX or REX, TRA STS, WAIT from address 0 on.
fn first_programs(cases: &mut Vec<Case>) {
    for extended in MODES {
        for word in [SEX, REX] {
            for paging in [false, true] {
                for level in [0, 5] {
                    let case = lent(extended, "first", 1).on_level(level);
                    let case = case.with(|state| state.interrupts_on = 0);
                    let case = case.paging(paging).reg(Reg::P, 0).reg(Reg::Sts, 0);
                    let slot = case.index(0, false);
                    let case = case.short(slot, OPEN, 0).long(slot, OPEN, 0);
                    let case = case.code(0, &[word, TRA_STS, WAIT]);
                    push_runs(cases, &case, &[2, 3]);
                }
            }
        }
    }
}

/// Entries for a fetch on ring 2, and what comes of them: passed, 3, 2, 2, 9,
/// ring 1, ring 0, another page, marked.
const FETCHED: [(u16, u16); 9] = [
    (0o162000, 0),
    (0o002000, 0),
    (0o142000, 0),
    (0o163000, 0),
    (0o162000, 4),
    (0o161000, 0),
    (0o160000, 1),
    (0o022000, 2),
    (0o176000, 3),
];

/// The fetch after SEX or REX goes by the other form.
fn other_form(cases: &mut Vec<Case>) {
    for extended in MODES {
        let word = if extended { REX } else { SEX };
        for table in 0..4 {
            for (turn, (entry, page)) in FETCHED.into_iter().enumerate() {
                let at = [0o2600, 0o76600, 0o174600][(turn + table) % 3];
                let case = lent(extended, "form", 4).reg(Reg::P, at).quiet();
                let case = case.with(|state| state.pcr[LEVEL] = (table as u16) << 9 | 2);
                let slot = case.index(at, false);
                let case = match extended {
                    false => case.short(slot, OPEN, 0).long(slot, entry, page),
                    true => case.long(slot, OPEN, 0).short(slot, entry, page),
                };
                let case = case.everywhere(at, &[word]);
                cases.push(case.clone().running(Operation::Through(2)));
                cases.push(case.running(Operation::ToInterrupt(4)));
            }
        }
        // Slot 0: one word in both forms, its page in the next in one of them.
        for (first, second) in [(OPEN, 1), (OPEN | 1, 0), (OPEN | 2, 4), (OPEN | 4, 3)] {
            let case = lent(extended, "form", 4).reg(Reg::P, AT).quiet();
            let case = case.with(|state| state.pcr[LEVEL] = 2);
            let case = case.entry(0, first).entry(1, second);
            let case = case.everywhere(AT, &[word]);
            push_runs(cases, &case, &[1, 3]);
        }
    }
}

/// Programs that go from mode to mode, with both forms of their entries.
fn flips(cases: &mut Vec<Case>) {
    // SEX; LDA ,B; REX; ADD ,B; STA ,B 1; JMP *-5.
    let plain = [SEX, 0o044400, REX, 0o060400, 0o004401, 0o124373];
    // By EXR SL and SX: SEX, REX.
    let executed = [EXR, 0o044400, 0o140670, 0o060400, 0o004401, 0o124373];
    // AAA 1 after each.
    let bursts = [SEX, AAA, AAA, AAA, REX, AAA, AAA, AAA, 0o124370];
    for extended in MODES {
        for program in [&plain[..], &executed, &bursts] {
            for data in [(OPEN, 2), (0o042000, 1), (0o002000, 2), (0o163000, 0)] {
                let case = of(extended, "flip").reg(Reg::B, DATA).quiet();
                let case = case.reg(Reg::L, SEX).reg(Reg::X, REX);
                let (code, operand) = (case.index(AT, false), case.index(DATA, false));
                let case = case.short(code, OPEN, 3).long(code, OPEN, 3);
                let case = case.short(operand, OPEN, 0).long(operand, data.0, data.1);
                let case = case.words(3, usize::from(AT), program);
                push_runs(cases, &case, &[5, 40]);
            }
        }
    }
}

/// The seven by physical address.
pub fn physical() -> Vec<Case> {
    let mut cases = Vec::new();
    rings(&mut cases);
    displacements(&mut cases);
    addresses(&mut cases);
    pairs(&mut cases);
    doubled(&mut cases);
    cases
}

/// Each low digit on each ring: fetch, 4, 6, then the address.
fn rings(cases: &mut Vec<Case>) {
    for extended in MODES {
        for low in 0..8 {
            for paging in [true, false] {
                for ring in 0..4 {
                    let case = of(extended, "ring").reg(Reg::Sts, 0o377);
                    let case = case.paging(paging).on_ring(ring);
                    let case = case.reg(Reg::T, 0).reg(Reg::X, 0o3210);
                    cases.push(case.clone().at_p(seven(low, (low + ring) % 8)));
                    // By EXR, and past the memory.
                    let case = case.reg(Reg::L, seven(low, 3));
                    if ring % 2 == 0 {
                        cases.push(case.clone().at_p(EXR));
                    }
                    cases.push(case.reg(Reg::T, 1).at_p(seven(low, 7)));
                }
            }
            for (ring, ring_of_page) in [(3, 2), (3, 1), (2, 0)] {
                let case = of(extended, "ring").reg(Reg::T, 0).reg(Reg::X, 0o3210);
                let case = case.at_p(seven(low, 1)).on_ring(ring_of_page);
                cases.push(case.ring(ring));
            }
        }
        // The fetch fails first.
        for low in [LDATX, STDTX, 7] {
            for (entry, page) in &FETCHED[1..5] {
                let case = of(extended, "ring").at_p(seven(low, 0));
                cases.push(case.paged(AT, *entry, *page));
            }
        }
    }
}

/// Each displacement, at the end of memory.
fn displacements(cases: &mut Vec<Case>) {
    for extended in MODES {
        for low in 0..7 {
            for disp in 0..8 {
                let case = of(extended, "displacement").reg(Reg::T, 0);
                let case = case.reg(Reg::X, 0o7774).at_p(seven(low, disp));
                cases.push(case);
            }
        }
    }
}

/// Pages of memory, T, X and displacement.
const ADDRESSES: [(usize, u16, u16, u16); 50] = [
    // A page: its end, and about the window of either mode.
    (1, 0, 0o1776, 0),
    (1, 0, 0o1777, 0),
    (1, 0, 0o1777, 1),
    (1, 0, 0o2000, 0),
    (1, 0, 0o176776, 0),
    (1, 0, 0o176777, 0),
    (1, 0, 0o176777, 1),
    (1, 0, 0o177000, 0),
    (1, 0, 0o177376, 0),
    (1, 0, 0o177377, 0),
    (1, 0, 0o177377, 1),
    (1, 0, 0o177400, 0),
    (1, 0, 0o177400, 7),
    (1, 0, 0o177771, 7),
    (1, 0, 0o177777, 0),
    (1, 0, 0o177777, 1),
    // The first bank, with the window in it.
    (64, 0, 0o176777, 0),
    (64, 0, 0o177000, 0),
    (64, 0, 0o177377, 0),
    (64, 0, 0o177777, 0),
    (64, 1, 0, 0),
    // No carry is dropped: 65,536 and more.
    (65, 0, 0o177377, 0),
    (65, 0, 0o177777, 0),
    (65, 0, 0o177777, 1),
    (65, 0, 0o177777, 7),
    (65, 1, 0, 0),
    (65, 1, 0o1770, 7),
    (65, 1, 0o1771, 7),
    (65, 1, 0o177777, 1),
    // No other bank has a window.
    (129, 1, 0o177000, 0),
    (129, 1, 0o177400, 0),
    (129, 1, 0o177777, 0),
    (129, 1, 0o177777, 1),
    (129, 2, 0o1777, 0),
    // Past what 19 bits reach.
    (513, 7, 0o177777, 1),
    (513, 8, 0, 0),
    (513, 8, 0o1777, 0),
    (513, 8, 0o1777, 1),
    // Past the memory, however the sum is cut.
    (4, 1, 0, 0),
    (4, 1, 0o177400, 0),
    (4, 0o10, 0o300, 0),
    (4, 0o20, 0o300, 0),
    (4, 0o377, 0o177777, 1),
    (4, 0o400, 0, 0),
    (4, 0o400, 0o177400, 0),
    (4, 0o400, 0o300, 7),
    (4, 0o100000, 0o300, 0),
    (4, 0o177777, 0o177400, 0),
    (4, 0o177777, 0o177777, 1),
    (4, 0o177777, 0o177777, 7),
];

fn addresses(cases: &mut Vec<Case>) {
    for extended in MODES {
        for (turn, (pages, t, x, disp)) in ADDRESSES.into_iter().enumerate() {
            // Large memories by few.
            let others = [1, LDBTX, 5][turn % 3];
            let lows = match pages {
                1..=4 => &[LDATX, LDDTX, STATX, STDTX, others][..],
                _ => &[LDATX, LDDTX, STDTX],
            };
            for &low in lows {
                let case = lent(extended, "address", pages).reg(Reg::P, AT);
                let case = case.reg(Reg::T, t).reg(Reg::X, x);
                let case = case.at_p(seven(low, disp));
                let turn = turn + usize::from(low);
                cases.push(match turn % 3 {
                    0 => case.paging(false).ring(turn as u16 % 4),
                    1 => case.on_ring(3),
                    _ => case.with(|state| state.pgs_held = 1),
                });
            }
        }
        // STATX where both modes have a table word: on every ring.
        for pages in [1, 4] {
            for x in [0o177000, 0o177400] {
                for ring in 0..4 {
                    for paging in [true, false] {
                        let case = lent(extended, "address", pages).reg(Reg::P, AT);
                        let case = case.reg(Reg::T, 0).reg(Reg::X, x).reg(Reg::A, 0o52525);
                        let case = case.at_p(seven(STATX, 0)).paging(paging);
                        cases.push(case.on_ring(ring));
                    }
                }
            }
        }
    }
}

/// Two words, the second of which may be past the memory, in the window or
/// behind it: both are tested before the first takes effect.
fn pairs(cases: &mut Vec<Case>) {
    for extended in MODES {
        for (pages, t, x) in [
            (1, 0, 0o1776),
            (1, 0, 0o1777),
            (1, 0, 0o176777),
            (1, 0, 0o177377),
            (1, 0, 0o177776),
            (1, 0, 0o177777),
            (64, 0, 0o177777),
            (65, 0, 0o176777),
            (65, 0, 0o177377),
            (65, 0, 0o177777),
            (65, 1, 0o1777),
            (4, 0o177777, 0o177777),
        ] {
            for low in [LDDTX, STDTX] {
                for disp in [0, 1] {
                    let case = lent(extended, "pair", pages).reg(Reg::P, AT);
                    let case = case.reg(Reg::T, t).reg(Reg::X, x - disp);
                    let case = case.reg(Reg::A, 0o1234).reg(Reg::D, 0o165432);
                    cases.push(case.at_p(seven(low, disp)));
                }
            }
        }
    }
}

/// LDBTX of many words, from memory and from the page tables.
fn doubled(cases: &mut Vec<Case>) {
    let words = [
        0, 1, 5, 0o377, 0o400, 0o1000, 0o52525, 0o77777, 0o100000, 0o100001, 0o100400, 0o125252,
        0o177000, 0o177777,
    ];
    for extended in MODES {
        for word in words {
            let case = of(extended, "doubled").reg(Reg::T, 0).reg(Reg::X, 0o3210);
            cases.push(case.word(0o3212, word).at_p(seven(LDBTX, 2)));
            let case = of(extended, "doubled").reg(Reg::T, 0).reg(Reg::X, 0o177765);
            let last = usize::from(0o177770 - case.window());
            cases.push(case.entry(last, word).at_p(seven(LDBTX, 3)));
        }
    }
}

/// Entries of two words.
pub fn entries() -> Vec<Case> {
    let mut cases = Vec::new();
    permits(&mut cases);
    pages(&mut cases);
    slots(&mut cases);
    several(&mut cases);
    lowered(&mut cases);
    cases
}

/// What the entry under test is used for.
#[derive(Clone, Copy, PartialEq)]
enum Use {
    Fetch,
    Read,
    Write,
    Indirect,
    /// MIN: read, then write.
    Both,
    /// SBYT, LBYT.
    StoreByte,
    LoadByte,
}

const USES: [Use; 4] = [Use::Fetch, Use::Read, Use::Write, Use::Indirect];

/// A step that meets an entry in that use, by the alternate table where it can.
fn meets(extended: bool, usage: Use, ring: u16, word: u16, page: u16) -> Case {
    let instruction = match usage {
        Use::Fetch => SAX,
        Use::Read => 0o044405,      // LDA ,B 5
        Use::Write => 0o004405,     // STA ,B 5
        Use::Indirect => 0o045405,  // LDA I ,B 5
        Use::Both => 0o040405,      // MIN ,B 5
        Use::StoreByte => 0o142600, // SBYT
        Use::LoadByte => 0o142200,  // LBYT
    };
    let case = of(extended, "entry").ptm(1).at_p(instruction).on_ring(ring);
    let case = match usage {
        Use::StoreByte | Use::LoadByte => case.reg(Reg::T, DATA).reg(Reg::X, 0o12),
        _ => case.reg(Reg::B, DATA),
    };
    let slot = case.index(
        if usage == Use::Fetch { AT } else { DATA },
        usage != Use::Fetch,
    );
    case.slot(slot, word, page)
}

/// Each combination of permits and rings; marks, unused bits and a held PGS in
/// turn.
fn permits(cases: &mut Vec<Case>) {
    for usage in USES {
        for permits in 0..8 {
            for rings in 0..16 {
                let (entry_ring, ring) = (rings / 4, rings % 4);
                let turn = usize::from(permits + rings);
                let (first, second) = UNUSED[turn % 4];
                let marks = [0, 0, 0o004000, MARKS, 0o010000][turn % 5];
                let word = permits << 13 | marks | entry_ring << 9 | first;
                let case = meets(true, usage, ring, word, second | 3);
                cases.push(case.with(|state| state.pgs_held = (turn % 7 == 0).into()));
            }
        }
    }
    for usage in [Use::Both, Use::StoreByte, Use::LoadByte] {
        for permits in 0..8 {
            for (turn, ring) in [1, 2, 3].into_iter().enumerate() {
                let (first, second) = UNUSED[turn];
                let word = permits << 13 | 2 << 9 | first;
                cases.push(meets(true, usage, ring, word, second | 1));
            }
        }
    }
}

/// The page: all fourteen bits count, and no others.
fn pages(cases: &mut Vec<Case>) {
    for usage in USES {
        for (turn, page) in [0, 3, 4, 7, 0o777, 0o1000, 0o1003, 0o37777]
            .into_iter()
            .enumerate()
        {
            for (first, second) in [UNUSED[1], UNUSED[turn % 4]] {
                let case = meets(true, usage, 2, OPEN | first, second | page);
                cases.push(case.with(|state| state.pgs = 0o100123));
            }
        }
        for bit in 2..14 {
            cases.push(meets(true, usage, 2, OPEN, 1 << bit));
        }
        // Beyond the memory comes last.
        for word in [0o002000, 0o163000, 0o102000, 0o022000, 0o042000] {
            cases.push(meets(true, usage, 2, word, 4));
        }
        // The same words read in the other mode.
        for extended in MODES {
            for (word, page) in [(0, OPEN), (OPEN, 0), (OPEN, 2), (0o142000, 1)] {
                let case = meets(extended, usage, 2, word, page);
                cases.push(case.with(|state| state.extended ^= 1));
            }
        }
    }
    // Pages past what 19 bits reach.
    for extended in MODES {
        for page in [0o777, 0o1000, 0o1001] {
            for word in [0o046000, 0o006000] {
                let case = lent(extended, "far", 513).reg(Reg::P, AT).reg(Reg::X, DATA);
                let page = if extended { page } else { page & 0o777 };
                cases.push(case.at_p(word).paged(DATA, OPEN, page));
            }
        }
    }
    let case = lent(true, "far", 513)
        .reg(Reg::P, AT)
        .paged(AT, OPEN, 0o1000);
    cases.push(case.at_p(SAX));
}

/// Every table, and pages at its ends: marks in the first word of the slot,
/// faults with the slot in PGS.
fn slots(cases: &mut Vec<Case>) {
    for extended in MODES {
        for table in 0..4 {
            for page in [0, 1, 0o37, 0o40, 0o77] {
                for (turn, (code, word)) in [
                    (0o046000, OPEN),     // LDA ,X
                    (0o006000, OPEN),     // STA ,X
                    (0o006000, 0o002000), // absent
                    (0o046000, 0o163000), // of ring 3
                ]
                .into_iter()
                .enumerate()
                {
                    // By the alternate table, or with PTM 0 by the normal one.
                    let ptm = (turn as u16 + page) % 2;
                    let other = (table + 1) % 4;
                    let pcr = match ptm {
                        1 => other << 9 | table << 7 | 2,
                        _ => table << 9 | other << 7 | 2,
                    };
                    let case = of(extended, "slot").ptm(ptm);
                    let case = case.with(|state| state.pcr[LEVEL] = pcr).at_p(code);
                    let case = case.reg(Reg::X, page << 10 | 0o123);
                    let slot = usize::from(table << 6 | page);
                    if case.index(AT, false) == slot && word != OPEN {
                        continue;
                    }
                    cases.push(case.slot(slot, word, (page + table) % 4));
                }
            }
        }
    }
}

/// Instructions of several accesses over the end of a page; the next page's
/// entry varies.
fn several(cases: &mut Vec<Case>) {
    let next = [
        (OPEN, 2),
        (0o002000, 2),
        (0o022000, 2),
        (0o163000, 2),
        (OPEN, 4),
        (OPEN | MARKS, 0),
    ];
    // LDD, STD, LDF, STF ,X; LRB and SRB of levels 5 and 3.
    let words = [
        0o026000, 0o022000, 0o036000, 0o032000, 0o152650, 0o152452, 0o152630, 0o152432,
    ];
    for extended in MODES {
        for word in words {
            for (turn, (entry, page)) in next.into_iter().enumerate() {
                let block = word >= 0o150000;
                let x = match (block, turn % 2) {
                    (true, _) => 0o25774,
                    (false, 0) => 0o25777,
                    (false, _) => 0o25776,
                };
                let case = of(extended, "several").ptm(0).reg(Reg::X, x).at_p(word);
                cases.push(case.paged(0o26000, entry, page));
            }
        }
        // Indirect: the word's page, then the operand's.
        for (word, page) in next {
            for code in [0o045400, 0o005400, 0o047400, 0o135400] {
                let case = of(extended, "several").ptm(0).reg(Reg::B, DATA).at_p(code);
                let case = case.reg(Reg::X, 3).put(DATA, false, 0o31070);
                cases.push(case.clone().paged(DATA, word, page));
                cases.push(case.paged(0o31070, word, page));
            }
        }
    }
}

/// Rings that the fetch lowers by a long entry.
fn lowered(cases: &mut Vec<Case>) {
    for extended in MODES {
        for (ring, low) in [(3, 2), (3, 1), (3, 0), (2, 1), (2, 0), (1, 0)] {
            // SAX, TRA STS, LDA ,X in a page of the old ring, STATX.
            for word in [SAX, TRA_STS, 0o046000, seven(STATX, 0)] {
                let case = of(extended, "lowered").ptm(0).reg(Reg::T, 0);
                let case = case.reg(Reg::X, 0o7000).at_p(word).on_ring(low).ring(ring);
                cases.push(case.paged(0o7000, PERMITS | ring << 9, 1));
            }
        }
    }
}

/// The window of either mode.
pub fn window() -> Vec<Case> {
    let mut cases = Vec::new();
    let addresses = [
        0o176776, 0o176777, 0o177000, 0o177376, 0o177377, 0o177400, 0o177776, 0o177777,
    ];
    // LDA, STA, MIN, STD and LDF ,X; LDA I ,B.
    let words = [0o046000, 0o006000, 0o042000, 0o022000, 0o036000, 0o045400];
    let sees = [(true, 3), (true, 2), (false, 0)];
    for extended in MODES {
        for address in addresses {
            for (paging, ring) in sees {
                for word in words {
                    let case = of(extended, "window").ptm(0).paging(paging).on_ring(ring);
                    let case = case.reg(Reg::X, address).reg(Reg::B, address);
                    cases.push(case.at_p(word));
                }
                let case = of(extended, "window").paging(paging).ring(ring);
                cases.push(case.reg(Reg::P, address).at_p(SAX));
            }
        }
        // Memory where the other mode has its window.
        for address in [0o176777, 0o177000, 0o177377, 0o177400] {
            for word in [0o046000, 0o006000] {
                let case = lent(extended, "window", 64).paging(false).reg(Reg::P, AT);
                cases.push(case.reg(Reg::X, address).at_p(word));
            }
            let case = lent(extended, "window", 64).paging(false);
            cases.push(case.reg(Reg::P, address).at_p(SAX));
        }
        // Register blocks over its beginning and its end.
        for word in [0o152650, 0o152452] {
            for x in [0o176774, 0o177374, 0o177774] {
                for paging in [true, false] {
                    let case = of(extended, "window").paging(paging).on_ring(3).ptm(0);
                    cases.push(case.reg(Reg::X, x).at_p(word));
                }
            }
        }
        // Lowered by the fetch: shut for the operand.
        for word in [0o046000, 0o006000] {
            for x in [0o177100, 0o177500] {
                let case = of(extended, "window").reg(Reg::X, x).at_p(word);
                cases.push(case.on_ring(2).ring(3));
            }
        }
        // The words of the entry that the fetch went by, with its mark.
        for word in [0o046000, 0o006000, 0o042000, 0o026000, 0o022000] {
            for further in [0, 1] {
                let case = of(extended, "window").on_ring(3).ptm(0).at_p(word);
                let x = own_word(&case) + further;
                cases.push(case.reg(Reg::X, x));
            }
        }
    }
    cases
}

/// The address in the window of the entry of the code's page: its first word.
fn own_word(case: &Case) -> u16 {
    word_of(case, case.get(Reg::P))
}

/// The same for the page of an address.
fn word_of(case: &Case, address: u16) -> u16 {
    let slot = case.index(address, false) as u16;
    case.window()
        + if case.state.extended == 1 {
            2 * slot
        } else {
            slot
        }
}

/// Sizes, states, images, writes and views.
pub fn operations() -> Vec<Case> {
    let mut cases = Vec::new();
    sizes(&mut cases);
    states(&mut cases);
    loads(&mut cases);
    writes(&mut cases);
    views(&mut cases);
    cases
}

fn sizes(cases: &mut Vec<Case>) {
    for tables in [0, 1, 255, 256, 257, 511, 512, 513] {
        for operation in images::operations() {
            let case = Case::in_mode(true, "size", operation, MEMORY, tables);
            cases.push(case);
        }
        // 1 before 2.
        let case = Case::in_mode(true, "size", Operation::Step, MEMORY, tables);
        cases.push(case.with(|state| state.extended = 2));
    }
    for memory in [0, 1023, 1025, 2048] {
        for operation in images::operations() {
            cases.push(Case::in_mode(true, "size", operation, memory, TABLE_WORDS));
        }
    }
    // More memory than 19 bits reach, in both modes.
    for extended in MODES {
        for operation in [
            Operation::Step,
            Operation::ToInterrupt(2),
            Operation::Raise(13),
            Operation::Load(vec![1, 1, 8, 0o1777, 0, 1, 0o321]),
            Operation::Load(vec![1, 1, 8, 0o2000, 0, 1, 0o321]),
            Operation::View(Target::Memory, 525_311, 1),
            Operation::View(Target::Memory, 525_312, 1),
        ] {
            let case = lent(extended, "size", 513).running(operation);
            cases.push(case);
        }
        // EXAM and DEPO know no window: A x 65,536 + D.
        for word in [0o150416, 0o150417] {
            for (pages, a, d) in [(513, 8, 0o1777), (64, 0, 0o177400), (4, 0, 0o177000)] {
                let case = lent(extended, "size", pages).reg(Reg::P, AT).at_p(word);
                cases.push(case.reg(Reg::A, a).reg(Reg::D, d));
            }
        }
    }
}

/// Control word 27 out of its range: 2 in every operation that tests the state.
fn states(cases: &mut Vec<Case>) {
    for extended in MODES {
        for flag in [0, 1, 2, 3, 0o100000, 0o100001, 0o177777] {
            let mut all = images::operations();
            all.push(Operation::ToInterrupt(0));
            if !extended {
                all.push(Operation::WriteLoad(MEMORY + IMAGE_EXTRA));
            }
            // 2 before 3 and before 10.
            all.push(Operation::Raise(3));
            all.push(Operation::Write(3));
            for operation in all {
                let case = lent(extended, "state", 4).running(operation);
                cases.push(case.with(|state| state.extended = flag));
            }
        }
    }
}

/// An image of entries (kind, start, length), their words by `word` from the
/// index in all bodies.
fn image(entries: &[(u16, u16, u16)], word: impl Fn(u16) -> u16) -> Vec<u16> {
    let mut words = vec![entries.len() as u16];
    for &(kind, start, length) in entries {
        words.extend([kind, 0, start, 0, length]);
    }
    let bodies: u16 = entries.iter().map(|entry| entry.2).sum();
    words.extend((0..bodies).map(word));
    words
}

/// Loads about the ends of kinds 3 and 4, into machines of both modes.
fn loads(cases: &mut Vec<Case>) {
    const FLAG: u16 = control::EXTENDED as u16;
    const END: u16 = CONTROL_WORDS as u16;
    const TABLES: u16 = TABLE_WORDS as u16;
    let tables: [&[(u16, u16, u16)]; 15] = [
        &[(4, 0, 256)],
        &[(4, 0, 257)],
        &[(4, 0, TABLES)],
        &[(4, 0, TABLES + 1)],
        &[(4, 256, 256)],
        &[(4, 256, 257)],
        &[(4, 0, 256), (4, 256, 256)],
        &[(4, 0, 256), (4, 256, 257)],
        &[(4, 0, 257), (4, 256, 256)],
        &[(4, 256, 1), (4, 0, 256)],
        &[(4, TABLES - 1, 1)],
        &[(4, TABLES - 1, 2)],
        &[(4, TABLES, 0)],
        &[(4, TABLES, 1)],
        &[(4, TABLES + 1, 0)],
    ];
    let control: [&[(u16, u16, u16)]; 14] = [
        &[(3, 0, FLAG - 1)],
        &[(3, 0, FLAG)],
        &[(3, 0, END)],
        &[(3, 0, END + 1)],
        &[(3, FLAG, 0)],
        &[(3, FLAG, 1)],
        &[(3, FLAG, 2)],
        &[(3, FLAG - 1, 2)],
        &[(3, END, 0)],
        &[(3, END, 1)],
        &[(3, END + 1, 0)],
        &[(3, 0, FLAG), (3, FLAG, 1)],
        &[(3, 0, END), (3, FLAG, 1)],
        &[(3, FLAG, 1), (3, FLAG - 1, 2), (4, 0, 1)],
    ];
    // The machine that is lent plays no part.
    let mut turn = 0;
    let mut load = |words: Vec<u16>| {
        turn += 1;
        cases.push(lent(turn % 2 == 0, "load", 4).running(Operation::Load(words)));
    };
    for entries in tables {
        // In the mode that the image names, or in none.
        for named in [&[][..], &[(3, FLAG, 1)]] {
            let entries = [named, entries].concat();
            load(image(&entries, |index| (index + 1) % 5));
        }
    }
    for entries in control {
        let bodies: u16 = entries.iter().map(|entry| entry.2).sum();
        for last in [0, 1, 2] {
            let words = image(entries, |index| last * u16::from(index + 1 == bodies));
            load(words.clone());
            if last == 1 {
                // A word short, a word long: 8, unless the contents are refused.
                load(words[..words.len() - 1].to_vec());
                load([&words[..], &[1]].concat());
            }
        }
    }
    for flag in [0, 1, 2, 3, 0o177777] {
        load(vec![1, 3, 0, FLAG, 0, 1, flag]);
    }
    // Whole states of 26, 27 and 28 control words, with 256 and 512 table words.
    let state = lent(true, "load", 4).state.to_words();
    for words in [FLAG - 1, FLAG, END] {
        for tables in [256, TABLES] {
            let entries = [(2, 0, 128), (3, 0, words), (4, 0, tables)];
            let bodies = REGISTER_WORDS + usize::from(words);
            load(image(&entries, |index| match usize::from(index) {
                index if index < bodies => state[index],
                index => (index % 7) as u16,
            }));
        }
    }
}

fn writes(cases: &mut Vec<Case>) {
    for pages in [1, 2, 65] {
        for extra in [0, IMAGE_EXTRA - 1, IMAGE_EXTRA, IMAGE_EXTRA + 1] {
            let operation = Operation::Write(pages * PAGE + extra);
            cases.push(lent(true, "write", pages).running(operation));
        }
    }
    // The sizes before: 431, 432 and 689 words more than memory.
    for extra in [431, 432, 433, 688, 689] {
        for extended in MODES {
            let operation = Operation::Write(PAGE + extra);
            cases.push(lent(extended, "write", 1).running(operation));
        }
    }
    for extended in MODES {
        for pages in [1, 4, 65] {
            for extra in [IMAGE_EXTRA, IMAGE_EXTRA + 1] {
                let operation = Operation::WriteLoad(pages * PAGE + extra);
                let case = lent(extended, "both", pages).running(operation);
                // Both modes with words of the other form.
                cases.push(case.clone());
                cases.push(case.with(|state| state.extended ^= 1));
            }
        }
    }
}

fn views(cases: &mut Vec<Case>) {
    let parts = [
        (255, 1),
        (255, 2),
        (256, 0),
        (256, 1),
        (256, 256),
        (256, 257),
        (0, 256),
        (0, 257),
        (0, 511),
        (0, 512),
        (0, 513),
        (511, 1),
        (511, 2),
        (512, 0),
        (512, 1),
        (513, 0),
        (1, 512),
        (1, usize::MAX),
        (usize::MAX - 511, 512),
    ];
    for (start, length) in parts {
        for extended in MODES {
            let operation = Operation::View(Target::Tables, start, length);
            let case = lent(extended, "view", 1).running(operation);
            // View does not test the state.
            cases.push(case.with(|state| state.extended *= 2));
        }
    }
}

/// Runs: what a store changes for the next access, pages crossed, handlers, and
/// programs of any words.
pub fn runs() -> Vec<Case> {
    let mut cases = Vec::new();
    own_entries(&mut cases);
    operand_entries(&mut cases);
    crossings(&mut cases);
    handlers(&mut cases);
    kept(&mut cases);
    wandering(&mut cases);
    cases
}

/// How a word of an entry is stored: by STA in the window, on ring 3, or by
/// STATX on ring 2.
const WAYS: [(u16, u16); 2] = [(0o006000, 3), (0o143304, 2)];

/// First words of an entry for its own page, on the ring: open, marked, absent,
/// no fetch, ring above, lower rings.
fn first_words(ring: u16) -> [u16; 8] {
    [
        PERMITS | ring << 9,
        PERMITS | MARKS | ring << 9 | 0o777,
        0,
        0o140000 | ring << 9,
        0o020000 | ring << 9,
        PERMITS | (ring + 1).min(3) << 9,
        PERMITS | 1 << 9,
        PERMITS,
    ]
}

/// A program stores into the entry that it is fetched by.
fn own_entries(cases: &mut Vec<Case>) {
    for (word, ring) in WAYS {
        for extended in MODES {
            let case = of(extended, "own").on_ring(ring).quiet();
            let case = case.ptm(0).reg(Reg::T, 0).reg(Reg::A, 0);
            let own = own_word(&case);
            let slot = case.index(AT, false);
            let page = case.physical_page(slot) as u16;
            let mut stored: Vec<(u16, u16)> = Vec::new();
            for first in first_words(ring) {
                stored.push((
                    own,
                    if extended {
                        first
                    } else {
                        first & !0o777 | page
                    },
                ));
            }
            for page in [0, 1, 2, 3, 4, 0o140001, 0o100002, 0o37777, 0o1003] {
                stored.push(match extended {
                    true => (own + 1, page),
                    false => (own, PERMITS | ring << 9 | page & 0o777),
                });
            }
            for (at, value) in stored {
                let case = case.clone().everywhere(AT, &[word]);
                let case = case.reg(Reg::X, at).reg(Reg::A, value);
                push_runs(cases, &case, &[3]);
            }
        }
        // Both words at once: STD in the window, STDTX.
        for (first, second) in [(OPEN, 1), (0, 2), (PERMITS, 2), (OPEN | 0o777, 0o140000)] {
            let word = if ring == 3 { 0o022000 } else { 0o143306 };
            let case = of(true, "own").on_ring(ring).quiet().ptm(0);
            let case = case.reg(Reg::T, 0).reg(Reg::A, first).reg(Reg::D, second);
            let own = own_word(&case);
            let case = case.reg(Reg::X, own).everywhere(AT, &[word]);
            push_runs(cases, &case, &[2, 3]);
        }
    }
}

/// A program stores into the entry of its operand, then reads and writes it.
fn operand_entries(cases: &mut Vec<Case>) {
    for (word, ring) in WAYS {
        for extended in MODES {
            for further in if extended { 0..2 } else { 0..1 } {
                let values = match further {
                    0 => first_words(ring).to_vec(),
                    _ => vec![0, 1, 2, 4, 0o140003, 0o37777],
                };
                for value in values {
                    // LDT ,B 3; the store; LDA ,B 3; STX ,B 4; JMP *0.
                    let case = of(extended, "operand").on_ring(ring).quiet().ptm(0);
                    let case = case.reg(Reg::T, 0).reg(Reg::B, DATA);
                    let case = case.paged(DATA, PERMITS | ring << 9, 1);
                    let case = case.code(AT, &[0o050403, word, 0o044403, 0o014404, 0o124000]);
                    let x = word_of(&case, DATA) + further;
                    let case = case.reg(Reg::X, x).reg(Reg::A, value);
                    // T for STATX.
                    let case = case.put(DATA + 3, false, 0);
                    push_runs(cases, &case, &[5]);
                }
            }
        }
    }
}

/// Programs that go on into the next page, the window, or address 0.
fn crossings(cases: &mut Vec<Case>) {
    for extended in MODES {
        for (entry, page) in FETCHED {
            let case = lent(extended, "cross", 4).reg(Reg::P, 0o3776).quiet();
            let case = case.paged(0o2000, OPEN, 0).paged(0o4000, entry, page);
            let case = case.words(0, 0o1776, &[AAA, AAA]).everywhere(0, &[AAA]);
            push_runs(cases, &case, &[4]);
            // From the last address on to address 0.
            let case = lent(extended, "cross", 4).reg(Reg::P, 0o177776).quiet();
            let case = case.paged(0o176000, OPEN, 1).paged(0, entry, page);
            let case = case.words(1, 0o1776, &[AAA, AAA]).everywhere(0, &[AAA]);
            push_runs(cases, &case, &[3]);
        }
        // On ring 3, and with paging off, the window's words are executed.
        for (paging, ring) in [(true, 3), (true, 2), (false, 0)] {
            for p in [0o176776, 0o177376] {
                let case = lent(extended, "cross", 64)
                    .paging(paging)
                    .ring(ring)
                    .quiet();
                let case = case.reg(Reg::P, p).paged(p, PERMITS | ring << 9, 63);
                let case = case.words(63, usize::from(p) % PAGE, &[AAA; 4]);
                let case = case.entry(0, AAA).entry(1, SAX).entry(2, 0o124000);
                push_runs(cases, &case, &[5]);
            }
        }
    }
}

/// Level 14 finds the entry that failed by PGS and repairs it.
fn handlers(cases: &mut Vec<Case>) {
    const HANDLER: u16 = 0o4600;
    for extended in MODES {
        for (entry, page) in [(0o002000, 2), (0o022000, 1), (0o163000, 2), (OPEN, 4)] {
            // TRA PGS; AND *12; SHA 1; COPY SA DX; LDA *10; RADD SA DX; SAT 0;
            // LDA *6; STATX 0; WAIT; JMP *-12. Constants: mask, window, entry.
            let double = if extended { 0o154401 } else { 0o154400 };
            let repaired = if extended { OPEN } else { OPEN | 1 };
            let case = of(extended, "handler").reg(Reg::B, DATA).ptm(0);
            let window = case.window();
            let case = case.code(AT, &[0o044403, 0o044404, 0o004405, 0o124375]);
            let case = case.paged(DATA, entry, page);
            let case = case.with(|state| state.pcr[14] = 0o3002);
            let case = case.of_level(14, Reg::P, HANDLER);
            let case = case.code(
                HANDLER,
                &[
                    TRA_PGS, 0o070012, double, 0o146157, 0o044010, 0o146057, 0o171000, 0o044006,
                    0o143304, WAIT, 0o124366, 0o377, window, repaired,
                ],
            );
            push_runs(cases, &case, &[11, 30]);
        }
    }
}

/// In 19-bit mode words 256 to 511 play no part and stay, whatever they are.
fn kept(cases: &mut Vec<Case>) {
    for seed in 0..8 {
        let mut random = Random::new(seed);
        let mut case = of(false, "kept").everywhere(AT, &[0o046000, 0o006001]);
        for _ in 0..8 {
            let index = 256 + random.below(256) as usize;
            case = case.entry(index, random.word());
        }
        let case = case.reg(Reg::X, random.word()).on_ring(seed as u16 % 4);
        push_runs(cases, &case, &[8]);
    }
}

/// A long entry of a machine of four pages: mostly open, sometimes anything.
fn any_entry(random: &mut Random, ring: u16) -> (u16, u16) {
    let permits = random.pick(&[7, 7, 7, 7, 6, 5, 3, 2, 0]);
    let of_ring = random.pick(&[ring, ring, ring, 0, 1, 2, 3]);
    let (first, second) = random.pick(&UNUSED);
    let marks = random.pick(&[0, 0, MARKS]);
    let page = random.pick(&[0, 1, 2, 3, 0, 1, 2, 3, 4, 0o1001]);
    (permits << 13 | marks | of_ring << 9 | first, second | page)
}

/// Runs through a memory of words of every kind, in extended mode.
fn wandering(cases: &mut Vec<Case>) {
    let mut random = Random::new(24);
    for turn in 0..200 {
        let steps = random.below(40);
        let operation = match turn % 3 {
            0 => Operation::Through(steps),
            1 => Operation::ToInterrupt(steps),
            _ => Operation::Through(200),
        };
        let pages = random.pick(&[4, 4, 2, 1]);
        let level = random.below(16) as usize;
        let case = lent(true, "wander", pages)
            .running(operation)
            .on_level(level);
        let mut case = case.reg(Reg::P, random.word() % (pages * PAGE) as u16);
        case = case.reg(Reg::Sts, random.word() & 0o377);
        case = case.on_ring(turn % 4);
        // A page with instructions of every kind.
        let at = case.physical_page(case.index(case.get(Reg::P), false)) * PAGE;
        for _ in 0..random.below(12) {
            let further = usize::from(case.get(Reg::P)) % PAGE + random.below(12) as usize;
            case = case.word(at + further % PAGE, instruction(&mut random));
        }
        if random.one_in(6) {
            case = case.paging(false);
        }
        for _ in 0..random.below(4) {
            let reg = random.pick(&[Reg::B, Reg::X, Reg::T, Reg::A, Reg::L]);
            let value = value(&mut random);
            case = case.reg(reg, value);
        }
        for _ in 0..random.below(4) {
            let slot = case.index(random.word(), random.one_in(2));
            let (word, page) = any_entry(&mut random, turn % 4);
            case = case.slot(slot, word, page);
        }
        if random.one_in(3) {
            let words = [random.word(), random.word()];
            case = case.with(|state| {
                state.pie = words[0] | 1 << level;
                state.iie = words[1] & 0o3776;
                state.interrupts_on = words[0] & 1;
            });
        }
        cases.push(case);
    }
}

/// A value that is an address near an edge, an end, or anything.
fn value(random: &mut Random) -> u16 {
    let page = random.word() & 0o176000;
    match random.below(8) {
        0 => random.pick(&[0, 1, 0o177777, 0o176777, 0o177000, 0o177377, 0o177400]),
        1 => 0o177000 | random.word() & 0o777,
        2 | 3 => page | random.pick(&[0, 1, 0o1776, 0o1777]),
        4 => random.word() & 0o7777,
        _ => random.word(),
    }
}

/// One step from random machines in extended mode.
pub fn random() -> Vec<Case> {
    let mut random = Random::new(24_000);
    (0..400).map(|_| any(&mut random)).collect()
}

fn any(random: &mut Random) -> Case {
    let mut case = lent(true, "any", 4);
    if random.one_in(2) {
        case = case.on_level(random.below(16) as usize);
    }
    if random.one_in(5) {
        case = case.paging(false).reg(Reg::P, random.word() & 0o7777);
    } else if random.one_in(2) {
        case = case.reg(Reg::P, random.word());
    }
    let pcr = random.word() & 0o3603;
    let level = case.level();
    case = case.with(|state| state.pcr[level] = pcr);
    case = case.reg(Reg::Sts, random.word() & 0o377);
    for _ in 0..3 {
        let reg = random.pick(&[Reg::D, Reg::B, Reg::L, Reg::A, Reg::T, Reg::X, Reg::X]);
        let value = value(random);
        case = case.reg(reg, value);
    }
    // One in five is of the seven, mostly near a bank's end.
    let mut word = instruction(random);
    if random.one_in(5) {
        word = seven(random.below(8) as u16, random.below(8) as u16);
        case = case.reg(Reg::T, random.pick(&[0, 0, 0, 1, 0o177777]));
    }
    let registers = [Reg::P, Reg::B, Reg::X, Reg::T].map(|reg| case.get(reg));
    for (turn, address) in registers.into_iter().enumerate() {
        let slot = case.index(address, turn > 0 && random.one_in(2));
        let (entry, page) = any_entry(random, pcr & 3);
        case = match turn {
            0 => case.slot(slot, PERMITS | entry & MARKS | (pcr & 3) << 9, page & 3),
            _ if random.one_in(2) => case.slot(slot, entry, page),
            _ => case,
        };
    }
    case.at_p(word)
}
