//! Modes, tables, faults in their order, marks, rings and the window.

use super::{Case, Operation};
use crate::decode::Reg;
use crate::{PAGE, TABLE_WORDS};

/// Bits of an entry.
const PERMITS: u16 = 0o160000;
const WIP: u16 = 1 << 12;
const PGU: u16 = 1 << 11;

pub fn cases() -> Vec<Case> {
    let mut cases = Vec::new();
    modes(&mut cases);
    displacements(&mut cases);
    permits(&mut cases);
    status(&mut cases);
    marks(&mut cases);
    several(&mut cases);
    rings(&mut cases);
    window(&mut cases);
    ends(&mut cases);
    tables_seen(&mut cases);
    cases
}

/// Codes of the nineteen memory operations.
fn memory_codes() -> impl Iterator<Item = u16> {
    (0..0o20).chain([0o24, 0o25, 0o27]).map(|code| code << 11)
}

/// The base machine with B, X and P on pages of their own.
fn modal(label: &'static str, ptm: u16) -> Case {
    Case::step(label)
        .reg(Reg::Sts, 0o42 | ptm)
        .reg(Reg::P, 0o10600)
        .reg(Reg::B, 0o24500)
        .reg(Reg::X, 0o3100)
}

fn modes(cases: &mut Vec<Case>) {
    for code in memory_codes() {
        for mode in 0..8 {
            for ptm in [0, 1] {
                let disp = if (code >> 11 ^ mode) & 1 == 0 {
                    0o177
                } else {
                    0o200
                };
                cases.push(modal("mode", ptm).at_p(code | mode << 8 | disp));
            }
        }
    }
    // Each pair of tables.
    for tables in 0..16 {
        for mode in 0..8 {
            for (ptm, code) in [(1, 0o044000), (0, 0o044000), (1, 0o004000)] {
                if ptm == 1 || tables % 5 == 1 {
                    let case = modal("table", ptm).with(|state| state.pcr[3] = tables << 7 | 2);
                    cases.push(case.at_p(code | mode << 8 | 0o12));
                }
            }
        }
    }
}

fn displacements(cases: &mut Vec<Case>) {
    for mode in 0..8 {
        for disp in [0, 1, 0o176, 0o177, 0o200, 0o201, 0o376, 0o377] {
            cases.push(modal("displacement", 1).at_p(0o044000 | mode << 8 | disp));
        }
        // Sums over the end.
        for (b, x, disp) in [
            (0o177777, 0o177777, 1),
            (0o100000, 0o100000, 0o177),
            (0, 0, 0o377),
            (1, 0o177777, 0o200),
        ] {
            let case = modal("displacement", 1).reg(Reg::B, b).reg(Reg::X, x);
            cases.push(case.at_p(0o044000 | mode << 8 | disp));
            let case = modal("displacement", 0)
                .reg(Reg::B, b)
                .reg(Reg::X, x)
                .reg(Reg::P, 0o177777);
            cases.push(case.at_p(0o134000 | mode << 8 | disp));
        }
    }
}

/// What the entry under test is used for.
#[derive(Clone, Copy, PartialEq)]
enum Use {
    Fetch,
    Read,
    Write,
    Indirect,
    /// MIN: read, then write.
    Both,
    /// SBYT.
    Byte,
    /// JPL through an indirect word.
    Jump,
}

const USES: [Use; 7] = [
    Use::Fetch,
    Use::Read,
    Use::Write,
    Use::Indirect,
    Use::Both,
    Use::Byte,
    Use::Jump,
];

/// A step that meets `entry` in that use, by the alternate table where it can.
fn meets(label: &'static str, usage: Use, entry: u16, ring: u16) -> Case {
    let word = match usage {
        Use::Fetch => 0o171403,    // SAX 3
        Use::Read => 0o044405,     // LDA ,B 5
        Use::Write => 0o004405,    // STA ,B 5
        Use::Indirect => 0o045405, // LDA I ,B 5
        Use::Both => 0o040405,     // MIN ,B 5
        Use::Byte => 0o142600,     // SBYT
        Use::Jump => 0o135405,     // JPL I ,B 5
    };
    let case = Case::step(label)
        .reg(Reg::Sts, 0o41)
        .reg(Reg::P, 0o10600)
        .reg(Reg::B, 0o24500)
        .reg(Reg::T, 0o24500)
        .reg(Reg::X, 0o12)
        .at_p(word)
        .ring(ring);
    // The page of the fetch is of the user's ring.
    let fetched = case.index(0o10600, false);
    let own = case.tables[fetched] & !0o3000 | ring << 9;
    let case = case.entry(fetched, own);
    let index = match usage {
        Use::Fetch => fetched,
        _ => case.index(0o24500, true),
    };
    let page = case.tables[index] & 3;
    case.entry(index, entry | page)
}

fn permits(cases: &mut Vec<Case>) {
    for usage in USES {
        for permits in 0..8 {
            for rings in 0..16 {
                let (entry_ring, ring) = (rings / 4, rings % 4);
                let entry = permits << 13 | entry_ring << 9;
                cases.push(meets("permit", usage, entry, ring));
            }
            // Beyond the memory: last, and with no status.
            for (page, entry_ring) in [(4, 1), (0o774, 1), (4, 2)] {
                let entry = permits << 13 | entry_ring << 9 | page;
                let case = meets("beyond", usage, entry, 1);
                cases.push(case.with(|state| state.pgs = 0o100123));
            }
        }
    }
    // Each bit of the page's number alone beyond the memory.
    for usage in USES {
        for bit in 2..9 {
            cases.push(meets("beyond", usage, PERMITS | 2 << 9 | 1 << bit, 2));
        }
    }
    // Pages as far as 19 bits reach.
    for page in [0o777, 0o400, 0o377, 0o252] {
        for word in [0o046000, 0o006000] {
            let case = Case::sized("far", Operation::Step, 512 * PAGE, TABLE_WORDS);
            let case = case.reg(Reg::P, 0o10600).reg(Reg::X, 0o24501).at_p(word);
            let index = case.index(0o24501, false);
            cases.push(case.entry(index, PERMITS | 2 << 9 | page));
        }
    }
    // Faults of the fetch come before those of the word.
    for entry in [0, 0o40000, 0o166000, 0o160004] {
        let case = Case::step("order").reg(Reg::P, 0o10600).at_p(0o140700);
        let index = case.index(0o10600, false);
        cases.push(case.entry(index, entry));
    }
    // Illegal before privileged before accesses or interrupt 7.
    for word in [
        0o140700, 0o150002, 0o150401, 0o164000, 0o143600, 0o150415, 0o152432, 0o152630, 0o150416,
        0o150417, 0o153610, 0o153410, 0o151000, 0o150105,
    ] {
        for ring in 0..4 {
            let case = Case::step("order")
                .reg(Reg::P, 0o10600)
                .reg(Reg::X, 0o24500);
            let case = case.reg(Reg::A, 0o100).at_p(word).ring(ring);
            let fetched = case.index(0o10600, false);
            let own = case.tables[fetched] & !0o3000 | ring << 9;
            let index = case.index(0o24500, false);
            cases.push(case.entry(fetched, own).entry(index, 0));
        }
    }
    // The indirect word's fault before the operand's.
    for first in [0, 0o102000, 0o42000, 0o22000] {
        for second in [0, 0o042000, 0o166000] {
            let case = meets("order", Use::Indirect, first, 2).put(0o24505, true, 0o60000);
            let index = case.index(0o60000, true);
            cases.push(case.entry(index, second));
        }
    }
}

fn status(cases: &mut Vec<Case>) {
    for table in 0..4 {
        for page in [0, 1, 0o37, 0o76] {
            let base = |word: u16| {
                Case::step("status")
                    .reg(Reg::Sts, 1)
                    .reg(Reg::P, 0o100200)
                    .reg(Reg::X, page << 10 | 0o15)
                    .with(|state| {
                        state.pcr[3] = (table ^ 1) << 9 | table << 7 | 2;
                        state.pgs = 0o140377;
                    })
                    .at_p(word)
            };
            for (word, entry) in [
                (0o046000, 0),
                (0o046000, 0o120000),
                (0o006000, 0o60000),
                (0o006000, 0o166000),
            ] {
                let case = base(word);
                let index = case.index(page << 10, true);
                cases.push(case.entry(index, entry));
            }
            // The fetch, by the normal table.
            for entry in [0, 0o140000, 0o166000] {
                let case = base(0o046000).with(|state| state.pcr[3] = table << 9 | 2);
                let case = case.reg(Reg::P, page << 10 | 0o17);
                let index = case.index(page << 10, false);
                cases.push(case.entry(index, entry));
            }
        }
    }
    // Each interrupt number with IIE that has it alone, and all but it.
    for iie in [
        1 << 2,
        1 << 3,
        1 << 9,
        0,
        0o3776,
        0o3776 & !(1 << 2),
        0o3776 & !(1 << 3),
        0o3776 & !(1 << 9),
    ] {
        for (usage, entry) in [
            (Use::Read, 0),
            (Use::Write, 0o62000),
            (Use::Fetch, 0o102000),
            (Use::Read, 0o162004),
            (Use::Fetch, 0),
        ] {
            let case = meets("internal", usage, entry, 2);
            cases.push(case.with(|state| {
                state.iie = iie;
                state.iid = 0o2020;
            }));
        }
    }
}

fn marks(cases: &mut Vec<Case>) {
    for usage in USES {
        for marks in [0, WIP, PGU, WIP | PGU] {
            // Passed, and failed by ring, permit and page.
            for entry in [
                PERMITS | 2 << 9,
                PERMITS | 3 << 9,
                0o20000,
                0o40000,
                0o100000,
                PERMITS | 4,
            ] {
                cases.push(meets("mark", usage, entry | marks, 2));
            }
        }
    }
}

/// Operands of several words: each word's page passes or fails.
fn several(cases: &mut Vec<Case>) {
    let entries = [0o162000, 0o42000, 0o102000, 0, 0o166000, 0o162004];
    for code in [0o020000, 0o024000, 0o030000, 0o034000] {
        for first in entries {
            for second in entries {
                for x in [0o25777, 0o25776] {
                    if x == 0o25777 || code >= 0o030000 {
                        let case = Case::step("several").reg(Reg::X, x).reg(Reg::P, 0o10600);
                        let case = case.at_p(code | 0o2000);
                        let index = case.index(x, false);
                        let (one, two) = (case.tables[index] & 3, case.tables[index + 1] & 3);
                        cases.push(
                            case.entry(index, first | one)
                                .entry(index + 1, second | two),
                        );
                    }
                }
            }
        }
        // Over the end of the addresses, and into the window.
        for x in [0o177777, 0o177776, 0o177377, 0o177376, 0o177375] {
            for ring in [2, 3] {
                let case = Case::step("several")
                    .reg(Reg::X, x)
                    .reg(Reg::P, 0o10600)
                    .ring(ring);
                let index = case.index(0o10600, false);
                let own = case.tables[index] & !0o3000 | ring << 9;
                cases.push(case.entry(index, own).at_p(code | 0o2000));
            }
        }
        // One page mapped twice: the later word stands.
        let case = Case::step("several")
            .reg(Reg::X, 0o25777)
            .at_p(code | 0o2000);
        let index = case.index(0o25777, false);
        let same = case.tables[index];
        cases.push(case.entry(index + 1, same));
    }
}

/// Lowering by the fetch, before the word is decoded and before its accesses.
fn rings(cases: &mut Vec<Case>) {
    for rings in 0..16 {
        let (page_ring, ring) = (rings / 4, rings % 4);
        for word in [
            0o150401, 0o044405, 0o171403, 0o140700, 0o153007, 0o150014, 0o150103,
        ] {
            for operand_ring in [0, 1, 2, 3] {
                if word == 0o044405 || operand_ring == 2 {
                    let case = Case::step("ring").reg(Reg::P, 0o10600).reg(Reg::B, 0o24500);
                    let case = case.reg(Reg::A, 0o30).at_p(word).ring(ring);
                    let fetched = case.index(0o10600, false);
                    let index = case.index(0o24500, false);
                    let page = case.tables[fetched] & 3;
                    let case = case.entry(fetched, PERMITS | page_ring << 9 | page);
                    cases.push(case.entry(index, PERMITS | operand_ring << 9 | 1));
                }
            }
        }
        // A fetch that fails lowers nothing: fetch permit missing, page beyond.
        for entry in [0o140000, 0o160004] {
            cases.push(meets("ring", Use::Fetch, entry | page_ring << 9, ring));
        }
        // Lowered on every level with its own PCR.
        let level = usize::from(rings);
        let case = Case::step("ring").on_level(level).ring(3).at_p(0o171403);
        let index = case.index(case.get(Reg::P), false);
        let page = case.tables[index] & 3;
        cases.push(case.entry(index, PERMITS | page_ring << 9 | page));
    }
}

fn window(cases: &mut Vec<Case>) {
    let addresses = [0o177376, 0o177377, 0o177400, 0o177401, 0o177776, 0o177777];
    // LDA, STA, MIN, LDA I, STD, LDF, JMP and JPL I by X.
    let words = [0o046000, 0o006000, 0o042000, 0o022000, 0o036000, 0o126000];
    for address in addresses {
        for paging in [true, false] {
            for ring in 0..4 {
                for word in words {
                    let case = Case::step("window").paging(paging).ring(ring);
                    let case = case.reg(Reg::P, 0o600).reg(Reg::X, address);
                    let index = case.index(0o600, false);
                    let own = case.tables[index] & !0o3000 | ring << 9;
                    cases.push(case.entry(index, own).at_p(word));
                }
                // An indirect word there, and a fetch from there.
                let case = Case::step("window").paging(paging).ring(ring);
                let case = case.reg(Reg::P, 0o600).reg(Reg::B, address);
                let index = case.index(0o600, false);
                let own = case.tables[index] & !0o3000 | ring << 9;
                cases.push(case.entry(index, own).at_p(0o045400));
                let case = Case::step("window")
                    .paging(paging)
                    .ring(ring)
                    .reg(Reg::P, address);
                cases.push(case.at_p(0o171403));
            }
        }
    }
    // Lowered by the fetch: the window is shut for the operand.
    for page_ring in [2, 3] {
        for word in [0o046000, 0o006000] {
            let case = Case::step("window")
                .ring(3)
                .reg(Reg::P, 0o600)
                .reg(Reg::X, 0o177500);
            let index = case.index(0o600, false);
            let own = case.tables[index] & !0o3000 | page_ring << 9;
            cases.push(case.entry(index, own).at_p(word));
        }
    }
}

/// Ends of memory with paging off; P over the end.
fn ends(cases: &mut Vec<Case>) {
    for address in [0, 0o7777, 0o10000, 0o10001, 0o100000, 0o177377] {
        for word in [
            0o046000, 0o006000, 0o042000, 0o026000, 0o022000, 0o036000, 0o136000,
        ] {
            let case = Case::step("end")
                .paging(false)
                .reg(Reg::P, 0o600)
                .reg(Reg::X, address);
            cases.push(case.at_p(word));
        }
        let case = Case::step("end")
            .paging(false)
            .reg(Reg::P, address)
            .at_p(0o171403);
        cases.push(case.with(|state| state.pgs = 0o100123));
    }
    for ring in 0..4 {
        let case = Case::step("end")
            .paging(false)
            .ring(ring)
            .reg(Reg::P, 0o600);
        cases.push(case.at_p(0o150402));
    }
    for p in [0o177776, 0o177777] {
        for word in [
            0o171403,
            0o140000 | 0o33,
            0o134000,
            0o153000,
            0o141600,
            0o150000,
            0o140610,
        ] {
            cases.push(
                Case::step("end")
                    .reg(Reg::P, p)
                    .reg(Reg::D, 0o146022)
                    .at_p(word),
            );
        }
    }
}

/// Steps that read or write the tables that they go by.
fn tables_seen(cases: &mut Vec<Case>) {
    for word in [0o046000, 0o006000, 0o042000, 0o022000, 0o026000, 0o032000] {
        for page in [0o600, 0o24500] {
            // The window's entry of the page fetched from, and of another.
            let case = Case::step("seen").ring(3).reg(Reg::P, 0o600);
            let index = case.index(page, false);
            let case = case.reg(Reg::X, 0o177400 + index as u16);
            let fetched = case.index(0o600, false);
            let own = case.tables[fetched] | 0o3000;
            cases.push(case.entry(fetched, own).at_p(word));
        }
    }
}
