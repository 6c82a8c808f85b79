//! Faults at each access of an instruction: what comes behind it is not counted.

use super::*;
use crate::paging::Access;

/// Entries by which an access on ring 2 fails, with the page: 3, 2 for the permit, 2
/// for the ring, 9.
fn failing(access: Access) -> [(u16, u16); 4] {
    let without = match access {
        Access::Fetch => 0o142000,
        Access::Indirect => 0o102000,
        Access::Read => 0o122000,
        Access::Write => 0o062000,
    };
    [
        (0o002000, 0),
        (without, 0),
        (0o163000, 0),
        (0o162000, MEMORY as u16 / PAGE as u16),
    ]
}

/// Read is permitted, write is not.
const READ_ONLY: (u16, u16) = (0o042000, 0);

impl Case {
    /// The entry of an address, in the table that an operand goes by.
    fn operand_page(self, address: u16, (word, page): (u16, u16)) -> Case {
        let alternate = self.get(Reg::Sts) & 1 == 1;
        let slot = self.index(address, alternate);
        self.slot(slot, word, page)
    }
}

pub fn faults() -> Vec<Case> {
    let mut cases = Vec::new();
    fetches(&mut cases);
    indirect(&mut cases);
    single(&mut cases);
    several(&mut cases);
    read_and_written(&mut cases);
    blocks(&mut cases);
    order(&mut cases);
    cases
}

/// The fetch: of words that would make many accesses.
fn fetches(cases: &mut Vec<Case>) {
    for (word, page) in failing(Access::Fetch) {
        for code in [LDA, STF | INDIRECT, lrb(5), EXR, MON, ILLEGAL, WAIT] {
            push(cases, |extended| {
                of(extended, "fetch").at_p(code).paged(AT, word, page)
            });
        }
    }
}

/// The indirect word: relative to P by the normal table, to B by the alternate one.
fn indirect(cases: &mut Vec<Case>) {
    for code in [LDA, STF, MIN, JMP, JPL] {
        for mode in [0, B_RELATIVE, X_RELATIVE, X_RELATIVE | B_RELATIVE] {
            for (turn, (word, page)) in failing(Access::Indirect).into_iter().enumerate() {
                push(cases, |extended| {
                    // P at the end of its page, so that P + 1 is in the next.
                    let case = of(extended, "indirect").reg(Reg::P, 0o1777);
                    let case = case.ptm(turn as u16 % 2).at_p(code | INDIRECT | mode | 1);
                    match mode & B_RELATIVE {
                        0 => case.paged(0o2000, word, page),
                        _ => case.reg(Reg::B, EDGE).operand_page(EDGE, (word, page)),
                    }
                });
            }
        }
    }
}

/// Whether a memory operation stores.
fn stores(code: u16) -> bool {
    matches!(code, 0..=0o014000 | STD | STF)
}

/// The one word of those that have one.
fn single(cases: &mut Vec<Case>) {
    let codes = MEMORY_CODES.into_iter();
    let codes = codes.filter(|code| ![STD, LDD, STF, LDF, MIN, JMP, JPL].contains(code));
    for (turn, code) in codes.enumerate() {
        let access = if stores(code) {
            Access::Write
        } else {
            Access::Read
        };
        for entry in failing(access) {
            push(cases, |extended| {
                let case = of(extended, "operand").ptm(turn as u16 % 2);
                at_operand(case, code, EDGE).operand_page(EDGE, entry)
            });
            if turn % 3 == 0 {
                push(cases, |extended| {
                    let case = of(extended, "operand").ptm(turn as u16 % 2);
                    after_indirect(case, code, EDGE).operand_page(EDGE, entry)
                });
            }
        }
    }
}

/// The operation by X.
fn at_operand(case: Case, code: u16, ea: u16) -> Case {
    case.reg(Reg::X, ea).at_p(code | X_RELATIVE)
}

/// The operation by the word behind it.
fn after_indirect(case: Case, code: u16, ea: u16) -> Case {
    let case = case.put(AT + 1, false, ea);
    case.at_p(code | INDIRECT | 1)
}

/// Each word of two or three, direct and after an indirect word.
fn several(cases: &mut Vec<Case>) {
    for (code, words) in [(STD, 2), (LDD, 2), (STF, 3), (LDF, 3)] {
        let access = if stores(code) {
            Access::Write
        } else {
            Access::Read
        };
        for before in 0..words {
            for (turn, entry) in failing(access).into_iter().enumerate() {
                let ea = EDGE - before;
                let make = |reach: fn(Case, u16, u16) -> Case, ptm: usize| {
                    move |extended| {
                        let case = of(extended, "several").ptm(ptm as u16 % 2);
                        reach(case, code, ea).operand_page(EDGE, entry)
                    }
                };
                push(cases, make(at_operand, turn));
                push(cases, make(after_indirect, turn + 1));
            }
        }
        // Paging off: the end of memory.
        for before in 0..=words {
            push(cases, |extended| {
                let case = of(extended, "several").paging(false);
                after_indirect(case, code, MEMORY as u16 - before)
            });
        }
    }
}

/// MIN and SBYT at the read and at the write, LBYT.
fn read_and_written(cases: &mut Vec<Case>) {
    let reads = failing(Access::Read);
    for (turn, entry) in reads.into_iter().chain([READ_ONLY; 4]).enumerate() {
        let ptm = turn as u16 % 2;
        push(cases, |extended| {
            let case = of(extended, "both").ptm(ptm);
            at_operand(case, MIN, EDGE).operand_page(EDGE, entry)
        });
        push(cases, |extended| {
            let case = of(extended, "both").ptm(ptm);
            after_indirect(case, MIN, EDGE).operand_page(EDGE, entry)
        });
        for word in [SBYT, LBYT] {
            push(cases, |extended| {
                let case = of(extended, "both").ptm(ptm).reg(Reg::T, EDGE);
                let case = case.reg(Reg::X, turn as u16).at_p(word);
                case.operand_page(EDGE, entry)
            });
        }
    }
}

/// Each of the eight words of a register block.
fn blocks(cases: &mut Vec<Case>) {
    for (word, access) in [
        (srb(5), Access::Write),
        (srb(3), Access::Write),
        (lrb(5), Access::Read),
        (lrb(3), Access::Read),
    ] {
        for before in 0..8 {
            for (turn, entry) in failing(access).into_iter().enumerate() {
                // All four ways for one level, two in turn for the other.
                if word & 0o70 == 0o30 && turn % 2 == usize::from(before % 2) {
                    continue;
                }
                push(cases, |extended| {
                    let case = of(extended, "block").ptm(turn as u16 / 2 % 2);
                    let case = case.reg(Reg::X, EDGE - before).at_p(word);
                    case.operand_page(EDGE, entry)
                });
            }
        }
    }
}

/// Several accesses could fail: the first of them does.
fn order(cases: &mut Vec<Case>) {
    for entry in failing(Access::Read) {
        for code in [LDA, STD, LDF, MIN, STF, JMP] {
            push(cases, |extended| {
                // The indirect word and what it names are in one page.
                let case = of(extended, "order").ptm(1).reg(Reg::B, EDGE);
                let case = case.put(EDGE, true, EDGE + 2);
                let case = case.at_p(code | INDIRECT | B_RELATIVE);
                case.operand_page(EDGE, entry)
            });
        }
        // Privilege before the accesses, and illegal before privilege.
        for word in [srb(5), lrb(5), srb(5) | 1] {
            push(cases, |extended| {
                let case = of(extended, "order").reg(Reg::X, EDGE).at_p(word);
                case.ptm(0).operand_page(EDGE, entry).on_ring(1)
            });
        }
    }
}
