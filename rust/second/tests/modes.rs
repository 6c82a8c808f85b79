//! Every address mode with PTM 0 and 1 and different tables.
//!
//! Normal table 1, alternate table 2. Virtual page 0: physical 0 by the normal
//! table, 3 by the alternate one. Virtual page 5 (012000 on): physical 1 by
//! the normal table, 2 by the alternate one.

mod common;
use common::*;
use second::PAGE;

const ONE: usize = PAGE;
const TWO: usize = 2 * PAGE;
const PGU: u16 = 0o004000;
const WIP: u16 = 0o010000;

fn case(word: u16, ptm: u16) -> Case {
    let mut case = Case::of(word).with(STS, ptm);
    case.s.paging_on = 1;
    case.s.pcr[0] = 1 << 9 | 2 << 7 | 1;
    case.t[64] = 0o161000;
    case.t[64 + 5] = 0o161001;
    case.t[128] = 0o161003;
    case.t[128 + 5] = 0o161002;
    case
}

/// Steps and expects the entries used to be marked, the others not.
fn marked(case: Case, used: &[usize], mark: u16) -> Case {
    let before = case.t.clone();
    let case = case.ok();
    for index in 0..256 {
        let expected = match index {
            64 if !used.contains(&64) => before[64] | PGU, // the fetch
            _ if used.contains(&index) => before[index] | mark | PGU,
            _ => before[index],
        };
        assert_eq!(case.t[index], expected, "entry {index}");
    }
    case
}

#[test]
fn p_relative() {
    for ptm in [0, 1] {
        let case = case(0o044002, ptm).mem(0o102, 7);
        marked(case, &[64], 0).has(&[(A, 7)]);
    }
}

#[test]
fn b_relative() {
    let case = |ptm| {
        case(0o044401, ptm)
            .with(B, 0o12000)
            .mem(ONE + 1, 7)
            .mem(TWO + 1, 8)
    };
    marked(case(0), &[64 + 5], 0).has(&[(A, 7)]);
    marked(case(1), &[128 + 5], 0).has(&[(A, 8)]);
}

#[test]
fn p_indirect() {
    // The indirect word by the normal table, the operand by the alternate one.
    let case = |ptm| {
        case(0o045002, ptm)
            .mem(0o102, 0o12003)
            .mem(ONE + 3, 7)
            .mem(TWO + 3, 8)
    };
    marked(case(0), &[64 + 5], 0).has(&[(A, 7)]);
    marked(case(1), &[128 + 5], 0).has(&[(A, 8)]);
}

#[test]
fn b_indirect() {
    let case = |ptm| {
        case(0o045401, ptm)
            .with(B, 0o12000)
            .mem(ONE + 1, 0o12003)
            .mem(TWO + 1, 0o12004)
            .mem(ONE + 3, 7)
            .mem(TWO + 4, 8)
    };
    marked(case(0), &[64 + 5], 0).has(&[(A, 7)]);
    marked(case(1), &[128 + 5], 0).has(&[(A, 8)]);
}

#[test]
fn x_relative() {
    let case = |ptm| {
        case(0o046377, ptm)
            .with(X, 0o12002)
            .mem(ONE + 1, 7)
            .mem(TWO + 1, 8)
    };
    marked(case(0), &[64 + 5], 0).has(&[(A, 7)]);
    marked(case(1), &[128 + 5], 0).has(&[(A, 8)]);
}

#[test]
fn b_indexed() {
    let case = |ptm| {
        case(0o046401, ptm)
            .with(B, 0o10000)
            .with(X, 0o2000)
            .mem(ONE + 1, 7)
            .mem(TWO + 1, 8)
    };
    marked(case(0), &[64 + 5], 0).has(&[(A, 7)]);
    marked(case(1), &[128 + 5], 0).has(&[(A, 8)]);
}

#[test]
fn p_indirect_indexed() {
    let case = |ptm| {
        case(0o047002, ptm)
            .with(X, 0o177777)
            .mem(0o102, 0o12004)
            .mem(ONE + 3, 7)
            .mem(TWO + 3, 8)
    };
    marked(case(0), &[64 + 5], 0).has(&[(A, 7)]);
    marked(case(1), &[128 + 5], 0).has(&[(A, 8)]);
}

#[test]
fn b_indirect_indexed() {
    let case = |ptm| {
        case(0o047401, ptm)
            .with(B, 0o12000)
            .with(X, 2)
            .mem(ONE + 1, 0o12001)
            .mem(TWO + 1, 0o12002)
            .mem(ONE + 3, 7)
            .mem(TWO + 4, 8)
    };
    marked(case(0), &[64 + 5], 0).has(&[(A, 7)]);
    marked(case(1), &[128 + 5], 0).has(&[(A, 8)]);
}

#[test]
fn stores_by_both_tables() {
    // STA ,B 1 and STA *2.
    let by_b = |ptm| case(0o004401, ptm).with(B, 0o12000).with(A, 7);
    marked(by_b(0), &[64 + 5], WIP)
        .holds(ONE + 1, 7)
        .holds(TWO + 1, 0);
    marked(by_b(1), &[128 + 5], WIP)
        .holds(ONE + 1, 0)
        .holds(TWO + 1, 7);
    for ptm in [0, 1] {
        marked(case(0o004002, ptm).with(A, 7), &[64], WIP).holds(0o102, 7);
    }
}

#[test]
fn jumps_by_both_tables() {
    // JMP ,B: no access at the target.
    for ptm in [0, 1] {
        marked(case(0o124401, ptm).with(B, 0o12000), &[], 0).has(&[(P, 0o12001)]);
        // JPL I *2: the indirect word only, by the normal table.
        let case = case(0o135002, ptm).mem(0o102, 0o12003);
        marked(case, &[64], 0).has(&[(P, 0o12003), (L, 0o101)]);
    }
    // JMP I ,B 1.
    let by_b = |ptm| {
        case(0o125401, ptm)
            .with(B, 0o12000)
            .mem(ONE + 1, 0o333)
            .mem(TWO + 1, 0o444)
    };
    marked(by_b(0), &[64 + 5], 0).has(&[(P, 0o333)]);
    marked(by_b(1), &[128 + 5], 0).has(&[(P, 0o444)]);
    // After it the fetch goes by the normal table, PTM or not.
    let mut case = case(0o125002, 1)
        .mem(0o102, 0o12003)
        .mem(ONE + 3, 0o170407)
        .ok();
    assert_eq!(case.step(), 0);
    case.has(&[(A, 7), (P, 0o12004)]);
}

#[test]
fn bytes_and_blocks_by_the_alternate_rule() {
    let lbyt = |ptm| {
        case(0o142200, ptm)
            .with(T, 0o12000)
            .with(X, 3)
            .mem(ONE + 1, 7)
            .mem(TWO + 1, 8)
    };
    marked(lbyt(0), &[64 + 5], 0).has(&[(A, 7)]);
    marked(lbyt(1), &[128 + 5], 0).has(&[(A, 8)]);
    let sbyt = |ptm| case(0o142600, ptm).with(T, 0o12000).with(X, 2).with(A, 1);
    marked(sbyt(0), &[64 + 5], WIP).holds(ONE + 1, 0o400);
    marked(sbyt(1), &[128 + 5], WIP).holds(TWO + 1, 0o400);
    // SRB 10 and LRB 10 on ring 2.
    let block = |word, ptm| {
        let mut case = case(word, ptm).with(X, 0o12000);
        case.s.pcr[0] += 1;
        case.t[64] += 0o1000; // stay on ring 2
        case.s.files[1][7] = 5;
        case
    };
    marked(block(0o152412, 0), &[64 + 5], WIP).holds(ONE + 1, 5);
    marked(block(0o152412, 1), &[128 + 5], WIP).holds(TWO + 1, 5);
    let lrb = |ptm| block(0o152610, ptm).mem(ONE + 1, 6).mem(TWO + 1, 7);
    assert_eq!(marked(lrb(0), &[64 + 5], 0).s.files[1][7], 6);
    assert_eq!(marked(lrb(1), &[128 + 5], 0).s.files[1][7], 7);
}

#[test]
fn tables_named_in_pgs() {
    // Virtual page 6 is entry 0 in both: 3, with the table that was used.
    for (ptm, pgs) in [(0, 0o040106), (1, 0o040206)] {
        let case = case(0o044400, ptm).with(B, 0o14000).gives(3);
        assert_eq!(case.s.pgs, pgs);
    }
    // An indirect word by the fetch-only page 0 of the normal table passes; by
    // B, page 0 of the alternate table is used and fails, without fetch bit.
    let start = |word| {
        case(word, 1)
            .table(64, 0o021000)
            .table(128, 0)
            .mem(0o102, 0o12003)
    };
    start(0o045002).mem(TWO + 3, 8).ok().has(&[(A, 8)]);
    let failed = start(0o045402).with(B, 0o100).gives(3);
    assert_eq!(failed.s.pgs, 0o040200);
}

#[test]
fn words_of_one_operand_by_their_own_pages() {
    // LDD at the end of page 5: page 6 has its own entry.
    let case = case(0o024400, 0)
        .with(B, 0o13777)
        .table(64 + 6, 0o161003)
        .mem(ONE + 1023, 7)
        .mem(3 * PAGE, 8);
    marked(case, &[64 + 5, 64 + 6], 0).has(&[(A, 7), (D, 8)]);
}
