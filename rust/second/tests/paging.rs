//! Faults in their order, marks, rings and the window.

mod common;
use common::*;

const PGU: u16 = 0o004000;
const WIP: u16 = 0o010000;

/// Puts what a fault leaves in PGS: 2 and 3 are held, 9 touches neither word.
fn status(case: &mut Case, number: u16, pgs: u16) {
    case.s.pgs = pgs;
    case.s.pgs_held = u16::from(number != 9);
}

/// Expects that nothing changed but what `change` makes of the start.
fn only(start: Case, number: u16, change: impl Fn(&mut Case)) {
    let after = start.clone().gives(number);
    let mut expected = start;
    expected.s.iid |= 1 << number;
    change(&mut expected);
    assert_eq!(after, expected);
}

#[test]
fn fetch_faults_leave_p() {
    // Entry of the code's page, interrupt, PGS. User ring 1.
    for (entry, number, pgs) in [
        (0o000000, 3, 0o140000),
        (0o003777, 3, 0o140000), // no permit comes before ring and page
        (0o140000, 2, 0o140000), // no fetch permit
        (0o143777, 2, 0o140000), // before ring and page
        (0o162000, 2, 0o100000), // ring 2
        (0o162777, 2, 0o100000), // before the page
        (0o160004, 9, 0o000123), // beyond; PGS stays, ring not lowered
        (0o160777, 9, 0o000123),
    ] {
        let mut case = Case::paged(0o170401, 1).table(0, entry);
        case.s.pgs = 0o123;
        only(case, number, |case| status(case, number, pgs));
    }
}

#[test]
fn fetch_fault_names_table_and_page() {
    let mut case = Case::paged(0, 1).with(P, 0o76000);
    case.s.pcr[0] = 3 << 9 | 2 << 7 | 1;
    case.s.set_reg(STS, 1);
    // Table 3 also with PTM 1; virtual page 31.
    only(case, 3, |case| status(case, 3, 0o140337));
}

#[test]
fn fetch_off_paging_beyond_the_memory() {
    let mut case = Case::of(0).with(P, 0o10000);
    case.s.pgs = 5;
    only(case, 9, |_| {});
    // The last word below the window is beyond four pages.
    only(Case::of(0).with(P, 0o177377), 9, |_| {});
}

#[test]
fn read_faults() {
    for (entry, number, pgs) in [
        (0o000001, 3, 0o040001),
        (0o003777, 3, 0o040001),
        (0o121001, 2, 0o040001), // write and fetch only
        (0o123777, 2, 0o040001), // before ring and page
        (0o162001, 2, 0o000001), // ring 2
        (0o162777, 2, 0o000001),
        (0o160004, 9, 0o000123),
    ] {
        let mut case = Case::paged(0o044400, 1).with(B, 0o2000).table(1, entry);
        case.s.pgs = 0o123;
        only(case, number, |case| {
            status(case, number, pgs);
            case.s.set_reg(P, 0o101);
            case.t[0] |= PGU;
        });
    }
}

#[test]
fn write_faults() {
    for (entry, number, pgs) in [
        (0o000001, 3, 0o040001),
        (0o061001, 2, 0o040001), // read and fetch only
        (0o063777, 2, 0o040001),
        (0o102001, 2, 0o000001),
        (0o161004, 9, 0o000123),
    ] {
        let mut case = Case::paged(0o004400, 1)
            .with(B, 0o2000)
            .with(A, 5)
            .table(1, entry);
        case.s.pgs = 0o123;
        only(case, number, |case| {
            status(case, number, pgs);
            case.s.set_reg(P, 0o101);
            case.t[0] |= PGU;
        });
    }
}

#[test]
fn indirect_needs_read_or_fetch() {
    // LDA I ,B 0 by entries of page 1; the operand is at 000200.
    for entry in [0o041001, 0o021001, 0o061001] {
        let case = Case::paged(0o045400, 1)
            .with(B, 0o2000)
            .table(1, entry)
            .mem(1024, 0o200)
            .mem(0o200, 7);
        case.ok().has(&[(A, 7)]).entry(1, entry | PGU);
    }
    // Write only: 2, bit 14 set, no fetch bit.
    let case = Case::paged(0o045400, 1)
        .with(B, 0o2000)
        .table(1, 0o101001)
        .gives(2);
    assert_eq!(case.s.pgs, 0o040001);
    // Entry 0: 3. Ring: 2 without bit 14. Beyond: 9.
    let case = Case::paged(0o045400, 1)
        .with(B, 0o2000)
        .table(1, 1)
        .gives(3);
    assert_eq!(case.s.pgs, 0o040001);
    let case = Case::paged(0o045400, 1)
        .with(B, 0o2000)
        .table(1, 0o042001)
        .gives(2);
    assert_eq!(case.s.pgs, 0o000001);
    Case::paged(0o045400, 1)
        .with(B, 0o2000)
        .table(1, 0o041004)
        .gives(9);
    // A passed indirect word keeps its mark when the operand fails.
    Case::paged(0o045400, 1)
        .with(B, 0o2000)
        .mem(1024, 0o4000)
        .table(2, 0)
        .gives(3)
        .entry(1, 0o161001 | PGU)
        .entry(2, 0);
}

#[test]
fn marks() {
    Case::paged(0o044400, 1)
        .with(B, 0o2000)
        .ok()
        .entry(0, 0o161000 | PGU)
        .entry(1, 0o161001 | PGU);
    Case::paged(0o004400, 1)
        .with(B, 0o2000)
        .ok()
        .entry(1, 0o161001 | PGU | WIP);
    // WIP that is set stays on a read.
    Case::paged(0o044400, 1)
        .with(B, 0o2000)
        .table(1, 0o161001 | WIP)
        .ok()
        .entry(1, 0o161001 | WIP | PGU);
    // An illegal, a privileged and a monitor word leave the fetch's mark.
    Case::paged(0o100000, 1).gives(4).entry(0, 0o161000 | PGU);
    Case::paged(0o150001, 1).gives(6).entry(0, 0o161000 | PGU);
    Case::paged(0o153000, 1).gives(1).entry(0, 0o161000 | PGU);
}

#[test]
fn all_accesses_before_the_first_store() {
    // STD at the end of page 1; page 2 fails. The first page keeps its marks.
    let case = Case::paged(0o020400, 1)
        .with(B, 0o3777)
        .with(A, 5)
        .with(D, 6);
    only(case.table(2, 0o041002), 2, |case| {
        status(case, 2, 0o040002);
        case.s.set_reg(P, 0o101);
        case.t[0] |= PGU;
        case.t[1] |= PGU | WIP;
    });
    // The first fails: the second is not tried.
    let case = Case::paged(0o020400, 1)
        .with(B, 0o3777)
        .with(A, 5)
        .with(D, 6);
    only(case.table(1, 0).table(2, 0o100000), 3, |case| {
        status(case, 3, 0o040001);
        case.s.set_reg(P, 0o101);
        case.t[0] |= PGU;
    });
    // STF and LDF, third word.
    let case = Case::paged(0o030400, 1)
        .with(B, 0o3776)
        .with(T, 4)
        .with(A, 5)
        .with(D, 6);
    only(case.table(2, 0), 3, |case| {
        status(case, 3, 0o040002);
        case.s.set_reg(P, 0o101);
        case.t[0] |= PGU;
        case.t[1] |= PGU | WIP;
    });
    let case = Case::paged(0o034400, 1)
        .with(B, 0o3776)
        .mem(2046, 1)
        .mem(2047, 2);
    only(case.table(2, 0), 3, |case| {
        status(case, 3, 0o040002);
        case.s.set_reg(P, 0o101);
        case.t[0] |= PGU;
        case.t[1] |= PGU;
    });
    // LDD: A stays when D's word fails.
    let case = Case::paged(0o024400, 1)
        .with(B, 0o3777)
        .with(A, 9)
        .mem(2047, 1)
        .table(2, 0);
    case.gives(3).has(&[(A, 9), (D, 0)]);
}

#[test]
fn min_and_sbyt_read_then_write() {
    for word in [0o040400, 0o142600] {
        let case = Case::paged(word, 1)
            .with(B, 0o2000)
            .with(T, 0o2000)
            .mem(1024, 0o177777);
        // Passed: both marks.
        case.clone().ok().entry(1, 0o161001 | PGU | WIP);
        // No read permit: PGU is not set.
        let start = case.clone().table(1, 0o101001);
        only(start, 2, |case| {
            status(case, 2, 0o040001);
            case.s.set_reg(P, 0o101);
            case.t[0] |= PGU;
        });
        // No write permit: the read has set PGU. No skip, no store.
        let start = case.table(1, 0o041001);
        only(start, 2, |case| {
            status(case, 2, 0o040001);
            case.s.set_reg(P, 0o101);
            case.t[0] |= PGU;
            case.t[1] |= PGU;
        });
    }
}

#[test]
fn register_blocks_test_all_eight() {
    // SRB 10: six words on page 1, two on page 2, which fails.
    let mut case = Case::paged(0o152412, 2).with(X, 0o3772).table(2, 0);
    case.s.files[1] = [1, 2, 3, 4, 5, 6, 7, 8];
    only(case, 3, |case| {
        status(case, 3, 0o040002);
        case.s.set_reg(P, 0o101);
        case.t[0] |= PGU;
        case.t[1] |= PGU | WIP;
    });
    // LRB 10 likewise: no register of level 1 changes.
    let case = Case::paged(0o152610, 2)
        .with(X, 0o3772)
        .mem(2042, 5)
        .table(2, 0);
    only(case, 3, |case| {
        status(case, 3, 0o040002);
        case.s.set_reg(P, 0o101);
        case.t[0] |= PGU;
        case.t[1] |= PGU;
    });
    // Paging off, the block runs off the memory's end.
    let case = Case::of(0o152412).with(X, 0o7771);
    only(case, 9, |case| case.s.set_reg(P, 0o101));
    // The block's addresses drop the carry: from 177774, half in the window.
    let mut case = Case::of(0o152412).with(X, 0o177774);
    case.s.files[1] = [1, 2, 3, 4, 5, 6, 7, 8];
    let case = case.ok();
    assert_eq!(case.t[252..256], [3, 8, 7, 6]); // P X T A
    assert_eq!(case.m[..4], [2, 5, 1, 4]); // D L STS B
}

#[test]
fn order_of_illegal_privileged_and_access() {
    // TRA of a number not served: 4 on every ring.
    for ring in 0..4 {
        Case::paged(0o150000, ring).gives(4).has(&[(P, 0o101)]);
        Case::paged(0o150403, ring).gives(4);
    }
    // Privileged codes on rings 0 and 1.
    let words = [
        0o150401, 0o150402, 0o150404, 0o150405, 0o150406, 0o150407, 0o150410, 0o150412, 0o150415,
        0o150416, 0o150417, 0o151000, 0o150001, 0o150003, 0o150004, 0o150005, 0o150006, 0o150007,
        0o150011, 0o150014, 0o150101, 0o150103, 0o150105, 0o150106, 0o150107, 0o150201, 0o150206,
        0o150207, 0o150301, 0o150306, 0o150307, 0o152402, 0o152600, 0o153400, 0o153600, 0o164000,
        0o167777, 0o143604,
    ];
    for word in words {
        for ring in [0, 1] {
            let mut case = Case::paged(word, ring).with(A, 0o177777).with(X, 0o100000);
            case.s.iid = 0o2000;
            only(case, 6, |case| {
                case.s.set_reg(P, 0o101);
                case.t[0] |= PGU;
            });
            // Under EXR too.
            let case = Case::paged(0o140610, ring).with(D, word);
            only(case, 6, |case| {
                case.s.set_reg(P, 0o101);
                case.t[0] |= PGU;
            });
        }
        for ring in [2, 3] {
            let mut case = Case::paged(word, ring).with(X, 0o2000);
            assert_ne!(case.step(), 6, "{word:o}");
        }
        // Paging off: permitted on every ring.
        let mut case = Case::of(word).with(X, 0o2000);
        assert_ne!(case.step(), 6, "{word:o}");
    }
}

#[test]
fn no_device_gives_seven() {
    for word in [
        0o164000, 0o164001, 0o167777, 0o150415, 0o143604, 0o143600, 0o143677,
    ] {
        let case = Case::paged(word, 2).with(A, 5).with(T, 6);
        only(case, 7, |case| {
            case.s.set_reg(P, 0o101);
            case.t[0] |= PGU;
        });
        Case::of(word).gives(7);
    }
}

#[test]
fn ring_lowering() {
    // User ring 3, code of ring 1: the ring is lowered, other PCR bits stay.
    let mut case = Case::paged(0o170401, 3).table(0, 0o161000);
    case.s.pcr[0] = 2 << 7 | 3;
    let case = case.ok();
    assert_eq!(case.s.pcr[0], 2 << 7 | 1);
    // Equal ring: no change. Other levels' PCR: no change.
    let mut case = Case::paged(0o170401, 2);
    case.s.pcr[5] = 3;
    let case = case.ok();
    assert_eq!((case.s.pcr[0], case.s.pcr[5]), (2, 3));
    // Data of a lower ring lowers nothing, an indirect word neither.
    let case = Case::paged(0o044400, 2)
        .with(B, 0o2000)
        .table(1, 0o160001)
        .ok();
    assert_eq!(case.s.pcr[0], 2);
    let case = Case::paged(0o045400, 2)
        .with(B, 0o2000)
        .table(1, 0o160001)
        .ok();
    assert_eq!(case.s.pcr[0], 2);
}

#[test]
fn lowering_comes_before_everything_else() {
    // Privilege: ring 3 on a ring 0 page, 6; the ring stays lowered.
    let case = Case::paged(0o150001, 3).table(0, 0o160000).gives(6);
    assert_eq!(case.s.pcr[0], 0);
    let case = Case::paged(0o150001, 3).table(0, 0o162000).ok();
    assert_eq!(case.s.pcr[0], 2);
    // Illegal: the ring stays lowered.
    let case = Case::paged(0o100000, 3).table(0, 0o160000).gives(4);
    assert_eq!(case.s.pcr[0], 0);
    // Accesses: ring 2 data after lowering to 1.
    let case = Case::paged(0o044400, 3)
        .with(B, 0o2000)
        .table(0, 0o161000)
        .table(1, 0o162001);
    let case = case.gives(2);
    assert_eq!((case.s.pcr[0], case.s.pgs), (1, 1));
    // TRR PCR reads A after it: the new value stands.
    let case = Case::paged(0o150103, 3).table(0, 0o162000).with(A, 3).ok();
    assert_eq!(case.s.pcr[0], 3);
    // TRA PGC sees the lowered ring.
    Case::paged(0o150014, 3)
        .table(0, 0o162000)
        .ok()
        .has(&[(A, 2)]);
}

#[test]
fn window_by_ring() {
    // Reads, writes and indirect words at 177400 on ring 3.
    Case::paged(0o044400, 3)
        .with(B, 0o177500)
        .table(64, 0o1234)
        .ok()
        .has(&[(A, 0o1234)])
        .entry(64, 0o1234);
    Case::paged(0o004400, 3)
        .with(B, 0o177777)
        .with(A, 5)
        .ok()
        .entry(255, 5)
        .entry(63, 0);
    Case::paged(0o045400, 3)
        .with(B, 0o177500)
        .table(64, 0o2000)
        .mem(1024, 7)
        .ok()
        .has(&[(A, 7)])
        .entry(64, 0o2000);
    Case::paged(0o040400, 3)
        .with(B, 0o177500)
        .table(64, 0o177777)
        .ok()
        .entry(64, 0)
        .has(&[(P, 0o102)]);
    // 177377 is below the window.
    let case = Case::paged(0o044400, 3).with(B, 0o177377).gives(3);
    assert_eq!(case.s.pgs, 0o040077);
    // On ring 2 the window is an ordinary part of page 63.
    let case = Case::paged(0o044400, 2).with(B, 0o177400).gives(3);
    assert_eq!(case.s.pgs, 0o040077);
    Case::paged(0o044400, 2)
        .with(B, 0o177400)
        .table(63, 0o161001)
        .mem(1024 + 0o1400, 9)
        .ok()
        .has(&[(A, 9)])
        .entry(63, 0o161001 | PGU);
    // Ring 3 lowered to 2 by the fetch: no window for the operand.
    Case::paged(0o044400, 3)
        .table(0, 0o162000)
        .with(B, 0o177400)
        .gives(3);
}

#[test]
fn window_fetch() {
    // Ring 3: no mark, no lowering, whatever entry 63 says.
    let case = Case::paged(0, 3)
        .with(P, 0o177402)
        .table(2, 0o170405)
        .table(63, 0o160000)
        .ok();
    assert_eq!(case.s.pcr[0], 3);
    case.has(&[(A, 5), (P, 0o177403)])
        .entry(2, 0o170405)
        .entry(63, 0o160000);
    // Ring 2: by entry 63.
    let case = Case::paged(0, 2).with(P, 0o177402).table(63, 0).gives(3);
    assert_eq!(case.s.pgs, 0o140077);
    // Paging off: on every ring.
    Case::of(0)
        .with(P, 0o177402)
        .table(2, 0o170405)
        .ok()
        .has(&[(A, 5)]);
    // Operands too.
    Case::of(0o044400)
        .with(B, 0o177777)
        .table(255, 8)
        .ok()
        .has(&[(A, 8)]);
}

#[test]
fn later_accesses_see_earlier_marks() {
    // LDD at 177377 on ring 3: page 63 by entry 63, then table word 0, which
    // is the entry of the code's page and marked by the fetch.
    let case = Case::paged(0o024400, 3)
        .with(B, 0o177377)
        .table(63, 0o163001)
        .mem(1024 + 0o1377, 7);
    case.ok().has(&[(A, 7), (D, 0o163000 | PGU)]);
    // MIN of the code page's own entry in the window: the mark is counted in.
    Case::paged(0o040400, 3)
        .with(B, 0o177400)
        .ok()
        .entry(0, (0o163000 | PGU) + 1);
    // STA over it: the store comes after the mark.
    Case::paged(0o004400, 3)
        .with(B, 0o177400)
        .with(A, 5)
        .ok()
        .entry(0, 5);
}

#[test]
fn exam_and_depo_reach_memory_only() {
    // A x 65,536 + D, no window, no marks.
    Case::of(0o150416)
        .with(D, 0o300)
        .mem(0o300, 7)
        .ok()
        .has(&[(T, 7), (A, 0), (D, 0o300)]);
    Case::of(0o150417)
        .with(D, 0o300)
        .with(T, 7)
        .ok()
        .holds(0o300, 7);
    for word in [0o150416, 0o150417] {
        for (a, d) in [(0, 0o10000), (0, 0o177400), (1, 0), (0o177777, 0o177777)] {
            let case = Case::of(word).with(A, a).with(D, d).with(T, 7);
            only(case, 9, |case| case.s.set_reg(P, 0o101));
        }
    }
    // Physical also with paging on.
    Case::paged(0o150417, 2)
        .with(D, 0o7777)
        .with(T, 7)
        .table(3, 0)
        .ok()
        .holds(0o7777, 7)
        .entry(3, 0);
    // Beyond 65,536 words.
    let mut case = Case::of(0o150416).with(A, 1).with(D, 3);
    case.m = vec![0; 65 * 1024];
    case.m[0o100] = 0o150416;
    case.m[65_539] = 9;
    case.ok().has(&[(T, 9)]);
    let mut case = Case::of(0o150417).with(A, 7).with(D, 0o177777).with(T, 9);
    case.m = vec![0; 524_288];
    case.m[0o100] = 0o150417;
    case.ok().holds(524_287, 9);
}

#[test]
fn interrupts_set_iid_and_pid() {
    for (iie, pid) in [(0, 0), (1 << 4, 1 << 14), (0o3776 & !(1 << 4), 0)] {
        let mut case = Case::of(0o100000);
        case.s.iie = iie;
        case.s.iid = 2;
        let case = case.gives(4);
        assert_eq!((case.s.iid, case.s.pid), (2 | 1 << 4, pid));
    }
}

#[test]
fn ptm_set_by_the_program_itself() {
    // Ring 0: BSET ONE SSPTM, then LDA ,B by the alternate table.
    let mut case = Case::paged(0o174200, 0)
        .mem(0o101, 0o044400)
        .with(B, 0o2000);
    case.s.pcr[0] = 1 << 7;
    case.t[64 + 1] = 0o160002;
    case.m[2048] = 8;
    case.m[1024] = 7;
    let mut case = case.ok();
    assert_eq!(case.step(), 0);
    case.has(&[(A, 8)]);
}
