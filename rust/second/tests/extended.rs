//! Extended mode: answers worked out from card 4 and its rulings R1 to R10.

mod common;
use common::*;
use second::*;

const SEX: u16 = 0o150406;
const REX: u16 = 0o150407;
const LDA_B: u16 = 0o044400; // LDA ,B 0
const STA_B: u16 = 0o004400; // STA ,B 0
const PGU: u16 = 0o004000;
const WIP: u16 = 0o010000;

/// The low digits of the seven.
const LDATX: u16 = 0;
const LDXTX: u16 = 1;
const LDDTX: u16 = 2;
const LDBTX: u16 = 3;
const STATX: u16 = 4;
const STZTX: u16 = 5;
const STDTX: u16 = 6;

fn seven(low: u16, disp: u16) -> u16 {
    0o143300 + 8 * disp + low
}

fn mode(mut case: Case, extended: u16) -> Case {
    case.s.extended = extended;
    case
}

/// `Case::paged` in extended mode: table 0 maps pages 0 to 3 to the same
/// physical ones by entries of two words.
fn long(word: u16, ring: u16) -> Case {
    let mut case = mode(Case::of(word), 1);
    case.s.paging_on = 1;
    case.s.pcr[0] = ring;
    for page in 0..4 {
        case.t[2 * page] = 0o160000 | ring << 9;
        case.t[2 * page + 1] = page as u16;
    }
    case
}

/// So many pages of memory, the first words as they were.
fn pages(mut case: Case, pages: usize) -> Case {
    case.m.resize(pages * PAGE, 0);
    case
}

/// Steps, expects the interrupt and that the machine is as `change` leaves it.
fn only(mut case: Case, number: u16, change: impl FnOnce(&mut Case)) {
    let mut expected = case.clone();
    expected.s.iid |= 1 << number;
    change(&mut expected);
    assert_eq!(case.step(), number);
    assert_eq!(case, expected);
}

// R1, R6.

#[test]
fn sex_and_rex_set_the_flag_and_nothing_else() {
    for (word, flag) in [(SEX, 1), (REX, 0)] {
        for before in [0, 1] {
            let mut case = mode(Case::of(word), before).with(A, 7).with(STS, 0o377);
            for (index, entry) in case.t.iter_mut().enumerate() {
                *entry = index as u16 * 0o111;
            }
            let mut expected = case.clone();
            expected.s.extended = flag;
            expected.s.set_reg(P, 0o101);
            assert_eq!(case.ok(), expected);
        }
    }
}

#[test]
fn status_has_the_flag_in_bit_13() {
    // SEX; TRA STS; WAIT from address 0: A 030000. With REX 010000.
    for (word, a) in [(SEX, 0o030000), (REX, 0o010000)] {
        let mut case = Case::of(0).with(P, 0);
        case.m[..3].copy_from_slice(&[word, 0o150001, 0o151000]);
        let ended = run(&mut case.s, &mut case.m, &mut case.t, 9, false);
        let ended = ended.map(|ran| (ran.steps, ran.reason));
        assert_eq!(ended, Ok((3, Reason::Stopped)));
        case.has(&[(A, a), (P, 3)]);
    }
    // Interrupts on, paging on, extended, level 9, flags 252.
    let mut case = long(0o150001, 2);
    case.s.interrupts_on = 1;
    case.s.level = 9;
    case.s.pid = 1 << 9;
    case.s.pie = 1 << 9;
    case.s.pcr[9] = 2;
    case.with(P, HERE)
        .with(STS, 0o252)
        .ok()
        .has(&[(A, 0o174652)]);
    // TRR, MCL and MST of STS do not reach it.
    for word in [0o150101, 0o150201, 0o150301] {
        for flag in [0, 1] {
            for a in [0, 0o177777, 0o020000] {
                let case = mode(Case::of(word), flag).with(A, a).ok();
                assert_eq!(case.s.extended, flag);
            }
        }
    }
}

#[test]
fn the_next_fetch_goes_by_the_other_form() {
    // Table 3, page 0: slot 192. 19-bit: word 192, page 0. Extended: words 384
    // and 385.
    let case = |word| {
        let mut case = Case::of(word);
        case.s.paging_on = 1;
        case.s.pcr[0] = 3 << 9 | 2;
        for page in 0..4 {
            case.m[page * PAGE + 0o101] = 0o170401 + page as u16; // SAA page + 1
        }
        case.table(192, 0o162000)
    };
    let mut open = case(SEX).table(384, 0o162777).table(385, 0o140002);
    assert_eq!((open.step(), open.step()), (0, 0));
    open.has(&[(A, 3), (P, 0o102)])
        .entry(192, 0o166000)
        .entry(384, 0o166777)
        .entry(385, 0o140002);
    // No permit: 3, with the slot as it is in PGS.
    let mut none = case(SEX).table(384, 0o017777);
    assert_eq!((none.step(), none.step()), (0, 3));
    assert_eq!(none.s.pgs, 0o140300);
    none.has(&[(P, 0o101)]).entry(384, 0o017777);
    // Past the memory by a page of fourteen bits.
    let mut far = case(SEX).table(384, 0o162000).table(385, 0o037777);
    assert_eq!((far.step(), far.step()), (0, 9));
    assert_eq!(far.s.pgs, 0);
    // REX: back to word 192, which is of ring 3.
    let mut back = mode(case(REX), 1).table(384, 0o162000).table(192, 0o163001);
    assert_eq!((back.step(), back.step()), (0, 2));
    assert_eq!(back.s.pgs, 0o100300);
    back.entry(192, 0o163001);
}

#[test]
fn privileged() {
    let mut words = vec![SEX, REX];
    words.extend((0..7).map(|low| seven(low, 3)));
    for &word in &words {
        for ring in 0..4 {
            for extended in [0, 1] {
                let case = match extended {
                    0 => Case::paged(word, ring),
                    _ => long(word, ring),
                };
                let case = case.with(T, 0).with(X, 0o300).with(A, 5);
                // By EXR SL too.
                let executed = match extended {
                    0 => Case::paged(0o140640, ring),
                    _ => long(0o140640, ring),
                };
                let executed = executed.with(L, word).with(X, 0o300);
                for mut case in [case, executed] {
                    if ring < 2 {
                        only(case, 6, |case| {
                            case.s.set_reg(P, 0o101);
                            case.t[0] |= PGU;
                        });
                    } else {
                        assert_eq!(case.step(), 0, "{word:o} on ring {ring}");
                    }
                }
                // Paging off: on every ring.
                let mut case = mode(Case::of(word), extended).with(X, 0o300);
                case.s.pcr[0] = ring;
                case.ok();
            }
        }
        // Lowered by the fetch: 6.
        let case = long(word, 3).table(0, 0o161000).gives(6);
        assert_eq!(case.s.pcr[0], 1);
    }
    // 1433d7 is illegal on every ring.
    for disp in 0..8 {
        for ring in 0..4 {
            Case::paged(seven(7, disp), ring)
                .gives(4)
                .has(&[(P, 0o101)]);
            long(seven(7, disp), ring).gives(4).has(&[(P, 0o101)]);
        }
    }
}

// R1 to R4.

#[test]
fn what_the_seven_do() {
    for extended in [0, 1] {
        for disp in 0..8 {
            let p = 0o1000 + usize::from(disp);
            let case = |low| {
                mode(Case::of(seven(low, disp)), extended)
                    .with(T, 0)
                    .with(X, 0o1000)
                    .with(A, 0o111)
                    .with(D, 0o222)
                    .with(B, 0o333)
                    .with(STS, 0o377)
                    .mem(p, 0o100005)
                    .mem(p + 1, 0o177777)
            };
            let rest = [(T, 0), (STS, 0o377), (P, 0o101), (L, 0)];
            let same = [(X, 0o1000), (D, 0o222)];
            let done = |low| case(low).ok().has(&rest);
            done(LDATX).has(&[(A, 0o100005), (B, 0o333)]).has(&same);
            done(LDXTX).has(&[(X, 0o100005), (A, 0o111), (D, 0o222), (B, 0o333)]);
            done(LDDTX).has(&[(A, 0o100005), (D, 0o177777), (X, 0o1000), (B, 0o333)]);
            done(LDBTX).has(&[(B, 0o177012), (A, 0o111)]).has(&same);
            let stored = done(STATX).has(&same).has(&[(A, 0o111), (B, 0o333)]);
            stored.holds(p, 0o111).holds(p + 1, 0o177777);
            done(STZTX).has(&same).holds(p, 0).holds(p + 1, 0o177777);
            done(STDTX).has(&same).holds(p, 0o111).holds(p + 1, 0o222);
        }
    }
}

#[test]
fn ldbtx_doubles_the_word() {
    for (word, b) in [
        (0, 0o177000),
        (5, 0o177012),
        (0o100001, 0o177002),
        (0o177777, 0o177776),
        (0o400, 0o177000),
        (0o200, 0o177400),
    ] {
        let case = Case::of(seven(LDBTX, 0)).with(X, 0o1000).mem(0o1000, word);
        case.ok().has(&[(B, b)]);
    }
}

#[test]
fn no_carry_is_dropped() {
    // T 0, X 177777, d 1: 65,536. T 1: 131,072.
    for (t, at) in [(0, 65_536), (1, 131_072)] {
        for extended in [0, 1] {
            let case = mode(Case::of(seven(LDATX, 1)), extended);
            let case = pages(case.with(T, t).with(X, 0o177777), 129);
            case.mem(at, 0o1234).ok().has(&[(A, 0o1234), (X, 0o177777)]);
        }
    }
    // Past the memory: 24, 31 and 32 bits are no end where it goes on from 0.
    for (t, x, disp) in [
        (0, 0o10000, 0),
        (1, 0, 0),
        (0o400, 0o300, 0),
        (0o377, 0o177777, 1),
        (0o100000, 0o300, 0),
        (0o177777, 0o177777, 1),
        (0o177777, 0o177777, 7),
        (0o177777, 0o177400, 0),
        (1, 0o177400, 0),
    ] {
        for extended in [0, 1] {
            for low in 0..7 {
                let case = mode(Case::of(seven(low, disp)), extended);
                only(case.with(T, t).with(X, x), 9, |case| {
                    case.s.set_reg(P, 0o101);
                });
            }
        }
    }
}

#[test]
fn table_words_by_physical_address() {
    // X, and the table word of 19-bit and of extended mode.
    for (x, words) in [
        (0o177400, [Some(0), Some(256)]),
        (0o177777, [Some(255), Some(511)]),
        (0o177377, [None, Some(255)]),
        (0o177000, [None, Some(0)]),
        (0o176777, [None, None]),
    ] {
        for (extended, word) in (0..).zip(words) {
            for (ring, paging) in [(2, 1), (3, 1), (0, 0), (2, 0)] {
                let case = match extended {
                    0 => Case::paged(seven(STATX, 0), ring),
                    _ => long(seven(STATX, 0), ring),
                };
                let mut case = pages(case, 4).with(X, x).with(A, 0o52525);
                case.s.paging_on = paging;
                let fetched = if paging == 1 { PGU } else { 0 };
                case.m.truncate(PAGE); // whatever the size of memory
                match word {
                    Some(word) => {
                        let mut expected = case.clone();
                        expected.t[0] |= fetched;
                        expected.t[word] = 0o52525;
                        expected.s.set_reg(P, 0o101);
                        assert_eq!(case.ok(), expected);
                    }
                    None => only(case, 9, |case| {
                        case.t[0] |= fetched;
                        case.s.set_reg(P, 0o101);
                    }),
                }
            }
        }
    }
    // In 19-bit mode 177000 to 177377 are memory if there is so much.
    for x in [0o176777, 0o177000, 0o177377] {
        let case = pages(Case::of(seven(STATX, 0)), 64).with(X, x).with(A, 9);
        case.ok().holds(x.into(), 9);
        let case = pages(mode(Case::of(seven(STATX, 0)), 1), 64).with(X, x);
        let case = case.with(A, 9).ok();
        let stored = if x < 0o177000 { 9 } else { 0 };
        case.holds(x.into(), stored);
    }
}

#[test]
fn two_words_are_tested_before_either() {
    for extended in [0, 1] {
        let last = [255, 511][extended];
        let case = |low| mode(Case::of(seven(low, 0)), extended as u16);
        let pair = |low| case(low).with(A, 0o111).with(D, 0o222);
        // The last table word, then memory word 65,536.
        let stored = pages(pair(STDTX).with(X, 0o177777), 65).ok();
        stored.entry(last, 0o111).holds(65_536, 0o222);
        let loaded = pages(pair(LDDTX).with(X, 0o177777), 65);
        let loaded = loaded.table(last, 7).mem(65_536, 8).ok();
        loaded.has(&[(A, 7), (D, 8)]);
        // Without that word: 9, the table word and A stay.
        for low in [STDTX, LDDTX] {
            let case = pages(pair(low).with(X, 0o177777), 64).table(last, 7);
            only(case, 9, |case| case.s.set_reg(P, 0o101));
            // The last memory word: 9, it stays.
            let mut case = pair(low).with(X, 0o1777);
            case.m.truncate(PAGE);
            case.m[0o1777] = 0o4321;
            only(case, 9, |case| case.s.set_reg(P, 0o101));
        }
        // Up to the window: memory, then its first word.
        let below = [0o177377, 0o176777][extended];
        let stored = pages(pair(STDTX).with(X, below), 64).ok();
        stored.holds(below.into(), 0o111).entry(0, 0o222);
    }
}

#[test]
fn nine_sets_iid_and_pid() {
    let mut case = long(seven(LDATX, 0), 2).with(T, 1);
    case.s.iie = 0o3776;
    case.s.pgs = 0o100123;
    case.s.pgs_held = 1;
    let case = case.gives(9);
    assert_eq!((case.s.iid, case.s.pid), (1 << 9, 1 << 14));
    assert_eq!((case.s.pgs, case.s.pgs_held), (0o100123, 1));
}

#[test]
fn no_entry_is_looked_up() {
    // Page 1 has no permit: it is read and stored by the physical address, and no
    // mark is set.
    for low in 0..7 {
        let case = long(seven(low, 0), 2).with(X, 0o2000).table(2, 0);
        case.ok().entry(2, 0).entry(3, 1);
    }
}

#[test]
fn a_stored_entry_is_seen_at_once() {
    // STATX over the first word of page 0's entry: the next fetch gives 3.
    let mut case = long(seven(STATX, 0), 2).with(X, 0o177000).with(A, 0);
    assert_eq!((case.step(), case.step()), (0, 3));
    assert_eq!(case.s.pgs, 0o140000);
    // Over the second: it is fetched from page 2, SAA 5.
    let case = long(seven(STATX, 1), 2).with(X, 0o177000).with(A, 2);
    let mut case = case.mem(2 * PAGE + 0o101, 0o170405);
    assert_eq!((case.step(), case.step()), (0, 0));
    case.has(&[(A, 5)]).entry(0, 0o162000 | PGU).entry(1, 2);
}

// R7.

#[test]
fn the_window_of_the_mode() {
    // On ring 3 and with paging off.
    for paging in [0, 1] {
        for (address, word) in [(0o177000, 0), (0o177377, 255), (0o177777, 511)] {
            let mut case = long(STA_B, 3).with(B, address).with(A, 0o1234);
            case.s.paging_on = paging;
            case.ok().entry(word, 0o1234);
            let mut case = long(LDA_B, 3).with(B, address).table(word, 0o163000);
            case.s.paging_on = paging;
            // The fetch's mark is in the word that is read.
            let marked = if paging == 1 && word == 0 { PGU } else { 0 };
            case.ok().has(&[(A, 0o163000 | marked)]);
        }
    }
    // 176777 is below it: page 63, slot 63, words 126 and 127.
    let case = long(LDA_B, 3).with(B, 0o176777);
    let case = case.table(126, 0o163000).table(127, 1).mem(PAGE + 0o777, 5);
    case.ok().has(&[(A, 5)]).entry(126, 0o163000 | PGU);
    let mut case = long(LDA_B, 3).with(B, 0o176777);
    case.s.paging_on = 0;
    case.gives(9);
    // On ring 2 it is page 63.
    let case = long(LDA_B, 2).with(B, 0o177000).gives(3);
    assert_eq!(case.s.pgs, 0o040077);
    // In 19-bit mode 177000 to 177377 are page 63 on ring 3 too, and past the
    // memory with paging off.
    for address in [0o177000, 0o177377] {
        let case = Case::paged(LDA_B, 3).with(B, address).gives(3);
        assert_eq!(case.s.pgs, 0o040077);
        Case::of(LDA_B).with(B, address).gives(9);
        let case = pages(Case::of(LDA_B).with(B, address), 64);
        case.mem(address.into(), 6).ok().has(&[(A, 6)]);
    }
    Case::paged(LDA_B, 3)
        .with(B, 0o177400)
        .ok()
        .has(&[(A, 0o163000 | PGU)]);
}

#[test]
fn fetches_from_the_window() {
    // Words 5 and 6 are executed: SAA 7, SAT 3; no mark, no lowering.
    let case = long(0, 3).with(P, 0o177005).table(126, 0o160000);
    let mut case = case.table(5, 0o170407).table(6, 0o171003);
    assert_eq!((case.step(), case.step()), (0, 0));
    assert_eq!(case.s.pcr[0], 3);
    case.has(&[(A, 7), (T, 3), (P, 0o177007)])
        .entry(5, 0o170407)
        .entry(126, 0o160000);
    // From 176777, in page 63, into the window.
    let case = long(0, 3)
        .with(P, 0o176777)
        .table(126, 0o163000)
        .table(127, 1);
    let mut case = case.mem(PAGE + 0o777, 0o170401).table(0, 0o173405);
    assert_eq!((case.step(), case.step()), (0, 0));
    case.has(&[(A, 1), (X, 5), (P, 0o177001)]);
}

#[test]
fn words_past_256_stay_in_19_bit_mode() {
    let mut case = Case::paged(0, 3).with(B, 0o177400).with(X, 0o177400);
    for (index, word) in (0..).zip(&mut case.t[256..]) {
        *word = 0o70000 + index;
    }
    let kept = case.t[256..].to_vec();
    // STZ ,B 177; SRB 0 at X; STATX.
    for (at, word) in (0o100..).zip([0o000577, 0o152402, 0o143304, 0o143376]) {
        case.m[at] = word;
    }
    for _ in 0..4 {
        case.step();
    }
    assert_eq!(case.t[256..], kept);
    assert_eq!(view(&case.m, &case.t, Target::Tables, 256, 256), kept);
}

// R8.

#[test]
fn entries_of_two_words() {
    // Table 2 page 5: slot 133, words 266 and 267.
    let case = |word: u16, first: u16, second: u16| {
        let mut case = long(word, 2).with(B, 0o12345).with(A, 0o1234);
        case.s.pcr[0] = 2 << 9 | 2;
        case.t[256] = 0o162000;
        case.t[257] = 0;
        case.table(266, first).table(267, second)
    };
    // Bits that mean nothing stay; a mark is in the first word alone.
    case(LDA_B, 0o042777, 0o140003)
        .mem(3 * PAGE + 0o345, 9)
        .ok()
        .has(&[(A, 9)])
        .entry(266, 0o042777 | PGU)
        .entry(267, 0o140003)
        .entry(133, 0);
    case(STA_B, 0o102001, 0o100002)
        .ok()
        .holds(2 * PAGE + 0o345, 0o1234)
        .entry(266, 0o102001 | WIP | PGU)
        .entry(267, 0o100002)
        .entry(133, 0);
    // 3, 2, 2, 9: no mark, PGS with the slot not doubled (205), 9 without it.
    for (word, first, second, number, pgs) in [
        (LDA_B, 0o017777, 3, 3, 0o040205),
        (LDA_B, 0o122000, 3, 2, 0o040205),
        (STA_B, 0o062000, 3, 2, 0o040205),
        (LDA_B, 0o163000, 3, 2, 0o000205),
        (LDA_B, 0o162003, 4, 9, 0),
        (STA_B, 0o162003, 0o37777, 9, 0),
        (LDA_B, 0o162003, 0o1000, 9, 0),
        (LDA_B, 0o163000, 4, 2, 0o000205),
    ] {
        let case = case(word, first, second).gives(number);
        assert_eq!(case.s.pgs, pgs, "{first:o}");
        case.has(&[(A, 0o1234), (P, 0o101)])
            .entry(266, first)
            .entry(267, second);
    }
    // An indirect word by the read or the fetch permit.
    for first in [0o042000, 0o022000] {
        case(0o045400, first, 1)
            .mem(PAGE + 0o345, 0o2000)
            .table(258, 0o162000)
            .table(259, 2)
            .mem(2 * PAGE, 6)
            .ok()
            .has(&[(A, 6)]);
    }
    case(0o045400, 0o102000, 1).gives(2);
}

#[test]
fn fetches_lower_the_ring() {
    for (ring, entry, lowered) in [(3, 0o021000, 1), (2, 0o020777, 0), (2, 0o062000, 2)] {
        let case = long(0o170405, ring).table(0, entry).ok();
        assert_eq!(case.s.pcr[0], lowered);
        case.has(&[(A, 5)]).entry(0, entry | PGU).entry(1, 0);
    }
    let case = long(0o170405, 1).table(0, 0o162000).gives(2);
    assert_eq!((case.s.pcr[0], case.s.pgs), (1, 0o100000));
}

#[test]
fn several_accesses() {
    // STD over the end of page 1 into page 2, which may not be written: the mark
    // on page 1 stays, nothing is stored.
    let case = long(0o020400, 2).with(B, 0o3777).table(4, 0o062000);
    let case = case.with(A, 1).with(D, 2).gives(2);
    assert_eq!(case.s.pgs, 0o040002);
    case.entry(2, 0o162000 | PGU | WIP)
        .entry(4, 0o062000)
        .holds(0o3777, 0);
    // With both permitted.
    let case = long(0o020400, 2).with(B, 0o3777).table(5, 3);
    let case = case.with(A, 1).with(D, 2).ok();
    case.holds(0o3777, 1)
        .holds(3 * PAGE, 2)
        .entry(4, 0o162000 | PGU | WIP);
    // LDD at 176777 on ring 3: page 63, then table word 0 with the fetch's mark.
    let case = long(0o024400, 3)
        .with(B, 0o176777)
        .table(126, 0o163000)
        .table(127, 1);
    let case = case.mem(PAGE + 0o777, 7).ok();
    case.has(&[(A, 7), (D, 0o163000 | PGU)]);
    // MIN of the first word of its own page's entry: the mark is counted in.
    let case = long(0o040400, 3).with(B, 0o177000).ok();
    case.entry(0, (0o163000 | PGU) + 1);
}

// R9.

#[test]
fn exam_and_depo_know_no_window() {
    for extended in [0, 1] {
        let case = pages(mode(Case::of(0o150417), extended), 64);
        let case = case.with(D, 0o177400).with(T, 5).ok();
        assert!(case.t.iter().all(|&word| word == 0));
        case.holds(0o177400, 5);
        mode(Case::of(0o150416), extended)
            .with(D, 0o177000)
            .gives(9);
    }
    // SETPT, CLEPT and the rest of SINTRAN's stay illegal.
    for word in 0o140300..0o140310 {
        long(word, 2).gives(4);
    }
}

// R10.

const MOST: usize = 16_777_216;

#[test]
fn the_largest_memory() {
    let mut case = pages(long(LDA_B, 2), MOST / PAGE).with(B, 0o3777);
    // Page 16,383 by an entry whose unused bits are set.
    case.t[3] = 0o177777;
    case.m[MOST - 1] = 0o1234;
    assert_eq!(case.step(), 0);
    let mut case = case.has(&[(A, 0o1234)]);
    // Pages 512 to 1,535, which 19 bits do not reach.
    for page in [512, 513, 1023, 1024, 1535] {
        case.t[3] = page;
        case.m[usize::from(page) * PAGE + 0o1777] = page ^ 0o7070;
        case.s.set_reg(P, HERE);
        assert_eq!(case.step(), 0);
        case = case.has(&[(A, page ^ 0o7070)]);
    }
    // p at the last word, and one past it: T 255, X 177777 and d 0 and 1.
    for (low, disp, number) in [
        (LDATX, 0, 0),
        (LDATX, 1, 9),
        (STATX, 0, 0),
        (STATX, 1, 9),
        (LDDTX, 0, 9),
        (STDTX, 0, 9),
    ] {
        case.m[MOST - 1] = 0o1234;
        case.m[0o100] = seven(low, disp);
        case = case
            .with(T, 255)
            .with(X, 0o177777)
            .with(A, 0o52525)
            .with(P, HERE);
        assert_eq!(case.step(), number);
        let a = if (low, number) == (LDATX, 0) {
            0o1234
        } else {
            0o52525
        };
        let last = if (low, number) == (STATX, 0) {
            0o52525
        } else {
            0o1234
        };
        case = case.has(&[(A, a)]).holds(MOST - 1, last);
    }
    // In 19-bit mode the memory may be as large, and an entry reaches page 511.
    case.s.extended = 0;
    case.t[0] = 0o162000;
    case.t[1] = 0o162777;
    case.m[0o100] = LDA_B;
    case.m[524_287] = 0o4321;
    case = case.with(P, HERE);
    assert_eq!(case.step(), 0);
    case.has(&[(A, 0o4321)]);
}

#[test]
fn write_and_load_of_the_largest_memory() {
    let mut case = pages(long(0, 2), MOST / PAGE);
    case.t[511] = 7;
    case.m[MOST - 1] = 0o1234;
    case.m[65_536] = 9;
    let mut out = vec![0o55; MOST + 706];
    let short = write(&case.s, &case.m, &case.t, &mut out[1..]);
    assert_eq!(short, Err(Refusal::Short));
    assert_eq!(write(&case.s, &case.m, &case.t, &mut out), Ok(MOST + 706));
    // 16,777,216 is 256 x 65,536.
    assert_eq!(out[..6], [5, 1, 0, 0, 256, 0]);
    let (mut memory, mut tables) = (vec![3; MOST], vec![4; 512]);
    assert_eq!(load(&out, &mut memory, &mut tables), Ok(case.s.clone()));
    assert!(memory == case.m && tables == case.t);
    // The last word by an image of its own; a word more is 6.
    let last = [1, 1, 255, 0o177777, 0, 1, 5];
    assert!(load(&last, &mut memory, &mut tables).is_ok());
    assert_eq!((memory[MOST - 1], memory[65_536], tables[511]), (5, 0, 0));
    let past = [1, 1, 256, 0, 0, 1, 5];
    let answer = load(&past, &mut memory, &mut tables);
    assert_eq!(answer, Err(Refusal::Beyond));
    let last = view(&memory, &tables, Target::Memory, MOST - 1, 1);
    assert_eq!(last, [5]);
    let past = view_number(&memory, &tables, Target::Memory, MOST, 1);
    assert_eq!(past, Some(Refusal::View));
}

#[test]
fn sizes_about_the_largest() {
    for size in [MOST + PAGE, MOST - 1, MOST + 1] {
        let mut case = Case::of(0o170401);
        case.m.resize(size, 0);
        let answer = step(&mut case.s, &mut case.m, &mut case.t);
        assert_eq!(answer, Err(Refusal::Size));
    }
    for tables in [0, 256, 511, 513] {
        let mut case = long(0o170401, 2);
        case.t.resize(tables, 0);
        let answer = step(&mut case.s, &mut case.m, &mut case.t);
        assert_eq!(answer, Err(Refusal::Size));
    }
    // 513 pages in both modes.
    for extended in [0, 1] {
        pages(mode(Case::of(0o170401), extended), 513).ok();
    }
}

#[test]
fn sizes() {
    assert_eq!((STATE_WORDS, CONTROL_WORDS, TABLE_WORDS), (168, 28, 512));
    assert_eq!((MAX_MEMORY, IMAGE_EXTRA), (MOST, 706));
    let mut state = State::new();
    state.extended = 1;
    assert_eq!(state.to_words()[128 + 27], 1);
    assert_eq!(control::name(27), "EXTENDED");
    // Older images, and what they leave: not extended, words past 256 are 0.
    let mut image = vec![2, 3, 0, 0, 0, 26, 4, 0, 0, 0, 256];
    image.resize(11 + 26 + 256, 0);
    image[11 + 26 + 255] = 6;
    let (mut memory, mut tables) = (vec![1; PAGE], vec![1; 512]);
    assert_eq!(load(&image, &mut memory, &mut tables), Ok(State::new()));
    assert_eq!((tables[255], tables[256], tables[511]), (6, 0, 0));
}
