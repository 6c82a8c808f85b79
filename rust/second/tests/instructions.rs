//! Every instruction, with its flags at the ends of its ranges. Paging is off.

mod common;
use common::*;

const TOP: u16 = 0o077777;
const LOW: u16 = 0o100000;
const MINUS: u16 = 0o177777;

#[test]
fn stores() {
    let case = |word| {
        Case::of(word)
            .with(A, 1)
            .with(T, 2)
            .with(X, 3)
            .with(D, 4)
            .mem(0o102, 9)
    };
    case(0o000002).ok().holds(0o102, 0); // STZ
    case(0o004002).ok().holds(0o102, 1); // STA
    case(0o010002).ok().holds(0o102, 2); // STT
    case(0o014002).ok().holds(0o102, 3); // STX
    case(0o020002)
        .ok()
        .holds(0o102, 1)
        .holds(0o103, 4)
        .holds(0o104, 0); // STD
    case(0o030002)
        .ok()
        .holds(0o102, 2)
        .holds(0o103, 1)
        .holds(0o104, 4)
        .holds(0o105, 0); // STF
    for word in [0o000002, 0o004002, 0o010002, 0o014002, 0o020002, 0o030002] {
        case(word).with(STS, 0o376).ok().has(&[
            (STS, 0o376),
            (P, 0o101),
            (A, 1),
            (T, 2),
            (X, 3),
            (D, 4),
        ]);
    }
}

#[test]
fn loads() {
    let case = |word| {
        Case::of(word)
            .with(STS, 0o376)
            .mem(0o102, 0o11)
            .mem(0o103, 0o12)
            .mem(0o104, 0o13)
    };
    case(0o044002)
        .ok()
        .has(&[(A, 0o11), (D, 0), (P, 0o101), (STS, 0o376)]); // LDA
    case(0o050002).ok().has(&[(T, 0o11), (A, 0)]); // LDT
    case(0o054002).ok().has(&[(X, 0o11), (A, 0)]); // LDX
    case(0o024002).ok().has(&[(A, 0o11), (D, 0o12), (T, 0)]); // LDD
    case(0o034002)
        .ok()
        .has(&[(T, 0o11), (A, 0o12), (D, 0o13), (STS, 0o376)]); // LDF
}

#[test]
fn double_words_wrap() {
    // LDD at 177777: the window's last word, then memory's first (paging off).
    let mut case = Case::of(0o024400).with(B, 0o177777).mem(0, 7);
    case.t[255] = 6;
    case.ok().has(&[(A, 6), (D, 7)]);
    // STF at 177776.
    let case = Case::of(0o030400)
        .with(B, 0o177776)
        .with(T, 1)
        .with(A, 2)
        .with(D, 3)
        .ok();
    case.holds(0, 3).entry(254, 1).entry(255, 2);
}

#[test]
fn min() {
    for (value, after, p) in [(5, 6, 0o101), (MINUS, 0, 0o102), (TOP, LOW, 0o101)] {
        Case::of(0o040002)
            .mem(0o102, value)
            .with(STS, 0o376)
            .ok()
            .holds(0o102, after)
            .has(&[(P, p), (STS, 0o376)]);
    }
}

/// Runs `word` with A and the operand at 000102; expects A and flags.
fn arithmetic(word: u16, a: u16, operand: u16, before: u16, result: u16, after: u16) {
    Case::of(word)
        .with(A, a)
        .mem(0o102, operand)
        .with(STS, before)
        .ok()
        .has(&[(A, result), (STS, after), (P, 0o101)]);
}

#[test]
fn add() {
    let add = |a, b, before, result, after| {
        arithmetic(0o060002, a, b, flags(before), result, flags(after));
    };
    add(1, 2, "", 3, "");
    add(1, 2, "OC", 3, ""); // O and C are cleared
    add(1, 2, "OQC", 3, "Q"); // Q stays
    add(TOP, 1, "", LOW, "OQ");
    add(TOP, TOP, "C", 0o177776, "OQ");
    add(LOW, LOW, "", 0, "COQ");
    add(LOW, MINUS, "", TOP, "COQ");
    add(MINUS, MINUS, "O", 0o177776, "C");
    add(MINUS, 1, "Q", 0, "CQ");
    add(LOW, TOP, "", MINUS, "");
    add(0, 0, "PGKZM", 0, "PGKZM"); // the other flags stay
}

#[test]
fn sub() {
    let sub = |a, b, before, result, after| {
        arithmetic(0o064002, a, b, flags(before), result, flags(after));
    };
    sub(3, 2, "", 1, "C");
    sub(2, 3, "C", MINUS, "");
    sub(0, 0, "", 0, "C");
    sub(LOW, 1, "", TOP, "COQ");
    sub(TOP, MINUS, "", LOW, "OQ");
    sub(0, LOW, "", LOW, "OQ");
    sub(MINUS, LOW, "O", TOP, "C");
    sub(LOW, LOW, "Q", 0, "CQ");
}

#[test]
fn and_ora() {
    arithmetic(0o070002, 0b1100, 0b1010, 0o376, 0b1000, 0o376);
    arithmetic(0o074002, 0b1100, 0b1010, 0o376, 0b1110, 0o376);
}

#[test]
fn mpy() {
    let mpy = |a, b, before, result, after| {
        arithmetic(0o120002, a, b, flags(before), result, flags(after));
    };
    mpy(3, 5, "OC", 15, "C"); // C stays
    mpy(3, 5, "Q", 15, "Q");
    mpy(MINUS, 5, "", 0o177773, "");
    mpy(MINUS, MINUS, "O", 1, "");
    mpy(TOP, 1, "", TOP, "");
    mpy(TOP, MINUS, "", 0o100001, "");
    mpy(LOW, 1, "", LOW, "OQ");
    mpy(LOW, MINUS, "C", LOW, "COQ");
    mpy(LOW, LOW, "", 0, "OQ");
    mpy(TOP, TOP, "", 1, "OQ");
    mpy(TOP, 2, "", 0o177776, "OQ");
    mpy(0, LOW, "", 0, "");
}

#[test]
fn jumps() {
    Case::of(0o124010).ok().has(&[(P, 0o110), (L, 0)]); // JMP *10
    Case::of(0o124000).ok().has(&[(P, 0o100)]); // JMP *0
    Case::of(0o134370).ok().has(&[(P, 0o070), (L, 0o101)]); // JPL *-10
    // JPL ,B with B beyond the memory: no access at the target.
    Case::of(0o134400)
        .with(B, 0o177000)
        .ok()
        .has(&[(P, 0o177000), (L, 0o101)]);
    // JMP I *1.
    Case::of(0o125001)
        .mem(0o101, 0o4444)
        .ok()
        .has(&[(P, 0o4444)]);
}

#[test]
fn conditional_jumps() {
    // word, A, jumps?
    for (word, a, jumps) in [
        (0o130010, 0, true), // JAP
        (0o130010, TOP, true),
        (0o130010, LOW, false),
        (0o130410, MINUS, true), // JAN
        (0o130410, LOW, true),
        (0o130410, 0, false),
        (0o131010, 0, true), // JAZ
        (0o131010, 1, false),
        (0o131410, 1, true), // JAF
        (0o131410, 0, false),
    ] {
        let p = if jumps { 0o110 } else { 0o101 };
        Case::of(word).with(A, a).ok().has(&[(P, p), (A, a)]);
    }
    // word, X before and after, jumps?
    for (word, x, after, jumps) in [
        (0o132010, MINUS, 0, true), // JPC
        (0o132010, TOP, LOW, false),
        (0o132010, 0o177776, MINUS, false),
        (0o132410, 0o177776, MINUS, true), // JNC
        (0o132410, MINUS, 0, false),
        (0o132410, TOP, LOW, true),
        (0o133010, 0, 0, true), // JXZ
        (0o133010, 1, 1, false),
        (0o133410, LOW, LOW, true), // JXN
        (0o133410, 0, 0, false),
    ] {
        let p = if jumps { 0o110 } else { 0o101 };
        let case = Case::of(word).with(X, x).with(STS, 0o376).ok();
        case.has(&[(P, p), (X, after), (STS, 0o376)]);
    }
    // Backwards, and round the end of the addresses.
    Case::of(0o131200).ok().has(&[(P, 0o177700)]);
}

#[test]
fn skips() {
    // Condition, then for (dr, sr) whether it skips. SKP DA cond SB.
    let rows: [(u16, [bool; 6]); 8] = [
        // (5,5)  (6,5)  (5,6)  (TOP,-1) (LOW,1) (1,-1)
        (0, [true, false, false, false, false, false]), // EQL
        (1, [true, true, false, false, true, true]),    // GEQ, wraps
        (2, [true, true, false, true, false, true]),    // GRE
        (3, [true, true, false, false, true, false]),   // MGRE
        (4, [false, true, true, true, true, true]),     // UEQ
        (5, [false, false, true, true, false, false]),  // LSS, wraps
        (6, [false, false, true, false, true, false]),  // LST
        (7, [false, false, true, true, false, true]),   // MLST
    ];
    let pairs = [(5, 5), (6, 5), (5, 6), (TOP, MINUS), (LOW, 1), (1, MINUS)];
    for (cond, skips) in rows {
        for ((dr, sr), skip) in pairs.into_iter().zip(skips) {
            let p = if skip { 0o102 } else { 0o101 };
            Case::of(0o140035 | cond << 8)
                .with(A, dr)
                .with(B, sr)
                .with(STS, 0o376)
                .ok()
                .has(&[(P, p), (STS, 0o376), (A, dr), (B, sr)]);
        }
    }
}

#[test]
fn skips_with_p_and_zero() {
    // P reads one further: SKP DP EQL SA.
    Case::of(0o140052).with(A, 0o101).ok().has(&[(P, 0o102)]);
    Case::of(0o140052).with(A, 0o100).ok().has(&[(P, 0o101)]);
    Case::of(0o140025).with(A, 0o101).ok().has(&[(P, 0o102)]);
    // Source 0 is the value 0, not STS.
    Case::of(0o140005).with(STS, 0o376).ok().has(&[(P, 0o102)]);
    // Destination 0 never skips, also not SKP EQL.
    for cond in 0..8 {
        Case::of(0o140000 | cond << 8).ok().has(&[(P, 0o101)]);
    }
}

#[test]
fn exr() {
    // A skip under EXR counts from the EXR: SKP DB EQL.
    Case::of(0o140650).with(A, 0o140003).ok().has(&[(P, 0o102)]);
    // Conditional jump under EXR.
    Case::of(0o140610).with(D, 0o131010).ok().has(&[(P, 0o110)]);
    // Source 0 executes 000000: STZ *0.
    Case::of(0o140600).ok().holds(0o100, 0).has(&[(P, 0o101)]);
    // Source P is one further: at 177776 that is 177777, BORA of bit 15 of X.
    let mut case = Case::of(0).with(P, 0o177776).with(X, LOW);
    case.t[254] = 0o140620;
    case.ok().has(&[(P, 0o177777), (STS, flags("K"))]);
    // Bits 2-0 do not matter.
    Case::of(0o140657).with(A, 0o170401).ok().has(&[(A, 1)]);
    // EXR of any EXR, or of an illegal code, is illegal.
    for inner in [0o140600, 0o140650, 0o140677, 0o100000, 0o140100, 0o150000] {
        let before = Case::of(0o140650).with(A, inner);
        let after = before.clone().gives(4);
        let mut expected = before;
        expected.s.set_reg(P, 0o101);
        expected.s.iid = 1 << 4;
        assert_eq!(after, expected);
    }
    // EXR of MON, of a shift by A itself.
    let case = Case::of(0o140650).with(A, 0o153377).gives(1);
    assert_eq!(case.s.files[14][6], MINUS);
    Case::of(0o140650)
        .with(A, 0o154401)
        .ok()
        .has(&[(A, 0o131002), (STS, flags("M"))]);
}

#[test]
fn rmpy() {
    let rmpy = |a: u16, x: u16, high, low| {
        Case::of(0o141257)
            .with(A, a)
            .with(X, x)
            .with(STS, 0o376)
            .ok()
            .has(&[(A, high), (D, low), (X, x), (STS, 0o376)]);
    };
    rmpy(3, 5, 0, 15);
    rmpy(MINUS, 1, MINUS, MINUS);
    rmpy(LOW, LOW, 0o040000, 0);
    rmpy(LOW, TOP, 0o140000, 0o100000);
    rmpy(TOP, TOP, 0o037777, 1);
    // Source 0 gives 0; destination 0 does nothing.
    Case::of(0o141205)
        .with(A, 5)
        .with(D, 6)
        .ok()
        .has(&[(A, 0), (D, 0)]);
    Case::of(0o141250)
        .with(A, 5)
        .with(D, 6)
        .ok()
        .has(&[(A, 5), (D, 6)]);
    // P one further: RMPY SP DP with P 000101 is 010201.
    Case::of(0o141222)
        .ok()
        .has(&[(A, 0), (D, 0o10201), (P, 0o101)]);
}

#[test]
fn rdiv() {
    let divides = |ad: i32, divisor: u16, quotient: u16, remainder: u16| {
        Case::of(0o141670)
            .with(A, (ad >> 16) as u16)
            .with(D, ad as u16)
            .with(X, divisor)
            .with(STS, flags("ZOC"))
            .ok()
            .has(&[(A, quotient), (D, remainder), (STS, flags("ZOC"))]);
    };
    let fails = |ad: i32, divisor: u16| {
        let case = Case::of(0o141670)
            .with(A, (ad >> 16) as u16)
            .with(D, ad as u16)
            .with(X, divisor)
            .with(STS, flags("OC"))
            .gives(5);
        assert_eq!(case.s.iid, 1 << 5);
        case.has(&[
            (A, (ad >> 16) as u16),
            (D, ad as u16),
            (STS, flags("ZOC")),
            (P, 0o101),
        ]);
    };
    divides(7, 2, 3, 1);
    divides(-7, 2, 0o177775, MINUS);
    divides(7, 0o177776, 0o177775, 1);
    divides(-7, 0o177776, 3, MINUS);
    divides(-32_768, 1, LOW, 0);
    divides(32_768, MINUS, LOW, 0);
    divides(-32_767, MINUS, TOP, 0);
    divides(-65_537, 2, LOW, MINUS); // quotient -32,768, remainder -1
    divides(65_535, 2, TOP, 1);
    divides(0, MINUS, 0, 0);
    fails(i32::MIN, LOW); // 65,536
    fails(32_768, 1);
    fails(-32_769, 1);
    fails(-32_768, MINUS);
    fails(65_536, 2);
    fails(i32::MIN, MINUS);
    fails(i32::MIN, 1);
    fails(i32::MAX, 1);
    fails(5, 0);
    fails(0, 0);
    // Source 0 is the divisor 0; source D divides by D; P is one further.
    Case::of(0o141600).with(D, 5).gives(5);
    Case::of(0o141610).with(D, 5).ok().has(&[(A, 1), (D, 0)]);
    Case::of(0o141620)
        .with(D, 0o102)
        .ok()
        .has(&[(A, 1), (D, 1)]);
    // Bits 2-0 do not matter.
    Case::of(0o141617).with(D, 5).ok().has(&[(A, 1)]);
}

#[test]
fn lbyt_sbyt() {
    // X unsigned: 177777 names the lower byte of word T + 77777.
    Case::of(0o142200)
        .with(T, 0o100300)
        .with(X, MINUS)
        .mem(0o277, 0x1234)
        .with(STS, 0o376)
        .ok()
        .has(&[(A, 0x34), (STS, 0o376)]);
    // T + X/2 drops the carry.
    Case::of(0o142200)
        .with(T, MINUS)
        .with(X, 2)
        .mem(0, 0xfe01)
        .ok()
        .has(&[(A, 0xfe)]);
    let sbyt = |x, after| {
        Case::of(0o142600)
            .with(T, 0o300)
            .with(X, x)
            .with(A, 0xabcd)
            .mem(0o301, 0x1234)
            .ok()
            .holds(0o301, after)
            .has(&[(A, 0xabcd), (P, 0o101)]);
    };
    sbyt(2, 0xcd34);
    sbyt(3, 0x12cd);
    // The low six bits do not matter.
    Case::of(0o142277)
        .with(T, 0o300)
        .mem(0o300, 0x0500)
        .ok()
        .has(&[(A, 5)]);
    Case::of(0o142677)
        .with(T, 0o300)
        .with(A, 7)
        .ok()
        .holds(0o300, 0x0700);
}

#[test]
fn mix3() {
    for (a, x) in [(1, 0), (0, 0o177775), (LOW, 0o077775), (MINUS, 0o177772)] {
        Case::of(0o143200)
            .with(A, a)
            .with(STS, 0o376)
            .ok()
            .has(&[(X, x), (A, a), (STS, 0o376)]);
    }
    Case::of(0o143277).with(A, 2).ok().has(&[(X, 3)]);
}

#[test]
fn logic_operations() {
    // op (bits 9-8), CM1 and CLD (bits 7-6), D after with T 0b1100, D 0b1010.
    let rows: [(u16, u16, u16); 12] = [
        (0o0400, 0o000, 0b1000), // RAND
        (0o0400, 0o100, 0),
        (0o0400, 0o200, 0b0010),
        (0o0400, 0o300, 0),
        (0o1000, 0o000, 0b0110), // REXO
        (0o1000, 0o100, 0b1100),
        (0o1000, 0o200, 0o177771), // 1010 xor ..0011 = ..1001
        (0o1000, 0o300, 0o177763),
        (0o1400, 0o000, 0b1110), // RORA
        (0o1400, 0o100, 0b1100),
        (0o1400, 0o200, 0o177773), // 1010 or ..0011 = ..1011
        (0o1400, 0o300, 0o177763),
    ];
    for (op, sub, after) in rows {
        Case::of(0o144061 | op | sub)
            .with(T, 0b1100)
            .with(D, 0b1010)
            .with(STS, 0o376)
            .ok()
            .has(&[(D, after), (T, 0b1100), (STS, 0o376), (P, 0o101)]);
        // Destination 0 does nothing.
        Case::of(0o144060 | op | sub)
            .with(T, 0b1100)
            .with(STS, 0o376)
            .ok()
            .has(&[(STS, 0o376), (T, 0b1100)]);
        // Source 0 is the value 0.
        let zero = match (op, sub) {
            (0o0400, 0o200) => 0b1010,
            (0o0400, _) => 0,
            (_, 0o000) => 0b1010,
            (_, 0o100) => 0,
            (0o1000, 0o200) => 0o177765,
            (_, _) => MINUS,
        };
        Case::of(0o144001 | op | sub)
            .with(D, 0b1010)
            .with(STS, 0o376)
            .ok()
            .has(&[(D, zero), (STS, 0o376)]);
    }
    // Source and destination P.
    Case::of(0o145422).with(P, HERE).ok().has(&[(P, 0o101)]); // RORA SP DP
    Case::of(0o145425)
        .with(A, 0o4000)
        .ok()
        .has(&[(A, 0o4101), (P, 0o101)]); // RORA SP DA
    Case::of(0o145452).with(A, 0o4000).ok().has(&[(P, 0o4101)]); // RORA SA DP
}

#[test]
fn swap() {
    // CM1, CLD: dr, sr after, with sr (A) 3, dr (X) 5.
    for (sub, dr, sr) in [
        (0o000, 3, 5),
        (0o100, 3, 0),
        (0o200, 0o177774, 5),
        (0o300, 0o177774, 0),
    ] {
        Case::of(0o144057 | sub)
            .with(A, 3)
            .with(X, 5)
            .with(STS, 0o376)
            .ok()
            .has(&[(X, dr), (A, sr), (STS, 0o376)]);
        // Source 0: the second write is dropped.
        let from_zero = if sub & 0o200 == 0 { 0 } else { MINUS };
        Case::of(0o144007 | sub)
            .with(X, 5)
            .with(STS, 0o376)
            .ok()
            .has(&[(X, from_zero), (STS, 0o376)]);
        // Destination 0: nothing.
        Case::of(0o144050 | sub)
            .with(A, 3)
            .with(STS, 0o376)
            .ok()
            .has(&[(A, 3), (STS, 0o376)]);
    }
    // One register for both: the source's value stands.
    for (sub, after) in [(0o000, 3), (0o100, 0), (0o200, 3), (0o300, 0)] {
        Case::of(0o144055 | sub).with(A, 3).ok().has(&[(A, after)]);
    }
    // SWAP SA DP: a jump, and A takes P one further.
    Case::of(0o144052)
        .with(A, 0o3000)
        .ok()
        .has(&[(P, 0o3000), (A, 0o101)]);
    Case::of(0o144025)
        .with(A, 0o3000)
        .ok()
        .has(&[(P, 0o3000), (A, 0o101)]);
}

/// RADD with bits 9-6 `sub`, source T, destination D.
fn radd(sub: u16, t: u16, d: u16, before: &str, result: u16, after: &str) {
    Case::of(0o146061 | sub)
        .with(T, t)
        .with(D, d)
        .with(STS, flags(before))
        .ok()
        .has(&[(D, result), (T, t), (STS, flags(after)), (P, 0o101)]);
}

#[test]
fn radd_forms() {
    radd(0o0000, 3, 5, "", 8, "");
    radd(0o0100, 3, 5, "OC", 3, ""); // CLD: COPY
    radd(0o0200, 3, 5, "", 1, "C"); // CM1: 5 + 177774
    radd(0o0300, 3, 5, "C", 0o177774, ""); // CM1 CLD
    radd(0o0400, 3, 5, "", 9, ""); // AD1
    radd(0o0500, 3, 5, "", 4, ""); // CLD AD1
    radd(0o0600, 3, 5, "", 2, "C"); // CM1 AD1: RSUB
    radd(0o0700, 3, 5, "", 0o177775, ""); // CM1 CLD AD1: -3
    radd(0o1000, 3, 5, "", 8, ""); // ADC without carry
    radd(0o1000, 3, 5, "C", 9, ""); // ADC with carry
    radd(0o1100, 3, 5, "C", 4, "");
    radd(0o1200, 3, 5, "C", 2, "C");
    radd(0o1200, 3, 5, "", 1, "C");
    radd(0o1300, 3, 5, "C", 0o177775, "");
}

#[test]
fn radd_ends() {
    radd(0, TOP, 1, "", LOW, "OQ");
    radd(0, LOW, LOW, "", 0, "COQ");
    radd(0, MINUS, 1, "OQ", 0, "CQ");
    radd(0o0400, TOP, 0, "C", LOW, "OQ"); // the one counts too
    radd(0o0400, MINUS, 0, "", 0, "C");
    radd(0o1000, TOP, 0, "C", LOW, "OQ");
    radd(0o0600, LOW, 0, "", LOW, "OQ"); // 0 - LOW
    radd(0o0600, LOW, LOW, "", 0, "C");
    radd(0o0600, 1, LOW, "", TOP, "COQ");
    radd(0o0700, 0, 9, "", 0, "C"); // -0 carries
    radd(0o0700, LOW, 9, "", LOW, "OQ"); // -LOW overflows
    radd(0o0400, LOW, MINUS, "", LOW, "C"); // LOW - 1 + 1
    radd(0, 0, 0, "PGKZMOC", 0, "PGKZM");
}

#[test]
fn radd_without_destination() {
    // Clears C, changes nothing else; not even O.
    for sub in [0o0000, 0o0100, 0o0300, 0o0400, 0o0700, 0o1000, 0o1300] {
        Case::of(0o146060 | sub)
            .with(T, MINUS)
            .with(STS, 0o376)
            .ok()
            .has(&[(STS, 0o276), (T, MINUS), (P, 0o101)]);
    }
    // ADC and AD1 together: nothing, for any destination.
    for sub in [0o1400, 0o1500, 0o1600, 0o1700] {
        radd(sub, 3, 5, "OQC", 5, "OQC");
        Case::of(0o146060 | sub)
            .with(STS, 0o376)
            .ok()
            .has(&[(STS, 0o376), (P, 0o101)]);
        Case::of(0o146062 | sub).with(T, 9).ok().has(&[(P, 0o101)]);
    }
}

#[test]
fn radd_with_p() {
    Case::of(0o146062).with(T, 0o10).ok().has(&[(P, 0o111)]); // RADD ST DP
    Case::of(0o146025).with(A, 0o10).ok().has(&[(A, 0o111)]); // RADD SP DA
    Case::of(0o146124).ok().has(&[(L, 0o101), (P, 0o101)]); // COPY SP DL
    Case::of(0o146402).ok().has(&[(P, 0o102)]); // RINC DP
    // Source 0 is the value 0.
    Case::of(0o146001)
        .with(D, 5)
        .with(STS, 0o376)
        .ok()
        .has(&[(D, 5), (STS, 0o236)]);
}

/// Shift of A: kind in bits 10-9, count.
fn sha(kind: u16, count: i16, a: u16, m: bool, result: u16, m_after: bool) {
    let word = 0o154400 | kind << 9 | count as u16 & 0o77;
    Case::of(word)
        .with(A, a)
        .with(STS, 0o176 | if m { 0o200 } else { 0 })
        .ok()
        .has(&[
            (A, result),
            (STS, 0o176 | if m_after { 0o200 } else { 0 }),
            (P, 0o101),
        ]);
}

#[test]
fn shifts_arithmetic() {
    sha(0, 0, 0o123456, true, 0o123456, true);
    sha(0, 0, 0o123456, false, 0o123456, false);
    sha(0, 1, 0o100001, false, 2, true);
    sha(0, 1, 0o040001, true, 0o100002, false);
    sha(0, 15, 3, false, LOW, true);
    sha(0, 16, 1, false, 0, true);
    sha(0, 16, 2, true, 0, false);
    sha(0, 17, MINUS, true, 0, false);
    sha(0, 31, MINUS, true, 0, false);
    sha(0, -1, LOW, true, 0o140000, false);
    sha(0, -1, 1, false, 0, true);
    sha(0, -15, LOW, true, MINUS, false);
    sha(0, -16, LOW, false, MINUS, true);
    sha(0, -16, TOP, true, 0, false);
    sha(0, -17, LOW, false, MINUS, true);
    sha(0, -32, LOW, false, MINUS, true);
    sha(0, -32, TOP, true, 0, false);
}

#[test]
fn shifts_rotate() {
    sha(1, 0, 1, true, 1, true);
    sha(1, 1, LOW, false, 1, true);
    sha(1, 1, 1, true, 2, false); // M does not come in
    sha(1, 16, 0o100001, false, 0o100001, true);
    sha(1, 16, 0o100000, true, 0o100000, false);
    sha(1, 17, LOW, false, 1, true);
    sha(1, 31, 1, true, LOW, false);
    sha(1, -1, 1, false, LOW, true);
    sha(1, -1, 2, true, 1, false);
    sha(1, -16, LOW, false, LOW, true);
    sha(1, -32, 1, true, 1, false);
    sha(1, -31, 1, false, 2, false);
}

#[test]
fn shifts_zero_in() {
    sha(2, 1, 0o100001, false, 2, true);
    sha(2, 16, 1, false, 0, true);
    sha(2, 17, MINUS, true, 0, false);
    sha(2, -1, LOW, true, 0o040000, false);
    sha(2, -1, 1, false, 0, true);
    sha(2, -16, LOW, false, 0, true);
    sha(2, -17, MINUS, true, 0, false);
    sha(2, -32, MINUS, true, 0, false);
}

#[test]
fn shifts_link() {
    sha(3, 0, 1, true, 1, true);
    sha(3, 1, 0, true, 1, false);
    sha(3, 1, LOW, false, 0, true);
    sha(3, 2, LOW, false, 1, false);
    sha(3, 16, 0, true, LOW, false);
    sha(3, 17, 0o123456, true, 0o123456, true);
    sha(3, 18, LOW, false, 0, true);
    sha(3, -1, 0, true, LOW, false);
    sha(3, -1, 1, false, 0, true);
    sha(3, -17, 0o123456, false, 0o123456, false);
    sha(3, -18, 0, true, LOW, false);
    // 32 right of 17 places is 15 right, which is 2 left.
    sha(3, -32, LOW, false, 1, false);
}

#[test]
fn shifts_of_the_other_registers() {
    // SHT 1, SHD 1.
    Case::of(0o154001)
        .with(T, 0o100001)
        .ok()
        .has(&[(T, 2), (STS, flags("M"))]);
    Case::of(0o154201)
        .with(D, 0o100001)
        .ok()
        .has(&[(D, 2), (STS, flags("M"))]);
    let sad = |word: u16, a, d, m, a_after, d_after, m_after| {
        Case::of(word)
            .with(A, a)
            .with(D, d)
            .with(STS, flags(m))
            .ok()
            .has(&[(A, a_after), (D, d_after), (STS, flags(m_after))]);
    };
    sad(0o154601, 0, LOW, "", 1, 0, ""); // SAD 1
    sad(0o154601, LOW, 0, "", 0, 0, "M");
    sad(0o154637, 0, 3, "", LOW, 0, "M"); // SAD 37: 31 left, bit 1 leaves last
    sad(0o154677, 1, 0, "", 0, LOW, ""); // SAD SHR 1
    sad(0o154677, LOW, 1, "", 0o140000, 0, "M");
    sad(0o154640, LOW, 0, "", MINUS, MINUS, "M"); // SAD SHR 40
    sad(0o154640, TOP, MINUS, "M", 0, 0, "");
    sad(0o155601, LOW, 0, "", 0, 1, "M"); // ROT 1
    sad(0o155640, 0o123456, 0o100001, "", 0o123456, 0o100001, "M"); // ROT SHR 40
    sad(0o156640, LOW, 0, "", 0, 0, "M"); // ZIN SHR 40
    sad(0o156640, TOP, MINUS, "M", 0, 0, "");
    sad(0o157601, 0, 0, "M", 0, 1, ""); // LIN 1
    sad(0o157601, LOW, 0, "", 0, 0, "M");
    sad(0o157677, 0, 0, "M", LOW, 0, ""); // LIN SHR 1
    // LIN SHR 40: 32 right of 33 places is 1 left.
    sad(0o157640, LOW, 1, "", 0, 2, "M");
}

#[test]
fn arguments() {
    // Set: word, register, value. No flag changes.
    for (word, reg, value) in [
        (0o170177, B, 0o177),
        (0o170200, B, 0o177600),
        (0o170777, A, MINUS),
        (0o171000, T, 0),
        (0o171401, X, 1),
    ] {
        Case::of(word)
            .with(reg, 0o55)
            .with(STS, 0o376)
            .ok()
            .has(&[(reg, value), (STS, 0o376)]);
    }
    // Add: word, register, before, after, flags.
    for (word, reg, before, after, names) in [
        (0o172001, B, TOP, LOW, "OQ"),
        (0o172777, A, 0, MINUS, ""),
        (0o172777, A, 1, 0, "C"),
        (0o172600, A, LOW, 0o077600, "COQ"),
        (0o173177, T, MINUS, 0o176, "C"),
        (0o173777, X, LOW, TOP, "COQ"),
        (0o173400, X, 5, 5, ""),
    ] {
        let case = Case::of(word).with(reg, before).with(STS, flags("OCM"));
        case.ok()
            .has(&[(reg, after), (STS, flags(names) | flags("M"))]);
    }
}

#[test]
fn bit_set() {
    // BSET ZRO, ONE, BCM, BAC of bit 17 of A, K as given.
    for (word, a, k, after) in [
        (0o174175, MINUS, 0, TOP),
        (0o174375, 0, 0, LOW),
        (0o174575, 0, 0, LOW),
        (0o174575, MINUS, 0, TOP),
        (0o174775, MINUS, 0, TOP),
        (0o174775, 0, 4, LOW),
    ] {
        Case::of(word)
            .with(A, a)
            .with(STS, k)
            .ok()
            .has(&[(A, after), (STS, k)]);
    }
}

#[test]
fn bit_skip() {
    // BSKP ZRO, ONE, BCM, BAC of bit 0 of T.
    for (word, t, k, skips) in [
        (0o175006, 0, 0, true),
        (0o175006, 1, 0, false),
        (0o175206, 1, 0, true),
        (0o175206, 0, 0, false),
        (0o175406, 0, 0, false),
        (0o175406, 1, 4, false),
        (0o175606, 0, 0, true),
        (0o175606, 1, 0, false),
        (0o175606, 1, 4, true),
        (0o175606, 0, 4, false),
    ] {
        let p = if skips { 0o102 } else { 0o101 };
        Case::of(word)
            .with(T, t)
            .with(STS, k)
            .ok()
            .has(&[(P, p), (T, t), (STS, k)]);
    }
}

#[test]
fn bit_accumulator() {
    // Bit 6 (060) of L: word, bit, K, bit after, K after.
    let rows = [
        (
            0o176064,
            [(0, 0, 1, 1), (0, 1, 0, 1), (1, 0, 1, 1), (1, 1, 0, 1)],
        ), // BSTC
        (
            0o176264,
            [(0, 0, 0, 0), (0, 1, 1, 0), (1, 0, 0, 0), (1, 1, 1, 0)],
        ), // BSTA
        (
            0o176464,
            [(0, 0, 0, 1), (0, 1, 0, 1), (1, 0, 1, 0), (1, 1, 1, 0)],
        ), // BLDC
        (
            0o176664,
            [(0, 0, 0, 0), (0, 1, 0, 0), (1, 0, 1, 1), (1, 1, 1, 1)],
        ), // BLDA
        (
            0o177064,
            [(0, 0, 0, 0), (0, 1, 0, 1), (1, 0, 1, 0), (1, 1, 1, 0)],
        ), // BANC
        (
            0o177264,
            [(0, 0, 0, 0), (0, 1, 0, 0), (1, 0, 1, 0), (1, 1, 1, 1)],
        ), // BAND
        (
            0o177464,
            [(0, 0, 0, 1), (0, 1, 0, 1), (1, 0, 1, 0), (1, 1, 1, 1)],
        ), // BORC
        (
            0o177664,
            [(0, 0, 0, 0), (0, 1, 0, 1), (1, 0, 1, 1), (1, 1, 1, 1)],
        ), // BORA
    ];
    for (word, cases) in rows {
        for (bit, k, bit_after, k_after) in cases {
            Case::of(word)
                .with(L, 0o100 * bit)
                .with(STS, 0o10 + 4 * k)
                .ok()
                .has(&[(L, 0o100 * bit_after), (STS, 0o10 + 4 * k_after)]);
        }
    }
}

#[test]
fn bit_of_sts() {
    // BSTC and BSTA of K itself: the second write stands.
    for k in [0, 4] {
        Case::of(0o176020).with(STS, k).ok().has(&[(STS, 4)]);
        Case::of(0o176220).with(STS, k).ok().has(&[(STS, 0)]);
    }
    // BSET BCM SSK, BLDA SSM.
    Case::of(0o174420).with(STS, 0).ok().has(&[(STS, 4)]);
    Case::of(0o176670)
        .with(STS, 0o200)
        .ok()
        .has(&[(STS, 0o204)]);
    // BSET ONE SSPTM: a program sets PTM itself. SSZ gives no interrupt.
    Case::of(0o174200).ok().has(&[(STS, 1)]);
    let case = Case::of(0o174230).ok().has(&[(STS, 0o10)]);
    assert_eq!(case.s.iid, 0);
    // Bits 8 to 15 read 0 and are never written.
    for bit in 8..16 {
        let at = bit << 3;
        Case::of(0o174200 | at).with(STS, 3).ok().has(&[(STS, 3)]); // BSET ONE
        Case::of(0o174400 | at).with(STS, 3).ok().has(&[(STS, 3)]); // BSET BCM
        Case::of(0o174600 | at).with(STS, 7).ok().has(&[(STS, 7)]); // BSET BAC
        Case::of(0o175000 | at).with(STS, 3).ok().has(&[(P, 0o102)]); // BSKP ZRO
        Case::of(0o175200 | at)
            .with(STS, 0o377)
            .ok()
            .has(&[(P, 0o101)]); // BSKP ONE
        Case::of(0o176000 | at).with(STS, 3).ok().has(&[(STS, 7)]); // BSTC: K only
        Case::of(0o176200 | at).with(STS, 7).ok().has(&[(STS, 3)]); // BSTA: K only
        Case::of(0o176400 | at).with(STS, 3).ok().has(&[(STS, 7)]); // BLDC
        Case::of(0o176600 | at).with(STS, 7).ok().has(&[(STS, 3)]); // BLDA
        Case::of(0o177000 | at).with(STS, 7).ok().has(&[(STS, 7)]); // BANC
        Case::of(0o177600 | at).with(STS, 3).ok().has(&[(STS, 3)]); // BORA
    }
}

#[test]
fn bit_of_p() {
    // P is one further, 000101; writing it is a jump.
    Case::of(0o174002).ok().has(&[(P, 0o100)]); // BSET ZRO 0 DP
    Case::of(0o174232).ok().has(&[(P, 0o111)]); // BSET ONE 30 DP
    Case::of(0o174412).ok().has(&[(P, 0o103)]); // BSET BCM 10 DP
    Case::of(0o174202).ok().has(&[(P, 0o101)]); // BSET ONE 0 DP
    Case::of(0o175202).ok().has(&[(P, 0o102)]); // BSKP ONE 0 DP
    Case::of(0o175002).ok().has(&[(P, 0o101)]); // BSKP ZRO 0 DP
    Case::of(0o176012)
        .with(STS, 0)
        .ok()
        .has(&[(P, 0o103), (STS, 4)]); // BSTC 10 DP
    Case::of(0o176602).ok().has(&[(STS, 4), (P, 0o101)]); // BLDA 0 DP
}

#[test]
fn p_wraps() {
    // At 177777 (the window) with paging off: P goes to 0, a skip to 1.
    let mut case = Case::of(0).with(P, MINUS);
    case.t[255] = 0o170401;
    case.ok().has(&[(P, 0), (A, 1)]);
    let mut case = Case::of(0).with(P, MINUS);
    case.t[255] = 0o140005; // SKP DA EQL
    case.ok().has(&[(P, 1)]);
    let mut case = Case::of(0).with(P, MINUS);
    case.t[255] = 0o134002; // JPL *2
    case.ok().has(&[(P, 1), (L, 0)]);
}
