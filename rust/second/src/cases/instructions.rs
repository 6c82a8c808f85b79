//! Every unprivileged instruction at the ends of its ranges.

use super::Case;
use crate::decode::Reg;
use crate::state::flag;

/// Operands at the ends of their ranges.
const ENDS: [u16; 8] = [
    0, 1, 0o177777, 0o77777, 0o100000, 0o100001, 0o40000, 0o140000,
];
/// All flags but PTM, and none.
const FLAGS: [u16; 2] = [0, 0o376];

/// Operands of additions, one pair for each row of signs (first operand,
/// second operand, result): the sum is the last or the first word of its sign.
/// The second is an argument too, and one less has the same sign.
const AT_THE_EDGE: [(u16, u16); 8] = [
    (0o77776, 1),
    (0o77777, 1),
    (1, 0o177777),
    (0, 0o177777),
    (0o177777, 1),
    (0o177776, 1),
    (0o100000, 0o177777),
    (0o100001, 0o177777),
];
/// The same rows, far from the edge.
const INSIDE: [(u16, u16); 8] = [
    (0o23456, 0o12345),
    (0o56701, 0o43210),
    (0o65432, 0o134567),
    (0o31415, 0o112233),
    (0o134567, 0o65432),
    (0o112233, 0o31415),
    (0o102030, 0o123456),
    (0o165432, 0o154321),
];

pub fn cases() -> Vec<Case> {
    let mut cases = Vec::new();
    arithmetic(&mut cases);
    additions(&mut cases);
    products(&mut cases);
    division(&mut cases);
    skips(&mut cases);
    jumps(&mut cases);
    registers(&mut cases);
    shifts(&mut cases);
    arguments(&mut cases);
    bits(&mut cases);
    bytes(&mut cases);
    execute(&mut cases);
    cases
}

/// An operation of A and the word after the instruction's own address.
fn operation(label: &'static str, word: u16, sts: u16, a: u16, operand: u16) -> Case {
    let case = Case::step(label).reg(Reg::Sts, sts).reg(Reg::A, a);
    let p = case.get(Reg::P);
    case.at_p(word | 1).put(p + 1, false, operand)
}

fn arithmetic(cases: &mut Vec<Case>) {
    for a in ENDS {
        for operand in ENDS {
            for sts in FLAGS {
                cases.push(operation("add", 0o060000, sts, a, operand));
                cases.push(operation("sub", 0o064000, sts, a, operand));
            }
        }
        for (label, word) in [("and", 0o070000), ("ora", 0o074000)] {
            cases.push(operation(label, word, 0o376, a, 0o52525));
            cases.push(operation(label, word, 0, 0o31463, a));
        }
    }
    // MIN at the ends, with its skip.
    for operand in [0, 0o177776, 0o177777, 0o77777] {
        for sts in FLAGS {
            cases.push(operation("min", 0o040000, sts, 7, operand));
        }
    }
}

/// RADD of T to X, with its sub-instructions.
fn radd(word: u16, sts: u16, x: u16, t: u16) -> Case {
    let case = Case::step("radd").reg(Reg::Sts, sts);
    case.reg(Reg::X, x).reg(Reg::T, t).at_p(word | 0o67)
}

/// Every row of signs by ADD, SUB, RADD with its forms, AAA and AAX. With a carry in the second
/// operand is one less: the row stays, and at the edge the carry may decide it.
fn additions(cases: &mut Vec<Case>) {
    for (a, b) in AT_THE_EDGE.into_iter().chain(INSIDE) {
        let less = b - 1;
        for sts in FLAGS {
            cases.push(operation("add", 0o060000, sts, a, b));
            cases.push(operation("sub", 0o064000, sts, a, !less));
            cases.push(radd(0o146000, sts, a, b));
            cases.push(radd(0o146400, sts, a, less)); // AD1
            cases.push(radd(0o147000, sts & !flag::C, a, b)); // ADC
            cases.push(radd(0o147000, sts | flag::C, a, less));
            cases.push(radd(0o146600, sts, a, !less)); // CM1 AD1
        }
    }
    for (a, b) in AT_THE_EDGE {
        for (label, word, reg) in [("aaa", 0o172400, Reg::A), ("aax", 0o173400, Reg::X)] {
            for sts in FLAGS {
                let case = Case::step(label).reg(Reg::Sts, sts).reg(reg, a);
                cases.push(case.at_p(word | b & 0o377));
            }
        }
    }
}

fn products(cases: &mut Vec<Case>) {
    let pairs = [
        (181, 181),
        (182, 181),
        (0o177512, 181),
        (0o177513, 181),
        (0o177513, 0o177513),
        (256, 128),
        (0o177400, 128),
        (256, 256),
        (32767, 1),
        (16384, 2),
        (0o140000, 2),
        (0o140000, 0o177776),
        (300, 300),
    ];
    let ends = ENDS.into_iter().flat_map(|a| ENDS.map(|b| (a, b)));
    for (a, b) in ends.chain(pairs) {
        for sts in FLAGS {
            cases.push(operation("mpy", 0o120000, sts, a, b));
        }
        // RMPY of T by L.
        let case = Case::step("rmpy").reg(Reg::T, a).reg(Reg::L, b);
        cases.push(case.at_p(0o141264));
    }
    // Every pair of registers.
    for word in 0o141200..0o141300 {
        cases.push(
            Case::step("rmpy")
                .reg(Reg::A, 0o177775)
                .reg(Reg::D, 300)
                .at_p(word),
        );
    }
}

fn division(cases: &mut Vec<Case>) {
    let dividends: [i64; 14] = [
        0,
        1,
        -1,
        7,
        -7,
        32767,
        -32768,
        32768,
        -32769,
        65535,
        1_073_741_823,
        -1_073_741_824,
        2_147_483_647,
        -2_147_483_648,
    ];
    for dividend in dividends {
        for divisor in [0, 1, 2, 3, 0o177777, 0o177775, 0o77777, 0o100000] {
            for sts in FLAGS {
                let word = dividend as u32;
                let case = Case::step("rdiv")
                    .reg(Reg::Sts, sts)
                    .reg(Reg::A, (word >> 16) as u16)
                    .reg(Reg::D, word as u16)
                    .reg(Reg::T, divisor);
                cases.push(case.at_p(0o141660));
            }
        }
    }
    // Quotients just inside and just outside.
    for (divisor, quotient) in [
        (3_i64, 32767_i64),
        (3, 32768),
        (3, -32768),
        (3, -32769),
        (-5, 32767),
        (-5, -32768),
        (-5, 32768),
        (-5, -32769),
    ] {
        for remainder in [-2, 0, 2] {
            let word = (divisor * quotient + remainder) as u32;
            let case = Case::step("rdiv")
                .reg(Reg::A, (word >> 16) as u16)
                .reg(Reg::D, word as u16)
                .reg(Reg::X, divisor as u16);
            cases.push(case.at_p(0o141670));
        }
    }
    // Every source, other bits ignored.
    for word in (0o141600..0o141700).step_by(3) {
        cases.push(
            Case::step("rdiv")
                .reg(Reg::A, 0)
                .reg(Reg::D, 1000)
                .at_p(word),
        );
    }
}

fn skips(cases: &mut Vec<Case>) {
    let values = [0, 1, 0o77777, 0o100000, 0o177777, 0o40000];
    for condition in 0..8 {
        let word = 0o140000 | condition << 8;
        for (s, d) in values.into_iter().flat_map(|s| values.map(|d| (s, d))) {
            // SKP DT cond SX.
            let case = Case::step("skip").reg(Reg::X, s).reg(Reg::T, d);
            cases.push(case.at_p(word | 0o76));
        }
        for pair in 0..64 {
            if pair % 8 == 0 || pair / 8 == 0 || pair % 8 == 2 || pair / 8 == 2 || pair % 9 == 0 {
                cases.push(Case::step("skip").at_p(word | pair));
            }
        }
    }
}

fn jumps(cases: &mut Vec<Case>) {
    for condition in 0..8 {
        for value in [0, 1, 2, 0o77776, 0o77777, 0o100000, 0o177776, 0o177777] {
            for disp in [0o177, 0o200] {
                let case = Case::step("jump").reg(Reg::A, value).reg(Reg::X, value);
                cases.push(case.at_p(0o130000 | condition << 8 | disp));
            }
            // One of A and X alone.
            let word = 0o130005 | condition << 8;
            cases.push(
                Case::step("jump")
                    .reg(Reg::A, value)
                    .reg(Reg::X, 0o100003)
                    .at_p(word),
            );
            cases.push(
                Case::step("jump")
                    .reg(Reg::A, 3)
                    .reg(Reg::X, value)
                    .at_p(word),
            );
        }
    }
    // Relative to P over the end.
    for (p, disp) in [(0o177777, 1), (0o177777, 0o177), (0, 0o377), (5, 0o200)] {
        cases.push(
            Case::step("jump")
                .reg(Reg::P, p)
                .reg(Reg::A, 0)
                .at_p(0o131000 | disp),
        );
    }
}

fn registers(cases: &mut Vec<Case>) {
    // Every pair of registers, with every operation and form in turn.
    for operation in 0..8 {
        for pair in 0..64 {
            let form = (pair + pair / 8 + operation) % 4;
            let word = 0o144000 | operation << 8 | form << 6 | pair;
            let sts = FLAGS[usize::from((pair / 8 + operation) % 2)];
            cases.push(Case::step("register").reg(Reg::Sts, sts).at_p(word));
        }
    }
    // Every form of A and T at the ends.
    for form in 0..32 {
        for (s, d) in [
            (0o77777, 1),
            (0o177777, 1),
            (0o100000, 0o100000),
            (0, 0),
            (0o52525, 0o31463),
            (0o77777, 0),
        ] {
            for sts in FLAGS {
                let case = Case::step("register")
                    .reg(Reg::Sts, sts)
                    .reg(Reg::A, s)
                    .reg(Reg::T, d);
                cases.push(case.at_p(0o144056 | form << 6));
            }
        }
    }
    for a in [0, 1, 2, 0o125253, 0o77777, 0o100000, 0o177777] {
        cases.push(Case::step("mix").reg(Reg::A, a).at_p(0o143200 | a & 0o77));
    }
}

fn shifts(cases: &mut Vec<Case>) {
    for form in 0..16 {
        for count in 0..64 {
            let m = (count ^ form) & 1;
            let case = Case::step("shift")
                .reg(Reg::Sts, 0o60 | m << 7)
                .reg(Reg::A, 0o120305)
                .reg(Reg::D, 0o46721)
                .reg(Reg::T, 0o113652);
            cases.push(case.at_p(0o154000 | form << 7 | count));
        }
        for count in [1, 2, 15, 16, 17, 31, 63, 62, 49, 48, 47, 33, 32, 0] {
            let m = 1 - ((count ^ form) & 1);
            for value in [0o100000, 1] {
                let case = Case::step("shift")
                    .reg(Reg::Sts, 0o316 & !0o200 | m << 7)
                    .reg(Reg::A, value)
                    .reg(Reg::D, value)
                    .reg(Reg::T, value);
                cases.push(case.at_p(0o154000 | form << 7 | count));
            }
        }
        cases.push(Case::step("shift").at_p(0o154100 | form << 7));
    }
}

fn arguments(cases: &mut Vec<Case>) {
    for form in 0..8 {
        for value in [0, 1, 0o177, 0o200, 0o377] {
            for register in [0, 0o77777, 0o100000, 0o177777] {
                let sts = FLAGS[usize::from((value ^ register) % 2)];
                let mut case = Case::step("argument").reg(Reg::Sts, sts);
                for reg in [Reg::B, Reg::A, Reg::T, Reg::X] {
                    case = case.reg(reg, register);
                }
                cases.push(case.at_p(0o170000 | form << 8 | value));
            }
        }
    }
}

fn bits(cases: &mut Vec<Case>) {
    for operation in 0..16 {
        for bit in 0..16 {
            let word = 0o174000 | operation << 7 | bit << 3;
            for k in [0, 4] {
                // The bit alone, or all but it.
                let alone = 1 << bit;
                let reg = Reg::ALL[usize::from((bit + operation + k / 4) % 7 + 1)];
                let value = if (operation + bit / 2) % 2 == 0 {
                    alone
                } else {
                    !alone
                };
                let case = Case::step("bit").reg(Reg::Sts, 0o360 | k);
                let case = if reg == Reg::P {
                    case
                } else {
                    case.reg(reg, value)
                };
                cases.push(case.at_p(word | reg as u16));
                if bit < 9 || bit == 15 {
                    let sts = (0o252 + 0o43 * operation) & 0o373 | k;
                    cases.push(Case::step("bit").reg(Reg::Sts, sts).at_p(word));
                }
            }
        }
    }
}

fn bytes(cases: &mut Vec<Case>) {
    for word in [0o142200, 0o142600] {
        for x in [0, 1, 2, 3, 0o177776, 0o177777, 0o100001] {
            for t in [0o1000, 0o177777, 0o100001] {
                for ptm in [0, 1] {
                    let case = Case::step("byte")
                        .reg(Reg::Sts, 0o376 | ptm)
                        .reg(Reg::X, x)
                        .reg(Reg::T, t)
                        .reg(Reg::A, 0o123456);
                    cases.push(case.at_p(word | x & 0o77));
                }
            }
        }
    }
}

fn execute(cases: &mut Vec<Case>) {
    let words = [
        0o044003, // LDA *3
        0o044777, // LDA I -1
        0o134005, // JPL *5
        0o124377, // JMP *-1
        0o131402, // JAF *2
        0o140077, // SKP EQL
        0o146062, // RADD SX DP
        0o144062, // SWAP SX DP
        0o146022, // RADD SP DP
        0o174012, // BSET of P
        0o140600, // EXR itself
        0o140677, 0o140700, // illegal
        0o000005, // STZ *5
        0o150401, // IOF
        0o151000, // WAIT
        0o153377, // MON -1
        0o141600, // RDIV by 0
        0o150000, // illegal
        0o164000, // IOX
        0o040002, // MIN *2
        0o152432, // SRB of the running level
        0o153632, // IRR of the running level's P
    ];
    for (turn, word) in words.into_iter().enumerate() {
        // Every source in turn but 0 and P.
        let number = [1, 3, 4, 5, 6, 7][turn % 6];
        for ring in [2, 1] {
            let case = Case::step("exr").reg(Reg::ALL[number], word);
            let exr = 0o140600 | (number as u16) << 3 | (turn as u16 % 8);
            let p = case.get(Reg::P);
            cases.push(
                case.at_p(exr)
                    .put(p.wrapping_add(2), false, 0o177777)
                    .ring(ring),
            );
        }
    }
    cases.push(Case::step("exr").at_p(0o140600));
    // P as a source: the word is P's own value, one further.
    for p in [0o140577, 0o143177, 0o153176, 0o043777] {
        cases.push(Case::step("exr").reg(Reg::P, p).at_p(0o140620));
    }
}

#[cfg(test)]
mod tests {
    use super::*;

    #[test]
    fn pairs_are_the_rows_of_signs() {
        // Signs of the operands and of the sum, as a number.
        let row = |a: u16, b: u16, sum: u16| (a >> 15) << 2 | (b >> 15) << 1 | sum >> 15;
        for pairs in [AT_THE_EDGE, INSIDE] {
            for carry in [0, 1] {
                let rows = pairs.map(|(a, b)| row(a, b - carry, a.wrapping_add(b)));
                assert_eq!(rows, [0, 1, 2, 3, 4, 5, 6, 7]);
            }
        }
        for (a, b) in AT_THE_EDGE {
            assert!([0o77777, 0o100000, 0, 0o177777].contains(&a.wrapping_add(b)));
            assert!(i8::try_from(b as i16).is_ok());
        }
    }
}
