//! Conversions between the two floating forms.

use super::Lines;
use crate::answer::Refusal;
use crate::floating::{long, long_to_short, longs, short, short_to_long, shorts};

const SIGNS: [bool; 2] = [false, true];

/// Stored mantissas: lowest, highest, lowest bit, highest bit, mixed.
const SHORT_MANTISSAS: [u64; 6] = [0, 0o17777777, 1, 0o10000000, 0o05252525, 0o13702461];

/// The same behind the top bit and with nine more bits, 0 and otherwise; then
/// without the top bit.
const LONG_MANTISSAS: [u64; 13] = [
    0o20000000000,
    0o20000000001,
    0o37777777000,
    0o37777777777,
    0o20000001000,
    0o30000000000,
    0o25252525000,
    0o25252525252,
    0o33702461000,
    0o33702461357,
    0,
    0o17777777777,
    0o10000000000,
];

/// The top bit of a long mantissa.
const TOP: u64 = 1 << 31;

/// Exponent fields of +1.
const SHORT_ONE: u64 = 257;
const LONG_ONE: u64 = 16_385;

fn octal(words: &[u16]) -> String {
    let words: Vec<String> = words.iter().map(|word| format!("{word:06o}")).collect();
    words.join(" ")
}

/// A conversion. The label has letters only.
fn lines<const N: usize, const M: usize>(
    label: &str,
    words: [u16; N],
    convert: impl Fn([u16; N]) -> Result<[u16; M], Refusal>,
) -> Lines {
    let told = match convert(words) {
        Ok(words) => format!("0 {}", octal(&words)),
        Err(refusal) => refusal.number().to_string(),
    };
    (format!("{label} {N} {}", octal(&words)), told)
}

fn of_short(label: &str, words: [u16; 2]) -> Lines {
    lines(label, words, short_to_long)
}

fn of_long(label: &str, words: [u16; 3]) -> Lines {
    lines(label, words, long_to_short)
}

/// Document 002's rows: 0, +1, -1 and +3 of both forms, +3 of the long one as
/// card 12 has it and as it is printed.
pub fn examples() -> Vec<Lines> {
    let shorts = [[0, 0], [0o040100, 0], [0o140100, 0], [0o040240, 0]];
    let longs = [
        [0, 0, 0],
        [0o040001, 0o100000, 0],
        [0o140001, 0o100000, 0],
        [0o040002, 0o140000, 0],
        [0o040240, 0o100000, 0],
    ];
    let shorts = shorts.map(|words| of_short("example", words));
    let longs = longs.map(|words| of_long("example", words));
    shorts.into_iter().chain(longs).collect()
}

/// Both ends and the middle of both exponent fields, and of the part of the
/// long one that the short one matches, each with every mantissa above.
pub fn ends() -> Vec<Lines> {
    let mut cases = Vec::new();
    let long_fields = [0, 1, 32_766, 32_767].into_iter();
    let long_fields = long_fields.chain(16_127..=16_130);
    let long_fields = long_fields.chain(16_383..=16_386).chain(16_638..=16_641);
    for negative in SIGNS {
        for field in [0, 1, 2, 255, 256, 257, 510, 511] {
            let words = SHORT_MANTISSAS.map(|mantissa| short(negative, field, mantissa));
            cases.extend(words.map(|words| of_short("end", words)));
        }
        for field in long_fields.clone() {
            let words = LONG_MANTISSAS.map(|mantissa| long(negative, field, mantissa));
            cases.extend(words.map(|words| of_long("end", words)));
        }
    }
    cases
}

/// Every short exponent field, and the long ones that it matches with some
/// beyond; the mantissas are other ones each time, and kept.
pub fn exponents() -> Vec<Lines> {
    let mut cases = Vec::new();
    for negative in SIGNS {
        let mantissa = |field: u64| (field + 1) * 2_654_435_761 / 128 % (1 << 22);
        for field in 0..512 {
            let words = short(negative, field, mantissa(field));
            cases.push(of_short("exponent", words));
        }
        for field in 16_100..=16_700 {
            let words = long(negative, field, TOP | mantissa(field) << 9);
            cases.push(of_long("exponent", words));
        }
    }
    cases
}

/// The nine bits of a long mantissa that a short one has not: each alone, each
/// pair, all; then the tenth, which is kept. The others are 0 or 1.
pub fn low_bits() -> Vec<Lines> {
    let pairs = (0..9).flat_map(|one| (0..=one).map(move |two| 1 << one | 1 << two));
    let bits: Vec<u64> = pairs.chain([0o777, 0o1000]).collect();
    let mut cases = Vec::new();
    for negative in SIGNS {
        for others in [TOP, 0o37777776000] {
            let words = bits
                .iter()
                .map(|bits| long(negative, LONG_ONE, others | bits));
            cases.extend(words.map(|words| of_long("low", words)));
        }
    }
    cases
}

/// Each bit of a short mantissa alone, and all but it; and the same in the long
/// form.
pub fn mantissa_bits() -> Vec<Lines> {
    let mut cases = Vec::new();
    for negative in SIGNS {
        for bit in 0..22 {
            for mantissa in [1 << bit, 0o17777777 - (1 << bit)] {
                let words = short(negative, SHORT_ONE, mantissa);
                cases.push(of_short("mantissa", words));
                let words = long(negative, LONG_ONE, TOP | mantissa << 9);
                cases.push(of_long("mantissa", words));
            }
        }
    }
    cases
}

/// Zero, and what has only one part of it: a sign, an exponent field of 0 with
/// each bit of the mantissa, a mantissa of 0 with exponent fields.
pub fn zeros() -> Vec<Lines> {
    let mut cases = Vec::new();
    for negative in SIGNS {
        let mantissas = (0..22).map(|bit| 1 << bit).chain([0, 0o17777777]);
        let words = mantissas.map(|mantissa| short(negative, 0, mantissa));
        cases.extend(words.map(|words| of_short("zero", words)));
        let fields = (0..9).map(|bit| 1 << bit).chain([511]);
        let words = fields.map(|field| short(negative, field, 0));
        cases.extend(words.map(|words| of_short("zero", words)));

        let mantissas = (0..32)
            .map(|bit| 1 << bit)
            .chain([0, TOP - 1, TOP | 0o1000]);
        let words = mantissas.map(|mantissa| long(negative, 0, mantissa));
        cases.extend(words.map(|words| of_long("zero", words)));
        let fields = (0..15).map(|bit| 1 << bit);
        let fields = fields.chain([16_128, 16_129, LONG_ONE, 16_639, 16_640, 32_767]);
        let words = fields.map(|field| long(negative, field, 0));
        cases.extend(words.map(|words| of_long("zero", words)));
    }
    cases
}

/// The order of the refusals of a long form: every choice of a top bit,
/// exponent field and low bits, sound and not.
pub fn order() -> Vec<Lines> {
    let mut cases = Vec::new();
    for negative in SIGNS {
        for top in [TOP, 0] {
            for field in [LONG_ONE, 16_129, 16_639, 0, 16_128, 16_640, 32_767] {
                for low in [0, 1, 0o400, 0o777] {
                    for kept in [0, 0o12345670000] {
                        let words = long(negative, field, top | kept | low);
                        cases.push(of_long("order", words));
                    }
                }
            }
        }
    }
    cases
}

/// Random words of both forms, every answer often among them.
pub fn random() -> Vec<Lines> {
    let shorts = shorts(1_200).take(3_000);
    let longs = longs(1_201).take(3_000);
    let shorts = shorts.map(|words| of_short("random", words));
    shorts
        .chain(longs.map(|words| of_long("random", words)))
        .collect()
}
