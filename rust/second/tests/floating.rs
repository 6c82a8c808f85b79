//! Conversions between the floating forms, held to document 002's rows, card 12
//! and rulings D12 to D16.

use second::Refusal;
use second::cases::PROGRAMS;
use second::floating::{
    Value, long_to_short, long_value, longs, short_to_long, short_value, shorts,
};
use second::random::Random;
use std::cmp::Ordering;
use std::collections::{BTreeMap, HashMap};
use std::{array, iter};

/// Words tried of each form: so many of the weighted ones and so many of any.
const TRIED: usize = 200_000;

fn any<const N: usize>(seed: u64) -> impl Iterator<Item = [u16; N]> {
    let mut random = Random::new(seed);
    iter::repeat_with(move || array::from_fn(|_| random.word()))
}

fn tried_shorts() -> impl Iterator<Item = [u16; 2]> {
    shorts(5).take(TRIED).chain(any(6).take(TRIED))
}

fn tried_longs() -> impl Iterator<Item = [u16; 3]> {
    longs(7).take(TRIED).chain(any(8).take(TRIED))
}

/// The long form or the refusal's number.
fn lengthened(short: [u16; 2]) -> Result<[u16; 3], u16> {
    short_to_long(short).map_err(Refusal::number)
}

fn shortened(long: [u16; 3]) -> Result<[u16; 2], u16> {
    long_to_short(long).map_err(Refusal::number)
}

/// 2^16416 times a magnitude (ruling D16): factor x 2^power.
#[derive(Clone, Copy, Debug)]
struct Scaled {
    factor: u32,
    power: u32,
}

/// 2^-256 and 2^255: the short magnitudes are from the one to below the other.
const LEAST: Scaled = power_of_two(16_160);
const BEYOND: Scaled = power_of_two(16_671);

const fn power_of_two(power: u32) -> Scaled {
    Scaled { factor: 1, power }
}

/// Of a short form that is not zero, the sign dropped.
fn scaled_short([a, d]: [u16; 2]) -> Scaled {
    Scaled {
        factor: (1 << 22) + u32::from(a % 64) * 65_536 + u32::from(d),
        power: u32::from(a / 64 % 512) + 16_137,
    }
}

fn scaled_long([t, a, d]: [u16; 3]) -> Scaled {
    Scaled {
        factor: u32::from(a) * 65_536 + u32::from(d),
        power: u32::from(t % 32_768),
    }
}

/// By whole numbers, divided by the lower power. Factors are below 2^32 and not
/// 0, so a power higher by 64 or more decides.
fn compare(one: Scaled, other: Scaled) -> Ordering {
    let low = one.power.min(other.power);
    let whole = |scaled: Scaled| u128::from(scaled.factor) << (scaled.power - low).min(64);
    whole(one).cmp(&whole(other))
}

fn negative(first: u16) -> bool {
    first >= 0o100000
}

/// The short form with sign 0 that has a magnitude. Magnitudes rise with the 31
/// bits below the sign, so halving finds it if there is one.
fn search(sought: Scaled) -> Option<[u16; 2]> {
    let (mut low, mut high) = (1_u32 << 22, 1 << 31);
    while low < high {
        let middle = low.midpoint(high);
        let short = [(middle >> 16) as u16, middle as u16];
        match compare(scaled_short(short), sought) {
            Ordering::Less => low = middle + 1,
            Ordering::Equal => return Some(short),
            Ordering::Greater => high = middle,
        }
    }
    None
}

/// The answer to a long form, by values alone once its top bit is 1.
fn searched(long: [u16; 3]) -> Result<[u16; 2], u16> {
    let [t, a, _] = long;
    if long == [0; 3] {
        return Ok([0; 2]);
    }
    if a < 0o100000 {
        return Err(15);
    }
    let magnitude = scaled_long(long);
    if compare(magnitude, LEAST).is_lt() || compare(magnitude, BEYOND).is_ge() {
        return Err(16);
    }
    let [high, low] = search(magnitude).ok_or(17_u16)?;
    Ok([high | t & 0o100000, low])
}

/// Document 002's rows, with card 12's long +3.
const ROWS: [(i64, [u16; 2], [u16; 3]); 4] = [
    (0, [0, 0], [0, 0, 0]),
    (1, [0o040100, 0], [0o040001, 0o100000, 0]),
    (-1, [0o140100, 0], [0o140001, 0o100000, 0]),
    (3, [0o040240, 0], [0o040002, 0o140000, 0]),
];

#[test]
fn rows_of_document_002() {
    for (integer, short, long) in ROWS {
        assert_eq!(lengthened(short), Ok(long));
        assert_eq!(shortened(long), Ok(short));
        let value = Value {
            negative: integer < 0,
            mantissa: integer.unsigned_abs(),
            exponent: 0,
        };
        assert_eq!(short_value(short), Ok(value));
        assert_eq!(long_value(long), Ok(value));
    }
    // The long +3 as it is printed: 2^159.
    let printed = [0o040240, 0o100000, 0];
    assert_eq!(shortened(printed), Ok([0o064000, 0]));
    let value = Value {
        negative: false,
        mantissa: 1,
        exponent: 159,
    };
    assert_eq!(long_value(printed), Ok(value));
}

#[test]
fn ends_of_the_short_form() {
    for (short, long) in [
        ([0o000100, 0], [0o037401, 0o100000, 0]),
        ([0o077777, 0o177777], [0o040377, 0o177777, 0o177000]),
    ] {
        for sign in [0, 0o100000] {
            let (short, long) = (
                [short[0] | sign, short[1]],
                [long[0] | sign, long[1], long[2]],
            );
            assert_eq!(lengthened(short), Ok(long));
            assert_eq!(shortened(long), Ok(short));
            // The next exponent beyond.
            for beyond in [0o037400, 0o040400] {
                assert_eq!(shortened([beyond | sign, long[1], long[2]]), Err(16));
            }
        }
    }
    assert!(compare(scaled_short([0o000100, 0]), LEAST).is_eq());
    assert!(compare(scaled_long([0o040400, 0o100000, 0]), BEYOND).is_eq());
}

#[test]
fn zero_has_no_sign() {
    assert_eq!(short_value([0; 2]), Ok(Value::ZERO));
    assert_eq!(long_value([0; 3]), Ok(Value::ZERO));
    assert_eq!(lengthened([0o100000, 0]), Err(15));
    assert_eq!(shortened([0o100000, 0, 0]), Err(15));
}

#[test]
fn refusals_in_their_order() {
    // Exponent field 0; its mantissa does not matter.
    for short in [[0, 1], [1, 0], [0o000077, 0o177777], [0o100040, 0]] {
        assert_eq!(lengthened(short), Err(15));
    }
    // Top bit, exponent and low bits: all three, each pair, each alone.
    for (long, number) in [
        ([0o040400, 0o077777, 0o000001], 15),
        ([0o040400, 0o077777, 0o001000], 15),
        ([0o040001, 0o077777, 0o000777], 15),
        ([0o040001, 0o077777, 0o001000], 15),
        ([0o037400, 0o100000, 0o000777], 16),
        ([0o037400, 0o100000, 0o001000], 16),
        ([0o040001, 0o100000, 0o000400], 17),
    ] {
        assert_eq!(shortened(long), Err(number), "{long:?}");
    }
    assert_eq!(shortened([0o040001, 0o100000, 0o001000]), Ok([0o040100, 1]));
}

#[test]
fn shorts_keep_their_value_and_come_back() {
    for short in tried_shorts() {
        if short[0] & 0o077700 == 0 {
            let wanted = if short == [0; 2] { Ok([0; 3]) } else { Err(15) };
            assert_eq!(lengthened(short), wanted, "{short:?}");
            continue;
        }
        let long = lengthened(short).expect("accepted");
        assert_eq!(negative(long[0]), negative(short[0]), "{short:?}");
        let (one, other) = (scaled_short(short), scaled_long(long));
        assert!(compare(one, other).is_eq(), "{short:?} {long:?}");
        assert_eq!(shortened(long), Ok(short));
    }
}

#[test]
fn longs_have_the_short_of_their_value_or_none() {
    for long in tried_longs() {
        let answer = shortened(long);
        assert_eq!(answer, searched(long), "{long:?}");
        if let Ok(short) = answer {
            assert_eq!(lengthened(short), Ok(long));
        }
    }
}

#[test]
fn no_two_shorts_share_an_image() {
    let mut images = HashMap::new();
    for short in tried_shorts() {
        if let Ok(long) = short_to_long(short) {
            assert_eq!(*images.entry(long).or_insert(short), short);
        }
    }
    assert!(images.len() > TRIED);
}

/// Exact where f64 has the value.
fn float(value: Value) -> f64 {
    let sign = if value.negative { -1.0 } else { 1.0 };
    sign * value.mantissa as f64 * 2_f64.powi(value.exponent)
}

/// m x 2^exponent, by document 002's sentence: 0.5 <= m < 1.
fn by_sentence(first: u16, m: f64, exponent: i32) -> f64 {
    assert!((0.5..1.0).contains(&m));
    let sign = if negative(first) { -1.0 } else { 1.0 };
    sign * m * 2_f64.powi(exponent)
}

#[test]
fn values_are_those_of_f64() {
    for short in tried_shorts() {
        let Ok(value) = short_value(short) else {
            continue;
        };
        let [a, d] = short;
        let wanted = match short {
            [0, 0] => 0.0,
            _ => {
                let stored = f64::from(a % 64) * 65_536.0 + f64::from(d);
                by_sentence(a, 0.5 + stored / 8_388_608.0, i32::from(a / 64 % 512) - 256)
            }
        };
        assert_eq!(float(value), wanted, "{short:?}");
    }
    let mut compared = 0;
    for [t, a, d] in tried_longs() {
        let exponent = i32::from(t % 32_768) - 16_384;
        if a < 0o100000 || exponent.abs() > 900 {
            continue;
        }
        let m = f64::from(a) / 65_536.0 + f64::from(d) / 4_294_967_296.0;
        let value = long_value([t, a, d]).expect("normalised");
        assert_eq!(
            float(value),
            by_sentence(t, m, exponent),
            "{t:o} {a:o} {d:o}"
        );
        compared += 1;
    }
    assert!(compared > TRIED / 2);
}

#[test]
fn cases_reach_every_answer() {
    let (_, groups) = PROGRAMS
        .iter()
        .find(|(name, _)| *name == "floating")
        .expect("floating");
    let mut reached = BTreeMap::new();
    for (line, told) in groups.iter().flat_map(|(_, make)| make()) {
        let fields: Vec<&str> = line.split(' ').collect();
        assert!(fields[0].chars().all(char::is_alphabetic), "{line}");
        let octal = |text: &&str| u16::from_str_radix(text, 8).expect("octal");
        let words: Vec<u16> = fields[2..].iter().map(octal).collect();
        assert_eq!(fields[1], words.len().to_string());
        let (count, answer) = match words[..] {
            [a, d] => (2, lengthened([a, d]).map(Vec::from)),
            [t, a, d] => (3, shortened([t, a, d]).map(Vec::from)),
            _ => panic!("{line}"),
        };
        let number = answer.as_ref().err().copied().unwrap_or(0);
        let mut text = number.to_string();
        for word in answer.unwrap_or_default() {
            text += &format!(" {word:06o}");
        }
        assert_eq!(told, text, "{line}");
        *reached.entry((count, number)).or_insert(0) += 1;
    }
    let often: Vec<_> = reached.iter().filter(|&(_, &times)| times >= 300).collect();
    let keys: Vec<(u16, u16)> = often.iter().map(|&(&key, _)| key).collect();
    assert_eq!(keys, [(2, 0), (2, 15), (3, 0), (3, 15), (3, 16), (3, 17)]);
    assert_eq!(reached.len(), keys.len());
}
