//! The two floating forms of document 002, and what the words of one are in the
//! other where the value is exactly kept (card 12).
//!
//! The words of a form are read as a value, and the value is written in the
//! other form if that has it.
//!
//! ```
//! use second::Refusal;
//! use second::floating::{long_to_short, short_to_long};
//!
//! let three = [0o040002, 0o140000, 0];
//! assert_eq!(short_to_long([0o040240, 0]), Ok(three));
//! assert_eq!(long_to_short(three), Ok([0o040240, 0]));
//! let more = [0o040002, 0o140000, 1];
//! assert_eq!(long_to_short(more), Err(Refusal::Mantissa));
//! ```
//!
//! `shorts` and `longs` are words to run engines through.

use crate::answer::Refusal;
use crate::random::Random;
use std::array;
use std::iter;
use std::ops::RangeInclusive;

/// The long form of a short one: words A, D to words T, A, D.
pub fn short_to_long(short: [u16; 2]) -> Result<[u16; 3], Refusal> {
    LONG.write(short_value(short)?)
}

/// The short form of a long one: words T, A, D to words A, D.
pub fn long_to_short(long: [u16; 3]) -> Result<[u16; 2], Refusal> {
    SHORT.write(long_value(long)?)
}

/// What a short form stands for.
pub fn short_value(short: [u16; 2]) -> Result<Value, Refusal> {
    SHORT.read(short)
}

/// What a long form stands for.
pub fn long_value(long: [u16; 3]) -> Result<Value, Refusal> {
    LONG.read(long)
}

/// An exact value: mantissa x 2^exponent, or its negative. The mantissa is odd,
/// so that each value is written in one way only; of zero all is 0.
#[derive(Clone, Copy, Debug, PartialEq, Eq)]
pub struct Value {
    pub negative: bool,
    pub mantissa: u64,
    pub exponent: i32,
}

impl Value {
    pub const ZERO: Value = Value {
        negative: false,
        mantissa: 0,
        exponent: 0,
    };

    /// Of a mantissa that is not 0.
    fn new(negative: bool, mantissa: u64, exponent: i32) -> Value {
        let zeros = mantissa.trailing_zeros();
        Value {
            negative,
            mantissa: mantissa >> zeros,
            exponent: exponent + zeros as i32,
        }
    }
}

/// A form: from the top a sign bit, an exponent field and a mantissa. It stands
/// for m x 2^(field - bias) with 0.5 <= m < 1, so m's top bit is 1.
struct Form {
    exponent_bits: u32,
    /// Bits of m that are stored.
    stored: u32,
    /// 1 if m's top bit is not stored, else 0.
    implied: u32,
    bias: i32,
    /// The exponent fields of values other than zero.
    fields: RangeInclusive<i32>,
}

const SHORT: Form = Form {
    exponent_bits: 9,
    stored: 22,
    implied: 1,
    bias: 256,
    fields: 1..=511,
};

const LONG: Form = Form {
    exponent_bits: 15,
    stored: 32,
    implied: 0,
    bias: 16_384,
    fields: 0..=32_767,
};

impl Form {
    /// Bits of m.
    fn bits(&self) -> u32 {
        self.stored + self.implied
    }

    /// Refuses words that are neither zero nor have a field and an m of the form.
    fn read<const N: usize>(&self, words: [u16; N]) -> Result<Value, Refusal> {
        let all = words
            .iter()
            .fold(0, |all, &word| all << 16 | u64::from(word));
        if all == 0 {
            return Ok(Value::ZERO);
        }
        let negative = all >> (self.exponent_bits + self.stored) == 1;
        let field = (all >> self.stored) % (1 << self.exponent_bits);
        let mantissa = all % (1 << self.stored) + (u64::from(self.implied) << self.stored);
        let normalised = mantissa >> (self.bits() - 1) == 1;
        if !normalised || !self.fields.contains(&(field as i32)) {
            return Err(Refusal::Form);
        }
        // m is mantissa / 2^bits.
        let exponent = field as i32 - self.bias - self.bits() as i32;
        Ok(Value::new(negative, mantissa, exponent))
    }

    /// Refuses a value whose field or last bits the form has not.
    fn write<const N: usize>(&self, value: Value) -> Result<[u16; N], Refusal> {
        if value == Value::ZERO {
            return Ok([0; N]);
        }
        // m is mantissa / 2^length.
        let length = u64::BITS - value.mantissa.leading_zeros();
        let field = value.exponent + length as i32 + self.bias;
        if !self.fields.contains(&field) {
            return Err(Refusal::Exponent);
        }
        if length > self.bits() {
            return Err(Refusal::Mantissa);
        }
        let mantissa = value.mantissa << (self.bits() - length);
        let stored = mantissa % (1 << self.stored);
        Ok(self.join(value.negative, field as u64, stored))
    }

    /// Words of sign, exponent field and stored mantissa.
    fn join<const N: usize>(&self, negative: bool, field: u64, stored: u64) -> [u16; N] {
        let sign = u64::from(negative) << self.exponent_bits;
        let all = (sign | field) << self.stored | stored;
        array::from_fn(|index| (all >> (16 * (N - 1 - index))) as u16)
    }
}

/// Words of a short form with a mantissa of 22 bits.
pub(crate) fn short(negative: bool, field: u64, mantissa: u64) -> [u16; 2] {
    SHORT.join(negative, field, mantissa)
}

/// Words of a long form with a mantissa of 32 bits.
pub(crate) fn long(negative: bool, field: u64, mantissa: u64) -> [u16; 3] {
    LONG.join(negative, field, mantissa)
}

/// Random short forms without end, one in eight with exponent field 0.
pub fn shorts(seed: u64) -> impl Iterator<Item = [u16; 2]> {
    let mut random = Random::new(seed);
    iter::repeat_with(move || {
        let field = match random.below(8) {
            0 => 0,
            1 => random.pick(&[1, 2, 255, 256, 257, 510, 511]),
            _ => random.below(512),
        };
        short(random.one_in(2), field, mantissa(&mut random, 22))
    })
}

/// Random long forms without end: near half of them have a short form, and each
/// refusal is frequent.
pub fn longs(seed: u64) -> impl Iterator<Item = [u16; 3]> {
    let mut random = Random::new(seed);
    iter::repeat_with(move || {
        let negative = random.one_in(2);
        if random.one_in(64) {
            return long(negative, 0, 0);
        }
        let field = match random.below(8) {
            0 => random.pick(&[16_127, 16_128, 16_129, 16_130]),
            1 => random.pick(&[16_638, 16_639, 16_640, 16_641]),
            2 => random.pick(&[0, 1, 32_766, 32_767]),
            3 => random.below(32_768),
            _ => 16_129 + random.below(511),
        };
        let top = u64::from(!random.one_in(8));
        let kept = mantissa(&mut random, 22);
        let low = match random.below(4) {
            0 => mantissa(&mut random, 9),
            _ => 0,
        };
        long(negative, field, top << 31 | kept << 9 | low)
    })
}

/// So many bits: half of the time any, else none, all, one or all but one.
fn mantissa(random: &mut Random, bits: u32) -> u64 {
    let all = (1 << bits) - 1;
    let one = 1 << random.below(bits.into());
    match random.below(8) {
        0 => 0,
        1 => all,
        2 => one,
        3 => all - one,
        _ => random.draw() & all,
    }
}
