//! Neighbouring rotations to run engines through: every pair of counts by every
//! shift register, to be held against the one rotation that stands for both.
//!
//! ```
//! use second::rotations::{all, start};
//!
//! let mut start = start();
//! for pair in all().take(3) {
//!     pair.put(&mut start);
//!     // Step a copy of `start` twice by each engine, compare, report `pair`.
//!     if pair.put_joined(&mut start) {
//!         // Step a copy once: the same but for P and the instructions.
//!     }
//! }
//! ```

use crate::additions::{HERE, file};
use crate::decode::{Instr, Reg, ShiftKind, ShiftReg, decode};
use crate::disasm::disassemble;
use crate::state::flag;
use crate::vectors::Start;
use std::cmp::Ordering;
use std::fmt;
use std::ops::RangeInclusive;

pub use crate::additions::start;

/// SHT ROT 0: the register comes in at bits 8-7, the count at bits 5-0.
const SHT_ROT: u16 = 0o155000;

/// The counts that the field can hold, left when positive.
const COUNTS: RangeInclusive<i16> = -32..=31;

/// The shift registers with the values that each is to hold. They tell all
/// rotations apart (1 and the last are unlike every other rotation of theirs),
/// and have lowest and highest bit in all four combinations, however far rotated.
const VALUES: [(ShiftReg, [u32; 6]); 4] = [
    (ShiftReg::T, SINGLE),
    (ShiftReg::D, SINGLE),
    (ShiftReg::A, SINGLE),
    (ShiftReg::AD, DOUBLE),
];
const SINGLE: [u32; 6] = [0, 1, 0o177777, 0o052525, 0o125252, 0o123456];
const DOUBLE: [u32; 6] = [
    0,
    1,
    double(0o177777, 0o177777),
    double(0o052525, 0o052525),
    double(0o125252, 0o125252),
    double(0o123456, 0o054321),
];

/// A and D together.
const fn double(a: u32, d: u32) -> u32 {
    a << 16 | d
}

/// The word of a rotation.
fn word(register: ShiftReg, count: i16) -> u16 {
    SHT_ROT | (register as u16) << 7 | count as u16 & 0o77
}

/// Register and count of a rotation. Panics for every other word.
fn rotation(word: u16) -> (ShiftReg, i16) {
    match decode(word) {
        Instr::Shift {
            reg,
            kind: ShiftKind::Rotate,
            count,
        } => (reg, count),
        _ => panic!("{word:06o} is no rotation"),
    }
}

fn width(register: ShiftReg) -> i16 {
    match register {
        ShiftReg::AD => 32,
        ShiftReg::T | ShiftReg::D | ShiftReg::A => 16,
    }
}

/// The one rotation that does what two of one register do, M included; `None`
/// if no count of the field does. Panics for words that are no such pair.
///
/// Its count is the sum less whole widths, and goes the way of the last count
/// that is not 0, as this way tells which end of the value M gets. It is 0 only
/// if both are: else 0 would leave M.
pub fn joined(first: u16, second: u16) -> Option<u16> {
    let ((register, one), (other, two)) = (rotation(first), rotation(second));
    assert_eq!(register, other, "{first:06o} {second:06o}: two registers");
    let (sum, width) = (one + two, width(register));
    let last = if two == 0 { one } else { two };
    let count = match last.cmp(&0) {
        Ordering::Greater => width - (-sum).rem_euclid(width), // 1 to the width
        Ordering::Less => sum.rem_euclid(width) - width,       // minus the width to -1
        Ordering::Equal => 0,
    };
    COUNTS.contains(&count).then(|| word(register, count))
}

/// Every pair of counts by every shift register, each with every value and M;
/// pairs of the same two words follow each other.
pub fn all() -> impl Iterator<Item = Pair> {
    VALUES.iter().flat_map(|(register, values)| {
        let words = || COUNTS.map(|count| word(*register, count));
        let pairs = words().flat_map(move |first| words().map(move |second| (first, second)));
        pairs.flat_map(move |(first, second)| {
            let held = values
                .iter()
                .flat_map(|&value| [(value, false), (value, true)]);
            held.map(move |(value, m)| Pair {
                first,
                second,
                value,
                m,
            })
        })
    })
}

/// Two rotations of one register, and what they find. Its text is the two
/// instructions, the value and M.
#[derive(Clone, Copy, Debug)]
pub struct Pair {
    pub first: u16,
    pub second: u16,
    /// The register before; of SAD, A in bits 31-16 and D in bits 15-0.
    pub value: u32,
    /// M before.
    pub m: bool,
}

impl Pair {
    fn register(&self) -> ShiftReg {
        rotation(self.first).0
    }

    /// The single rotations of the pair's register, one for each count.
    pub fn counts(&self) -> impl Iterator<Item = u16> {
        let register = self.register();
        COUNTS.map(move |count| word(register, count))
    }

    /// All other flags or none, by the parity of the words and the value; M.
    fn flags(&self) -> u16 {
        let bits = u32::from(self.first ^ self.second) ^ self.value;
        let even = bits.count_ones().is_multiple_of(2);
        let others = if even { 0o377 & !flag::M } else { 0 };
        others | if self.m { flag::M } else { 0 }
    }

    /// Makes a start of `start()` the one whose two steps execute the pair,
    /// whatever was put there before.
    pub fn put(&self, start: &mut Start) {
        self.put_words(start, [self.first, self.second]);
    }

    /// As `put`, but one step executes `word` instead of the pair.
    pub fn put_single(&self, start: &mut Start, word: u16) {
        self.put_words(start, [word, 0]);
    }

    /// Puts the rotation that stands for the pair. Answers whether there is
    /// one; if not, the start stays.
    pub fn put_joined(&self, start: &mut Start) -> bool {
        let word = joined(self.first, self.second);
        if let Some(word) = word {
            self.put_single(start, word);
        }
        word.is_some()
    }

    fn put_words(&self, start: &mut Start, words: [u16; 2]) {
        let Start { state, memory, .. } = start;
        state.files[0] = file(0);
        state.set_reg(Reg::Sts, self.flags());
        state.set_reg(Reg::P, HERE as u16);
        let low = self.value as u16;
        match self.register() {
            ShiftReg::T => state.set_reg(Reg::T, low),
            ShiftReg::D => state.set_reg(Reg::D, low),
            ShiftReg::A => state.set_reg(Reg::A, low),
            ShiftReg::AD => {
                state.set_reg(Reg::A, (self.value >> 16) as u16);
                state.set_reg(Reg::D, low);
            }
        }
        memory[HERE..HERE + 2].copy_from_slice(&words);
    }
}

impl fmt::Display for Pair {
    fn fmt(&self, f: &mut fmt::Formatter<'_>) -> fmt::Result {
        let (first, second) = (disassemble(self.first), disassemble(self.second));
        let (high, low) = (self.value >> 16, self.value & 0o177777);
        write!(f, "{first}, {second}: ")?;
        if self.register() == ShiftReg::AD {
            write!(f, "{high:06o} ")?;
        }
        write!(f, "{low:06o}, M {}", u16::from(self.m))
    }
}

#[cfg(test)]
mod tests {
    use super::*;
    use std::collections::BTreeSet;

    fn turned(value: u32, width: u32, places: u32) -> u32 {
        match width {
            16 => (value as u16).rotate_left(places).into(),
            _ => value.rotate_left(places),
        }
    }

    #[test]
    fn values_tell_rotations_and_ends_apart() {
        for (register, values) in VALUES {
            let width = width(register) as u32;
            for value in [1, values[5]] {
                let turns = (0..width).map(|places| turned(value, width, places));
                let different: BTreeSet<u32> = turns.collect();
                assert_eq!(different.len(), width as usize, "{register:?} {value:o}");
            }
            for places in 0..width {
                let turns = values.map(|value| turned(value, width, places));
                let ends = turns.map(|value| (value >> (width - 1), value & 1));
                assert_eq!(BTreeSet::from(ends).len(), 4, "{register:?} {places}");
            }
        }
    }
}
