//! Additions to run engines through: every pair of some three hundred words,
//! by the ways of adding in `WAYS`, with and without a carry in.
//!
//! ```
//! use second::additions::{all, start, values};
//!
//! let values = values();
//! let mut start = start();
//! for addition in all(&values).take(3) {
//!     addition.put(&mut start);
//!     // Step a copy of `start` by each engine, compare, report `addition`.
//! }
//! ```

use crate::decode::Reg::{self, A, B, T, X};
use crate::disasm::disassemble;
use crate::state::{State, flag};
use crate::vectors::Start;
use crate::{PAGE, TABLE_WORDS};
use std::collections::BTreeSet;
use std::fmt;

/// Where the instruction stands.
pub(crate) const HERE: usize = 0o100;

/// Where the adder has its second operand from.
#[derive(Clone, Copy, Debug)]
enum Second {
    /// The memory word after the instruction.
    Memory,
    MemoryComplement,
    /// The source register.
    Source(Reg),
    SourceComplement(Reg),
    /// Bits 7-0 of the instruction, sign-extended.
    Argument,
}

/// What the adder takes in beside its operands.
#[derive(Clone, Copy, Debug)]
enum CarryIn {
    Zero,
    One,
    /// C as it is before the step.
    C(bool),
}

/// A way in which an instruction adds.
#[derive(Debug)]
pub struct Way {
    /// The instruction; an argument is still to come in.
    word: u16,
    /// Holds the first operand, and gets the sum.
    register: Reg,
    /// The first operand is 0 instead, whatever the register holds.
    cld: bool,
    second: Second,
    carry_in: CarryIn,
}

/// ADD, SUB, RADD with its sub-instructions (COPY is RADD CLD), and the argument
/// instructions.
pub static WAYS: [Way; 16] = [
    way(0o060001, A, Second::Memory, CarryIn::Zero), // ADD *1
    way(0o064001, A, Second::MemoryComplement, CarryIn::One), // SUB *1
    way(0o146057, X, Second::Source(A), CarryIn::Zero), // RADD SA DX
    way(0o146457, X, Second::Source(A), CarryIn::One), // RADD AD1 SA DX
    way(0o147057, X, Second::Source(A), CarryIn::C(false)), // RADD ADC SA DX
    way(0o147057, X, Second::Source(A), CarryIn::C(true)), // the same, C set
    way(0o146257, X, Second::SourceComplement(A), CarryIn::Zero), // RADD CM1 SA DX
    way(0o147257, X, Second::SourceComplement(A), CarryIn::C(false)), // RADD CM1 ADC SA DX
    way(0o147257, X, Second::SourceComplement(A), CarryIn::C(true)), // the same, C set
    way(0o146663, B, Second::SourceComplement(T), CarryIn::One), // RSUB ST DB
    way(0o146157, X, Second::Source(A), CarryIn::Zero).cld(), // COPY SA DX
    way(0o147157, X, Second::Source(A), CarryIn::C(true)).cld(), // COPY ADC SA DX, C set
    way(0o172400, A, Second::Argument, CarryIn::Zero), // AAA
    way(0o172000, B, Second::Argument, CarryIn::Zero), // AAB
    way(0o173000, T, Second::Argument, CarryIn::Zero), // AAT
    way(0o173400, X, Second::Argument, CarryIn::Zero), // AAX
];

const fn way(word: u16, register: Reg, second: Second, carry_in: CarryIn) -> Way {
    Way {
        word,
        register,
        cld: false,
        second,
        carry_in,
    }
}

impl Way {
    /// The way with CLD.
    const fn cld(mut self) -> Way {
        self.cld = true;
        self
    }

    /// Every pair of `values` that this way can add.
    pub fn additions(&'static self, values: &[u16]) -> impl Iterator<Item = Addition> {
        values.iter().flat_map(move |&first| {
            let reached = move |&&second: &&u16| self.reaches(first, second);
            values.iter().filter(reached).map(move |&second| Addition {
                way: self,
                first,
                second,
            })
        })
    }

    /// Whether a pair can be the operands: with CLD the first is 0, and an
    /// argument is -128 to 127.
    fn reaches(&self, first: u16, second: u16) -> bool {
        let argument = matches!(self.second, Second::Argument);
        (!self.cld || first == 0) && (!argument || i8::try_from(second as i16).is_ok())
    }
}

/// Every pair of `values` by every way that can add it.
pub fn all(values: &[u16]) -> impl Iterator<Item = Addition> {
    WAYS.iter().flat_map(move |way| way.additions(values))
}

/// Two operands of the adder, and the way in which they come to it. Its text
/// is the instruction, the operands and the carry in.
#[derive(Clone, Copy, Debug)]
pub struct Addition {
    way: &'static Way,
    pub first: u16,
    pub second: u16,
}

impl Addition {
    pub fn carry_in(&self) -> bool {
        matches!(self.way.carry_in, CarryIn::One | CarryIn::C(true))
    }

    /// The instruction.
    fn word(&self) -> u16 {
        match self.way.second {
            Second::Argument => self.way.word | self.second & 0o377,
            _ => self.way.word,
        }
    }

    /// What the register holds: the first operand, or with CLD a word of the
    /// other sign, so that taking it would show.
    fn held(&self) -> u16 {
        if self.way.cld {
            !self.first
        } else {
            self.first
        }
    }

    /// All flags or none, by the parity of the pair; C as the way needs it.
    fn flags(&self) -> u16 {
        let even = (self.first ^ self.second).count_ones().is_multiple_of(2);
        let flags = if even { 0o377 } else { 0 };
        match self.way.carry_in {
            CarryIn::C(true) => flags | flag::C,
            CarryIn::C(false) => flags & !flag::C,
            CarryIn::Zero | CarryIn::One => flags,
        }
    }

    /// Makes a start of `start()` the one whose step adds this pair, whatever
    /// addition was put there before.
    pub fn put(&self, start: &mut Start) {
        let Start { state, memory, .. } = start;
        state.files[0] = file(0);
        state.set_reg(Reg::Sts, self.flags());
        state.set_reg(Reg::P, HERE as u16);
        state.set_reg(self.way.register, self.held());
        memory[HERE] = self.word();
        memory[HERE + 1] = 0;
        match self.way.second {
            Second::Memory => memory[HERE + 1] = self.second,
            Second::MemoryComplement => memory[HERE + 1] = !self.second,
            Second::Source(source) => state.set_reg(source, self.second),
            Second::SourceComplement(source) => state.set_reg(source, !self.second),
            Second::Argument => {}
        }
    }
}

impl fmt::Display for Addition {
    fn fmt(&self, f: &mut fmt::Formatter<'_>) -> fmt::Result {
        let (first, second, carry) = (self.first, self.second, u16::from(self.carry_in()));
        let instruction = disassemble(self.word());
        write!(f, "{instruction}: {first:06o} + {second:06o} + {carry}")
    }
}

/// A start to put additions or rotations into: one page, level 0, paging and
/// interrupts off. Registers, memory and tables hold words that tell their index.
pub fn start() -> Start {
    let mut state = State::new();
    for (level, registers) in state.files.iter_mut().enumerate() {
        *registers = file(level as u16);
    }
    Start {
        state,
        memory: (0o040000..).take(PAGE).collect(),
        tables: (0o020000..).take(TABLE_WORDS).collect(),
    }
}

/// Registers of a level; its STS is in range.
pub(crate) fn file(level: u16) -> [u16; 8] {
    let mut registers = [0o010000; 8];
    registers[0] = 0;
    for (index, register) in (8 * level..).zip(&mut registers) {
        *register += index;
    }
    registers
}

/// The words to add, rising: the ends of the signed and the unsigned range,
/// the quarters, the powers of two and their negatives, each with neighbours,
/// and words evenly between.
pub fn values() -> Vec<u16> {
    let near = |middle: i32, far: i32| (middle - far..=middle + far).map(|value| value as u16);
    let mut values = BTreeSet::new();
    for end in [0, 0o77777, 0o100000, 0o177777] {
        values.extend(near(end, 8));
    }
    for quarter in [0o40000, 0o140000] {
        values.extend(near(quarter, 4));
    }
    for power in (0..16).map(|bit| 1 << bit) {
        values.extend(near(power, 1));
        values.extend(near(-power, 1));
    }
    values.extend((0..=0o177777).step_by(341));
    values.into_iter().collect()
}

#[cfg(test)]
mod tests {
    use super::*;

    #[test]
    fn ends_and_neighbours_are_values() {
        let values = values();
        assert!((290..=320).contains(&values.len()), "{}", values.len());
        assert!(values.is_sorted_by(|low, high| low < high));
        let has = |value: u16| assert!(values.contains(&value), "{value:o}");
        for end in [0, 0o77777, 0o100000, 0o177777u16] {
            (0..=8).for_each(|far| has(end.wrapping_add(far)));
            (0..=8).for_each(|far| has(end.wrapping_sub(far)));
        }
        let powers = (0..16).map(|bit| 1 << bit);
        for middle in powers.chain([0o40000, 0o140000, 0o177600]) {
            has(middle - 1);
            has(middle);
            has(middle + 1);
        }
        // Evenly between: nowhere far from the next.
        assert!(values.windows(2).all(|pair| pair[1] - pair[0] <= 341));
    }
}
