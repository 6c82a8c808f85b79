//! What the tables name.

use crate::Place::{self, Interrupt, State};
use crate::Words;

pub const STS: Place = State(0);
pub const D: Place = State(1);
pub const P: Place = State(2);
pub const B: Place = State(3);
pub const L: Place = State(4);
pub const A: Place = State(5);
pub const T: Place = State(6);
pub const X: Place = State(7);

pub const LEVEL: Place = State(128);
pub const ION: Place = State(129);
pub const PON: Place = State(130);
pub const PID: Place = State(132);
pub const PIE: Place = State(133);
pub const PVL: Place = State(134);
pub const IID: Place = State(135);
pub const IIE: Place = State(136);
pub const PGS: Place = State(137);
/// 1 while PGS holds a fault that was not read (document 02, card 3).
pub const HELD: Place = State(154);
/// 1 in extended mode (document 02, card 4).
pub const EXTENDED: Place = State(155);

/// The devices' words (document 02, card 1).
pub const CLOCK_ENABLED: Place = State(156);
pub const CLOCK_READY: Place = State(157);
pub const CLOCK_ASKS: Place = State(158);
pub const INPUT_ENABLED: Place = State(159);
pub const INPUT_UNREAD: Place = State(160);
pub const INPUT_ASKS: Place = State(161);
pub const INPUT: Place = State(162);
pub const LENGTH: Place = State(163);
pub const OUTPUT_ENABLED: Place = State(164);
pub const OUTPUT_WAITS: Place = State(165);
pub const OUTPUT_ASKS: Place = State(166);
pub const OUTPUT: Place = State(167);

/// A register of another level.
pub const fn of(level: usize, register: Place) -> Place {
    match register {
        State(number) => State(8 * level + number),
        other => other,
    }
}

pub const fn pcr(level: usize) -> Place {
    State(138 + level)
}

pub const K: u16 = 0o004;
pub const Z: u16 = 0o010;
pub const Q: u16 = 0o020;
pub const O: u16 = 0o040;
pub const C: u16 = 0o100;
pub const M: u16 = 0o200;

/// A decimal number of a manual as a word, and as the double word in A and D.
pub const fn word(number: i16) -> u16 {
    number as u16
}
pub const fn high(number: i32) -> u16 {
    (number >> 16) as u16
}
pub const fn low(number: i32) -> u16 {
    number as u16
}

/// Document 01 has no floating, decimal and SINTRAN instructions so far, and not all internal registers.
pub const ILLEGAL: Words = &[(Interrupt, 4), (IID, 0o20)];
/// No device answers.
pub const NO_DEVICE: Words = &[(Interrupt, 7), (IID, 0o200)];
