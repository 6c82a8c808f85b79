//! Answers: internal interrupts, refusals, how a run ended, and what device input is
//! told.

/// Internal interrupts by number. 8 (parity) and 10 (power) never occur here.
#[derive(Clone, Copy, Debug, PartialEq, Eq)]
#[repr(u16)]
pub enum Interrupt {
    MonitorCall = 1,
    Protect = 2,
    PageFault = 3,
    Illegal = 4,
    ErrorFlag = 5,
    Privileged = 6,
    NoDevice = 7,
    OutOfRange = 9,
}

impl Interrupt {
    #[cfg_attr(feature = "inlined", inline(always))]
    pub fn number(self) -> u16 {
        self as u16
    }
}

/// Refusals by number. A refused operation changes nothing.
#[derive(Clone, Copy, Debug, PartialEq, Eq)]
#[repr(u16)]
pub enum Refusal {
    /// Memory or tables of a wrong size.
    Size = 1,
    /// A state out of its ranges.
    State = 2,
    /// Raise of a level other than 10 to 13 and 15.
    Level = 3,
    /// Image contents short or over 32 entries.
    Contents = 4,
    /// Entry of unknown kind.
    Kind = 5,
    /// Entry beyond its target's size.
    Beyond = 6,
    /// Entry covering a word already named.
    Twice = 7,
    /// Bodies other than exactly the rest.
    Bodies = 8,
    /// View beyond its target's size.
    View = 9,
    /// Lent output too short.
    Short = 10,
    /// A character while the last one is unread.
    Unread = 11,
    /// Not zero, and a short form with exponent field 0 or a long one with the
    /// mantissa's top bit 0.
    Form = 15,
    /// Long exponent that the short form has not.
    Exponent = 16,
    /// Long mantissa with more bits than the short form has.
    Mantissa = 17,
}

impl Refusal {
    pub fn number(self) -> u16 {
        self as u16
    }
}

/// Why a run ended.
#[derive(Clone, Copy, Debug, PartialEq, Eq)]
pub enum Reason {
    Stopped,
    Level,
    Spent,
    Interrupt,
}

impl Reason {
    pub fn name(self) -> &'static str {
        match self {
            Reason::Stopped => "stopped",
            Reason::Level => "level",
            Reason::Spent => "spent",
            Reason::Interrupt => "interrupt",
        }
    }
}

/// How a run ended.
#[derive(Clone, Copy, Debug, PartialEq, Eq)]
pub struct Ran {
    /// Steps taken.
    pub steps: u64,
    pub reason: Reason,
    /// Memory references of all steps, modulo 2^64.
    pub references: u64,
}

/// What a device input is told.
#[derive(Clone, Copy, Debug, PartialEq, Eq)]
pub enum Told {
    /// A raise, a tick or a character that was taken.
    Done,
    Refused(Refusal),
    /// The character read out.
    Character(u8),
    /// No character waits to be read out.
    None,
}

impl Told {
    /// As one word: 0, the refusal's number, the character, or 256 for none.
    pub fn word(self) -> u16 {
        match self {
            Told::Done => 0,
            Told::Refused(refusal) => refusal.number(),
            Told::Character(character) => character.into(),
            Told::None => 256,
        }
    }
}
