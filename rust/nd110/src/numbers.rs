//! The numbers that a host and the library share. `tests/header.rs` holds them to include/nd110.h.

use std::error::Error;
use std::fmt;

/// The version of the interface.
pub const VERSION: usize = 6;

/// Words of a state in image order: 128 registers, 28 control words, then 12 words of the devices.
pub const STATE_WORDS: usize = 168;
/// Words of lent page tables: four tables of 64 entries, of one word each in 19-bit mode, which uses the first 256, of
/// two in extended mode.
pub const TABLE_WORDS: usize = 512;
/// Words of a page: lent memory is a whole number of pages.
pub const PAGE_WORDS: usize = 1024;
/// Most words of lent memory, in either mode.
pub const MEMORY_MOST: usize = 16_777_216;
/// Words of a written image beside memory.
pub const IMAGE_EXTRA: usize = 706;
/// Words of a short floating number, 32 bits: A, D.
pub const SHORT_WORDS: usize = 2;
/// Words of a long floating number, 48 bits: T, A, D.
pub const LONG_WORDS: usize = 3;

/// Why an operation refused. A refused call changes nothing.
#[derive(Clone, Copy, Debug, PartialEq, Eq)]
#[repr(u16)]
#[non_exhaustive]
pub enum Refusal {
    /// Memory or page tables of another size.
    Sizes = 1,
    /// A state out of its ranges.
    State = 2,
    /// Raise of a level other than 10 to 13 and 15.
    RaiseLevel = 3,
    /// Image contents short or over 32 entries.
    Contents = 4,
    /// Image entry of unknown kind.
    Kind = 5,
    /// Image entry beyond its target's size.
    Target = 6,
    /// Image entry that covers a word already named.
    Overlap = 7,
    /// Bodies other than exactly the rest of the image.
    Bodies = 8,
    /// View beyond its target's size.
    View = 9,
    /// Output too short for the image.
    Output = 10,
    /// A character typed while the last is unread.
    Unread = 11,
    /// A floating number that is not zero and has a short exponent field of 0, or a long mantissa whose top bit is 0.
    Malformed = 15,
    /// A long exponent field beyond 16,129 to 16,639.
    ExponentRange = 16,
    /// A long mantissa with any of its nine lowest bits set.
    Precision = 17,
    /// A call that is no operation: of what the types here leave, a view into too few words.
    BadCall = 255,
}

impl Refusal {
    /// Every refusal, numbers rising.
    pub const ALL: &[Refusal] = &[
        Refusal::Sizes,
        Refusal::State,
        Refusal::RaiseLevel,
        Refusal::Contents,
        Refusal::Kind,
        Refusal::Target,
        Refusal::Overlap,
        Refusal::Bodies,
        Refusal::View,
        Refusal::Output,
        Refusal::Unread,
        Refusal::Malformed,
        Refusal::ExponentRange,
        Refusal::Precision,
        Refusal::BadCall,
    ];

    /// The number of document 01 or 02, or 255.
    pub fn number(self) -> u16 {
        self as u16
    }
}

impl fmt::Display for Refusal {
    fn fmt(&self, f: &mut fmt::Formatter<'_>) -> fmt::Result {
        let why = match self {
            Refusal::Sizes => "memory or page tables of another size",
            Refusal::State => "a state out of its ranges",
            Refusal::RaiseLevel => "raise of a level other than 10 to 13 and 15",
            Refusal::Contents => "the image's contents are short or have over 32 entries",
            Refusal::Kind => "an image entry of unknown kind",
            Refusal::Target => "an image entry beyond its target's size",
            Refusal::Overlap => "an image entry that covers a word already named",
            Refusal::Bodies => "the image's bodies are not exactly the rest of it",
            Refusal::View => "a view beyond its target's size",
            Refusal::Output => "too few words of output for the image",
            Refusal::Unread => "a character typed while the last is unread",
            Refusal::Malformed => {
                "not zero, and a short exponent field or the top bit of a long mantissa is 0"
            }
            Refusal::ExponentRange => "a long exponent field beyond 16,129 to 16,639",
            Refusal::Precision => "a long mantissa with any of its nine lowest bits set",
            Refusal::BadCall => "a call that is no operation",
        };
        write!(f, "refused {}: {why}", self.number())
    }
}

impl Error for Refusal {}

/// Why a run ended.
#[derive(Clone, Copy, Debug, PartialEq, Eq)]
#[repr(u16)]
pub enum Reason {
    /// The machine is stopped.
    Stopped = 0,
    /// A change of level is due (to the first interrupt, and with input, only).
    Level = 1,
    /// As many steps as asked were taken.
    Spent = 2,
    /// The last step gave an interrupt (to the first interrupt, and with input, only).
    Interrupt = 3,
}

impl Reason {
    /// Every reason, numbers rising.
    pub const ALL: [Reason; 4] = [
        Reason::Stopped,
        Reason::Level,
        Reason::Spent,
        Reason::Interrupt,
    ];

    pub fn number(self) -> u16 {
        self as u16
    }
}

/// What a view is of, by the number of an image's kind.
#[derive(Clone, Copy, Debug, PartialEq, Eq)]
#[repr(u16)]
pub enum Target {
    Memory = 1,
    Tables = 4,
}

impl Target {
    pub fn number(self) -> u16 {
        self as u16
    }
}

/// A register of a level.
#[derive(Clone, Copy, Debug, PartialEq, Eq)]
pub enum Register {
    Sts,
    D,
    P,
    B,
    L,
    A,
    T,
    X,
}

/// A control word. The PCRs of the sixteen levels stand between `Pgs` and `PgsHeld`.
#[derive(Clone, Copy, Debug, PartialEq, Eq)]
pub enum Control {
    Level,
    InterruptsOn,
    PagingOn,
    Stopped,
    Pid,
    Pie,
    Pvl,
    Iid,
    Iie,
    Pgs,
    /// 1 from the paging fault (interrupt 2 or 3) that wrote PGS until TRA PGS is executed: PGS keeps that fault while
    /// this is 1. It is 0 or 1 whatever PGS is; a PGS that is held may be 0.
    PgsHeld = 26,
    /// The extended flag, 1 after SEX and 0 after REX: entries of two words, and a window at 177000 to 177777.
    Extended = 27,
}

/// The control word that is the PCR of level 0.
pub const PCR: usize = 10;

/// The state's word that is the first of the devices.
pub const FIRST_DEVICE: usize = 156;

/// A word of the devices: the real-time clock, the terminal's input and its output. Characters are 0 to 255, the length
/// is 0 to 3, the others are 0 or 1, in any combination.
#[derive(Clone, Copy, Debug, PartialEq, Eq)]
pub enum Device {
    /// Bit 0 of the control word that was written last; so are the other two.
    ClockEnabled,
    /// A tick has come since ready was cleared.
    ClockReady,
    /// The interrupt flip-flop, which IDENT alone clears; so are the other two.
    ClockAsks,
    InputEnabled,
    /// The character that was typed last is unread.
    InputUnread,
    InputAsks,
    /// The character that was typed last, read or not.
    InputCharacter,
    /// Bits 12-11 of the input's control word: characters have 8 less so many bits.
    InputLength,
    OutputEnabled,
    /// The character that was sent last is not read out yet; output is ready while this is 0.
    OutputWaits,
    OutputAsks,
    /// The character that was sent last, read out or not.
    OutputCharacter,
}

impl Device {
    /// Every word, in image order.
    pub const ALL: [Device; 12] = [
        Device::ClockEnabled,
        Device::ClockReady,
        Device::ClockAsks,
        Device::InputEnabled,
        Device::InputUnread,
        Device::InputAsks,
        Device::InputCharacter,
        Device::InputLength,
        Device::OutputEnabled,
        Device::OutputWaits,
        Device::OutputAsks,
        Device::OutputCharacter,
    ];
}

// An input of a run as a word; below 256 it is the level to raise.

/// The input that is a tick.
pub const TICK: u16 = 256;
/// The input that is a read out.
pub const READ_OUT: u16 = 257;
/// The input that is the typed character 0.
pub const TYPED: u16 = 512;
/// What a read out tells where no character waits.
pub const NO_CHARACTER: u16 = 256;
