//! The devices on the CPU board: the real-time clock and terminal 1, whose input
//! and output ask for interrupts of their own (card 1).

use crate::answer::Refusal;
use crate::state::State;

/// Words of both devices in an image.
pub const DEVICE_WORDS: usize = 12;

/// The clock and the terminal. As in the rest of the state the words are those
/// of an image, in range or not.
#[derive(Clone, Debug, Default, PartialEq, Eq)]
pub struct Devices {
    pub clock_enabled: u16,
    pub clock_ready: u16,
    pub clock_asks: u16,
    pub input_enabled: u16,
    /// 1 while the last character typed is unread: input is ready.
    pub input_unread: u16,
    pub input_asks: u16,
    /// The last character typed, read or not.
    pub input_character: u16,
    /// By how many bits characters of both channels are shorter than 8.
    pub length: u16,
    pub output_enabled: u16,
    /// 1 while the character sent waits to be read out: output is not ready.
    pub output_waits: u16,
    pub output_asks: u16,
    /// The character sent last, read out or not.
    pub output_character: u16,
}

/// The most that each of the devices' words may be, in image order: characters 255,
/// the length 3, the others 1.
pub const MOST_DEVICE_WORDS: [u16; DEVICE_WORDS] =
    [1, 1, 1, 1, 1, 1, CHARACTERS, LENGTHS, 1, 1, 1, CHARACTERS];

/// Names of the devices' words in image order, as a trace has them.
pub const DEVICE_NAMES: [&str; DEVICE_WORDS] = [
    "CLOCK-ENABLED",
    "CLOCK-READY",
    "CLOCK-ASKS",
    "INPUT-ENABLED",
    "INPUT-UNREAD",
    "INPUT-ASKS",
    "INPUT",
    "LENGTH",
    "OUTPUT-ENABLED",
    "OUTPUT-WAITS",
    "OUTPUT-ASKS",
    "OUTPUT",
];

/// Device register addresses. Even ones are read into A, odd ones are given A.
pub mod device {
    /// Reads 0.
    pub const CLOCK_DATA: u16 = 0o010;
    /// Clears the counter, which is the host's.
    pub const CLOCK_COUNTER: u16 = 0o011;
    pub const CLOCK_STATUS: u16 = 0o012;
    pub const CLOCK_CONTROL: u16 = 0o013;
    pub const INPUT_DATA: u16 = 0o300;
    /// No operation.
    pub const INPUT_RATE: u16 = 0o301;
    pub const INPUT_STATUS: u16 = 0o302;
    pub const INPUT_CONTROL: u16 = 0o303;
    /// Reads 0.
    pub const OUTPUT_TEST: u16 = 0o304;
    pub const OUTPUT_DATA: u16 = 0o305;
    pub const OUTPUT_STATUS: u16 = 0o306;
    pub const OUTPUT_CONTROL: u16 = 0o307;

    pub const ALL: [u16; 12] = [
        CLOCK_DATA,
        CLOCK_COUNTER,
        CLOCK_STATUS,
        CLOCK_CONTROL,
        INPUT_DATA,
        INPUT_RATE,
        INPUT_STATUS,
        INPUT_CONTROL,
        OUTPUT_TEST,
        OUTPUT_DATA,
        OUTPUT_STATUS,
        OUTPUT_CONTROL,
    ];
}

/// What asks for interrupts.
#[derive(Clone, Copy, Debug, PartialEq, Eq)]
enum Source {
    Clock,
    Input,
    Output,
}

impl Source {
    /// The level that it asks for.
    #[cfg_attr(feature = "inlined", inline(always))]
    fn level(self) -> u16 {
        match self {
            Source::Clock => 13,
            Source::Input => 12,
            Source::Output => 10,
        }
    }

    /// That of the level which IDENT's six bits name. Level 11, by 011, has none.
    #[cfg_attr(feature = "inlined", inline(always))]
    fn named(code: u16) -> Option<Source> {
        match code {
            0o04 => Some(Source::Output),
            0o22 => Some(Source::Input),
            0o43 => Some(Source::Clock),
            _ => None,
        }
    }
}

/// The identification code of the clock, and of terminal 1 on both its levels.
const IDENT_CODE: u16 = 1;

/// Bits of the control words: of all three, of the clock's, and bits 12-11 of the
/// input's.
const ENABLE: u16 = 1 << 0;
const CLEAR_READY: u16 = 1 << 13;
const LENGTH_AT: u16 = 11;
const LENGTHS: u16 = 3;
/// Bits of the longest character.
const CHARACTERS: u16 = 0o377;

/// A status word: bit 0 and bit 3.
#[cfg_attr(feature = "inlined", inline(always))]
fn status(enabled: u16, ready: u16) -> u16 {
    ready << 3 | enabled
}

impl Devices {
    pub fn to_words(&self) -> [u16; DEVICE_WORDS] {
        [
            self.clock_enabled,
            self.clock_ready,
            self.clock_asks,
            self.input_enabled,
            self.input_unread,
            self.input_asks,
            self.input_character,
            self.length,
            self.output_enabled,
            self.output_waits,
            self.output_asks,
            self.output_character,
        ]
    }

    pub(crate) fn from_words(words: &[u16]) -> Devices {
        Devices {
            clock_enabled: words[0],
            clock_ready: words[1],
            clock_asks: words[2],
            input_enabled: words[3],
            input_unread: words[4],
            input_asks: words[5],
            input_character: words[6],
            length: words[7],
            output_enabled: words[8],
            output_waits: words[9],
            output_asks: words[10],
            output_character: words[11],
        }
    }

    pub(crate) fn in_range(&self) -> bool {
        let mut words = self.to_words().into_iter().zip(MOST_DEVICE_WORDS);
        words.all(|(word, most)| word <= most)
    }

    /// A word's low bits, as many as a character has.
    #[cfg_attr(feature = "inlined", inline(always))]
    fn character(&self, word: u16) -> u16 {
        word & CHARACTERS >> self.length
    }

    #[cfg_attr(feature = "inlined", inline(always))]
    fn flip_flop(&mut self, source: Source) -> &mut u16 {
        match source {
            Source::Clock => &mut self.clock_asks,
            Source::Input => &mut self.input_asks,
            Source::Output => &mut self.output_asks,
        }
    }

    /// Whether a source is enabled and ready.
    #[cfg_attr(feature = "inlined", inline(always))]
    fn would_ask(&self, source: Source) -> bool {
        match source {
            Source::Clock => self.clock_enabled == 1 && self.clock_ready == 1,
            Source::Input => self.input_enabled == 1 && self.input_unread == 1,
            Source::Output => self.output_enabled == 1 && self.output_waits == 0,
        }
    }
}

impl State {
    /// Ready has occurred, or the control word was written: if the source is now
    /// enabled and ready it asks, though it may have asked already. IDENT alone
    /// makes its flip-flop 0.
    #[cfg_attr(feature = "inlined", inline(always))]
    fn ask(&mut self, source: Source) {
        if self.devices.would_ask(source) {
            *self.devices.flip_flop(source) = 1;
            self.pid |= 1 << source.level();
        }
    }

    /// IDENT: the code of the device that asks for the level named. None if
    /// there is none. PID stays.
    #[cfg_attr(feature = "inlined", inline(always))]
    pub(crate) fn identify(&mut self, code: u16) -> Option<u16> {
        let asks = self.devices.flip_flop(Source::named(code)?);
        if *asks == 0 {
            return None;
        }
        *asks = 0;
        Some(IDENT_CODE)
    }

    /// The word of an even register. None if no device has it.
    #[cfg_attr(feature = "inlined", inline(always))]
    pub(crate) fn read_register(&mut self, address: u16) -> Option<u16> {
        let devices = &mut self.devices;
        Some(match address {
            device::CLOCK_DATA | device::OUTPUT_TEST => 0,
            device::CLOCK_STATUS => status(devices.clock_enabled, devices.clock_ready),
            device::INPUT_DATA => {
                devices.input_unread = 0;
                devices.character(devices.input_character)
            }
            device::INPUT_STATUS => status(devices.input_enabled, devices.input_unread),
            device::OUTPUT_STATUS => status(devices.output_enabled, 1 - devices.output_waits),
            _ => return None,
        })
    }

    /// Gives A to an odd register. None if no device has it.
    #[cfg_attr(feature = "inlined", inline(always))]
    pub(crate) fn write_register(&mut self, address: u16, a: u16) -> Option<()> {
        let devices = &mut self.devices;
        match address {
            device::CLOCK_COUNTER | device::INPUT_RATE => {}
            device::CLOCK_CONTROL => {
                if a & CLEAR_READY != 0 {
                    devices.clock_ready = 0;
                }
                devices.clock_enabled = a & ENABLE;
                self.ask(Source::Clock);
            }
            device::INPUT_CONTROL => {
                devices.input_enabled = a & ENABLE;
                devices.length = a >> LENGTH_AT & LENGTHS;
                self.ask(Source::Input);
            }
            device::OUTPUT_DATA => {
                devices.output_character = devices.character(a);
                devices.output_waits = 1;
            }
            device::OUTPUT_CONTROL => {
                devices.output_enabled = a & ENABLE;
                self.ask(Source::Output);
            }
            _ => return None,
        }
        Some(())
    }

    /// The 20 ms are over.
    pub(crate) fn tick(&mut self) {
        self.devices.clock_ready = 1;
        self.ask(Source::Clock);
    }

    /// A character is typed. Refuses 11 while the last one is unread.
    pub(crate) fn type_character(&mut self, character: u8) -> Result<(), Refusal> {
        if self.devices.input_unread == 1 {
            return Err(Refusal::Unread);
        }
        self.devices.input_character = character.into();
        self.devices.input_unread = 1;
        self.ask(Source::Input);
        Ok(())
    }

    /// The character that waits, once.
    pub(crate) fn read_out(&mut self) -> Option<u8> {
        if self.devices.output_waits == 0 {
            return None;
        }
        self.devices.output_waits = 0;
        self.ask(Source::Output);
        Some(self.devices.output_character as u8)
    }
}
