//! Registers of the sixteen levels, the control words, and the devices' words.

use crate::decode::Reg;
use crate::devices::{DEVICE_WORDS, Devices};

/// Flags of STS.
pub mod flag {
    pub const PTM: u16 = 1 << 0;
    pub const TG: u16 = 1 << 1;
    pub const K: u16 = 1 << 2;
    pub const Z: u16 = 1 << 3;
    pub const Q: u16 = 1 << 4;
    pub const O: u16 = 1 << 5;
    pub const C: u16 = 1 << 6;
    pub const M: u16 = 1 << 7;
}

/// Control words by number, in image order.
pub mod control {
    pub const LEVEL: usize = 0;
    pub const INTERRUPTS_ON: usize = 1;
    pub const PAGING_ON: usize = 2;
    pub const STOPPED: usize = 3;
    pub const PID: usize = 4;
    pub const PIE: usize = 5;
    pub const PVL: usize = 6;
    pub const IID: usize = 7;
    pub const IIE: usize = 8;
    pub const PGS: usize = 9;
    /// PCR of level 0; those of the other levels follow.
    pub const PCR: usize = 10;
    pub const PGS_HELD: usize = PCR + 16;
    pub const EXTENDED: usize = PGS_HELD + 1;
    /// How many there are.
    pub const WORDS: usize = EXTENDED + 1;

    /// The name of a control word, as `PID` or `PCR(3)`.
    pub fn name(number: usize) -> String {
        let name = match number {
            LEVEL => "LEVEL",
            INTERRUPTS_ON => "ION",
            PAGING_ON => "PON",
            STOPPED => "STOPPED",
            PID => "PID",
            PIE => "PIE",
            PVL => "PVL",
            IID => "IID",
            IIE => "IIE",
            PGS => "PGS",
            PCR..PGS_HELD => return format!("PCR({})", number - PCR),
            PGS_HELD => "HELD",
            EXTENDED => "EXTENDED",
            _ => return format!("control word {number}"),
        };
        name.to_string()
    }
}

pub const REGISTER_WORDS: usize = 128;
pub const CONTROL_WORDS: usize = control::WORDS;
/// Where the devices' words begin in a state.
pub const FIRST_DEVICE: usize = REGISTER_WORDS + CONTROL_WORDS;
pub const STATE_WORDS: usize = FIRST_DEVICE + DEVICE_WORDS;

/// Bits in use: IID and IIE 1 to 10; PCR 0-1, 7-8, 9-10; PGS 15, 14, 7-0.
pub(crate) const INTERNAL_BITS: u16 = 0o003776;
pub(crate) const PCR_BITS: u16 = 0o003603;
pub(crate) const PGS_BITS: u16 = 0o140377;

/// The whole state. The words are kept as they stand in an image, so a state
/// out of range can be held; every operation refuses it.
#[derive(Clone, Debug, Default, PartialEq, Eq)]
pub struct State {
    /// Register files by level, each in the order STS D P B L A T X.
    pub files: [[u16; 8]; 16],
    pub level: u16,
    pub interrupts_on: u16,
    pub paging_on: u16,
    pub stopped: u16,
    pub pid: u16,
    pub pie: u16,
    pub pvl: u16,
    pub iid: u16,
    pub iie: u16,
    pub pgs: u16,
    pub pcr: [u16; 16],
    /// 1 while PGS holds a fault that no TRA PGS has read.
    pub pgs_held: u16,
    /// 1 in extended mode, with physical addresses of 24 bits; 0 in 19-bit mode.
    pub extended: u16,
    pub devices: Devices,
}

impl State {
    pub fn new() -> State {
        State::default()
    }

    /// All words: the registers, the control words and the devices' words, each
    /// in image order.
    pub fn to_words(&self) -> [u16; STATE_WORDS] {
        let mut words = [0; STATE_WORDS];
        let (files, rest) = words.split_at_mut(REGISTER_WORDS);
        let (control, devices) = rest.split_at_mut(CONTROL_WORDS);
        files.copy_from_slice(self.files.as_flattened());
        devices.copy_from_slice(&self.devices.to_words());
        control[control::LEVEL] = self.level;
        control[control::INTERRUPTS_ON] = self.interrupts_on;
        control[control::PAGING_ON] = self.paging_on;
        control[control::STOPPED] = self.stopped;
        control[control::PID] = self.pid;
        control[control::PIE] = self.pie;
        control[control::PVL] = self.pvl;
        control[control::IID] = self.iid;
        control[control::IIE] = self.iie;
        control[control::PGS] = self.pgs;
        control[control::PCR..][..16].copy_from_slice(&self.pcr);
        control[control::PGS_HELD] = self.pgs_held;
        control[control::EXTENDED] = self.extended;
        words
    }

    /// The state of words in this order, in range or not.
    pub fn from_words(words: &[u16; STATE_WORDS]) -> State {
        let mut state = State::new();
        let (files, rest) = words.split_at(REGISTER_WORDS);
        let (control, devices) = rest.split_at(CONTROL_WORDS);
        state.files.as_flattened_mut().copy_from_slice(files);
        state.devices = Devices::from_words(devices);
        state.level = control[control::LEVEL];
        state.interrupts_on = control[control::INTERRUPTS_ON];
        state.paging_on = control[control::PAGING_ON];
        state.stopped = control[control::STOPPED];
        state.pid = control[control::PID];
        state.pie = control[control::PIE];
        state.pvl = control[control::PVL];
        state.iid = control[control::IID];
        state.iie = control[control::IIE];
        state.pgs = control[control::PGS];
        state.pcr.copy_from_slice(&control[control::PCR..][..16]);
        state.pgs_held = control[control::PGS_HELD];
        state.extended = control[control::EXTENDED];
        state
    }

    /// Whether every word is in the range document 01 gives it.
    pub fn in_range(&self) -> bool {
        self.files.iter().all(|file| file[0] <= 0o377)
            && self.level < 16
            && self.interrupts_on <= 1
            && self.paging_on <= 1
            && self.stopped <= 1
            && self.pvl < 16
            && self.iid & !INTERNAL_BITS == 0
            && self.iie & !INTERNAL_BITS == 0
            && self.pgs & !PGS_BITS == 0
            && self.pcr.iter().all(|pcr| pcr & !PCR_BITS == 0)
            && self.pgs_held <= 1
            && self.extended <= 1
            && self.devices.in_range()
    }

    /// Register of the running level.
    #[cfg_attr(feature = "inlined", inline(always))]
    pub fn reg(&self, reg: Reg) -> u16 {
        self.files[usize::from(self.level & 15)][reg as usize]
    }

    #[cfg_attr(feature = "inlined", inline(always))]
    pub fn set_reg(&mut self, reg: Reg, value: u16) {
        self.files[usize::from(self.level & 15)][reg as usize] = value;
    }

    /// Highest level both pending and enabled, 0 if none.
    #[cfg_attr(feature = "inlined", inline(always))]
    pub(crate) fn highest_level(&self) -> u16 {
        match self.pid & self.pie {
            0 => 0,
            levels => 15 - levels.leading_zeros() as u16,
        }
    }

    /// Whether the next step is a change of level.
    #[cfg_attr(feature = "inlined", inline(always))]
    pub(crate) fn change_due(&self) -> bool {
        self.interrupts_on != 0 && self.highest_level() != self.level
    }

    /// A fault of interrupt 2 or 3 for PGS, which keeps the first one until it is read.
    #[cfg_attr(feature = "inlined", inline(always))]
    pub(crate) fn report_fault(&mut self, status: u16) {
        if self.pgs_held == 0 {
            self.pgs = status;
            self.pgs_held = 1;
        }
    }

    /// PGS as TRA PGS reads it: from now on it takes another fault.
    #[cfg_attr(feature = "inlined", inline(always))]
    pub(crate) fn read_pgs(&mut self) -> u16 {
        self.pgs_held = 0;
        self.pgs
    }

    /// Records an internal interrupt.
    #[cfg_attr(feature = "inlined", inline(always))]
    pub(crate) fn interrupt(&mut self, number: u16) {
        let bit = 1 << number;
        self.iid |= bit;
        if self.iie & bit != 0 {
            self.pid |= 1 << 14;
        }
    }
}
