//! Execution of the privileged instructions.

use crate::answer::Interrupt;
use crate::decode::{Instr, PhysicalOp, Reg, Transfer};
use crate::machine::Machine;
use crate::paging::{Place, Table};
use crate::state::{INTERNAL_BITS, PCR_BITS};

/// Register order of SRB and LRB.
const BLOCK: [Reg; 8] = [
    Reg::P,
    Reg::X,
    Reg::T,
    Reg::A,
    Reg::D,
    Reg::L,
    Reg::Sts,
    Reg::B,
];

impl Machine<'_> {
    /// Tests the ring, then executes. The fetch has lowered the ring already.
    #[cfg_attr(feature = "inlined", inline(always))]
    pub fn privileged(&mut self, instr: Instr) -> Result<(), Interrupt> {
        let level = usize::from(self.state.level & 15);
        if self.state.paging_on != 0 && self.state.pcr[level] & 3 < 2 {
            return Err(Interrupt::Privileged);
        }
        match instr {
            Instr::Transfer(transfer) => self.transfer(transfer),
            Instr::Iof => self.state.interrupts_on = 0,
            Instr::Ion => self.state.interrupts_on = 1,
            Instr::Pof => self.state.paging_on = 0,
            Instr::Pon => self.state.paging_on = 1,
            Instr::Piof => {
                self.state.interrupts_on = 0;
                self.state.paging_on = 0;
            }
            Instr::Pion => {
                self.state.interrupts_on = 1;
                self.state.paging_on = 1;
            }
            Instr::Sex => self.state.extended = 1,
            Instr::Rex => self.state.extended = 0,
            Instr::Wait => self.wait(),
            Instr::Irr { level, reg } => {
                let value = self.state.files[usize::from(level & 15)][reg as usize];
                self.set(Reg::A, value);
            }
            Instr::Irw { level, reg } => self.write_register(level, reg, self.get(Reg::A)),
            Instr::Srb { level } => {
                let file = self.state.files[usize::from(level & 15)];
                let words = BLOCK.map(|reg| file[reg as usize]);
                self.write_words(self.get(Reg::X), Table::Alternate, words)?;
            }
            Instr::Lrb { level } => {
                let words: [u16; 8] = self.read_words(self.get(Reg::X), Table::Alternate)?;
                for (reg, word) in BLOCK.into_iter().zip(words) {
                    self.write_register(level, reg, word);
                }
            }
            Instr::Exam => {
                let place = self.access_memory(self.long_address())?;
                let value = self.read(place);
                self.set(Reg::T, value);
            }
            Instr::Depo => {
                let place = self.access_memory(self.long_address())?;
                self.store(place, self.get(Reg::T));
            }
            Instr::Physical { op, disp } => self.physical_transfer(op, disp)?,
            Instr::Iox { device } => self.device_transfer(device)?,
            Instr::Ioxt => self.device_transfer(self.get(Reg::T))?,
            Instr::Ident { code } => {
                let code = self.state.identify(code).ok_or(Interrupt::NoDevice)?;
                self.set(Reg::A, code);
            }
            // `perform` hands over privileged instructions only.
            _ => return Err(Interrupt::Illegal),
        }
        Ok(())
    }

    /// Writes a register of a level. P of the running level is left, of STS
    /// bits 7-0 are taken.
    #[cfg_attr(feature = "inlined", inline(always))]
    fn write_register(&mut self, level: u16, reg: Reg, value: u16) {
        let value = match reg {
            Reg::P if level == self.state.level => return,
            Reg::Sts => value & 0o377,
            _ => value,
        };
        self.state.files[usize::from(level & 15)][reg as usize] = value;
    }

    /// Address of EXAM and DEPO.
    #[cfg_attr(feature = "inlined", inline(always))]
    fn long_address(&self) -> u64 {
        u64::from(self.get(Reg::A)) << 16 | u64::from(self.get(Reg::D))
    }

    /// LDATX and the six like it: all words are tested before the first takes
    /// effect.
    #[cfg_attr(feature = "inlined", inline(always))]
    fn physical_transfer(&mut self, op: PhysicalOp, disp: u16) -> Result<(), Interrupt> {
        let (a, d) = (self.get(Reg::A), self.get(Reg::D));
        match op {
            PhysicalOp::Ldatx => {
                let [word] = self.physical_words(disp)?;
                self.set(Reg::A, word);
            }
            PhysicalOp::Ldxtx => {
                let [word] = self.physical_words(disp)?;
                self.set(Reg::X, word);
            }
            PhysicalOp::Lddtx => {
                let [first, second] = self.physical_words(disp)?;
                self.set(Reg::A, first);
                self.set(Reg::D, second);
            }
            PhysicalOp::Ldbtx => {
                let [word] = self.physical_words(disp)?;
                self.set(Reg::B, 0o177000 | word << 1);
            }
            PhysicalOp::Statx => self.store_physical(disp, [a])?,
            PhysicalOp::Stztx => self.store_physical(disp, [0])?,
            PhysicalOp::Stdtx => self.store_physical(disp, [a, d])?,
        }
        Ok(())
    }

    /// Places from T x 65,536 + X + displacement on; no carry is dropped.
    #[cfg_attr(feature = "inlined", inline(always))]
    fn physical_places<const N: usize>(&mut self, disp: u16) -> Result<[Place; N], Interrupt> {
        let bank = u64::from(self.get(Reg::T)) << 16;
        let first = bank + u64::from(self.get(Reg::X)) + u64::from(disp);
        let mut places = [Place::Memory(0); N];
        for (address, place) in (first..).zip(&mut places) {
            *place = self.access_memory_or_table(address)?;
        }
        Ok(places)
    }

    #[cfg_attr(feature = "inlined", inline(always))]
    fn physical_words<const N: usize>(&mut self, disp: u16) -> Result<[u16; N], Interrupt> {
        let places: [Place; N] = self.physical_places(disp)?;
        Ok(places.map(|place| self.read(place)))
    }

    #[cfg_attr(feature = "inlined", inline(always))]
    fn store_physical<const N: usize>(
        &mut self,
        disp: u16,
        words: [u16; N],
    ) -> Result<(), Interrupt> {
        let places: [Place; N] = self.physical_places(disp)?;
        for (place, word) in places.into_iter().zip(words) {
            self.store(place, word);
        }
        Ok(())
    }

    /// A device register, by its whole address: an even one is read into A, an odd
    /// one is given A.
    #[cfg_attr(feature = "inlined", inline(always))]
    fn device_transfer(&mut self, address: u16) -> Result<(), Interrupt> {
        let a = self.get(Reg::A);
        let answered = if address.is_multiple_of(2) {
            let word = self.state.read_register(address);
            word.map(|word| self.set(Reg::A, word))
        } else {
            self.state.write_register(address, a)
        };
        answered.ok_or(Interrupt::NoDevice)
    }

    #[cfg_attr(feature = "inlined", inline(always))]
    fn wait(&mut self) {
        if self.state.interrupts_on == 0 {
            self.state.stopped = 1;
        } else if self.state.level != 0 {
            self.state.pid &= !(1 << self.state.level);
        }
    }

    #[cfg_attr(feature = "inlined", inline(always))]
    fn transfer(&mut self, transfer: Transfer) {
        let a = self.get(Reg::A);
        let sts = self.get(Reg::Sts);
        let named = usize::from(a >> 3 & 15);
        let state = &mut *self.state;
        match transfer {
            Transfer::TraSts => {
                let word = state.interrupts_on << 15
                    | state.paging_on << 14
                    | state.extended << 13
                    | 1 << 12
                    | state.level << 8
                    | sts;
                self.set(Reg::A, word);
            }
            Transfer::TraPgs => {
                let status = state.read_pgs();
                self.set(Reg::A, status);
            }
            Transfer::TraPvl => self.set(Reg::A, 0o153602 + 0o10 * self.state.pvl),
            Transfer::TraIic => {
                let number = match state.iid {
                    0 => 0,
                    iid => 15 - iid.leading_zeros() as u16,
                };
                state.iid = 0;
                self.set(Reg::A, number);
            }
            Transfer::TraPid => self.set(Reg::A, self.state.pid),
            Transfer::TraPie => self.set(Reg::A, self.state.pie),
            Transfer::TraActl => self.set(Reg::A, 1 << self.state.level),
            Transfer::TraPgc => self.set(Reg::A, self.state.pcr[named]),
            Transfer::TrrSts => self.set(Reg::Sts, a & 0o377),
            Transfer::TrrPcr => state.pcr[named] = a & PCR_BITS,
            Transfer::TrrIie => state.iie = a & INTERNAL_BITS,
            Transfer::TrrPid => state.pid = a,
            Transfer::TrrPie => state.pie = a,
            Transfer::MclSts => self.set(Reg::Sts, sts & !a),
            Transfer::MclPid => state.pid &= !a,
            Transfer::MclPie => state.pie &= !a,
            Transfer::MstSts => self.set(Reg::Sts, sts | a & 0o377),
            Transfer::MstPid => state.pid |= a,
            Transfer::MstPie => state.pie |= a,
        }
    }
}
