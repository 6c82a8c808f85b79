//! Execution of the instructions every ring may use.
//!
//! P is already one further than the instruction, so it reads as document 01
//! says of a register operand. All accesses are made before the first change.

use crate::answer::Interrupt;
use crate::arithmetic::{add, divide, multiply, multiply_long, shift};
use crate::decode::{
    AddOne, BitOp, Instr, JumpCond, Logic, MemOp, Mode, Reg, ShiftKind, ShiftReg, SkipCond, decode,
};
use crate::machine::Machine;
use crate::paging::{Access, Place, Table};
use crate::state::flag;

impl Machine<'_> {
    /// Executes what was fetched from `at`.
    #[cfg_attr(feature = "inlined", inline(always))]
    pub fn execute(&mut self, word: u16, at: u16) -> Result<(), Interrupt> {
        let instr = match decode(word) {
            Instr::Exr { src } => decode(self.operand(src)),
            instr => instr,
        };
        self.perform(instr, at)
    }

    #[cfg_attr(feature = "inlined", inline(always))]
    fn perform(&mut self, instr: Instr, at: u16) -> Result<(), Interrupt> {
        match instr {
            Instr::Memory { op, mode, disp } => return self.memory(op, mode, disp, at),
            Instr::Jump { cond, disp } => self.jump(cond, disp, at),
            Instr::Skip { cond, src, dst } => self.skip_if(cond, src, dst),
            Instr::Rmpy { src, dst } => self.rmpy(src, dst),
            Instr::Rdiv { src } => return self.rdiv(src),
            Instr::Lbyt => return self.lbyt(),
            Instr::Sbyt => return self.sbyt(),
            Instr::Mix3 => {
                let value = self.get(Reg::A).wrapping_sub(1).wrapping_mul(3);
                self.set(Reg::X, value);
            }
            Instr::Logic {
                op,
                cm1,
                cld,
                src,
                dst,
            } => self.logic(op, cm1, cld, src, dst),
            Instr::Radd {
                one,
                cm1,
                cld,
                src,
                dst,
            } => self.radd(one, cm1, cld, src, dst),
            Instr::Shift { reg, kind, count } => self.shift(reg, kind, count),
            Instr::SetArg { reg, value } => self.set(reg, value as u16),
            Instr::AddArg { reg, value } => {
                let sum = self.add_flags(self.get(reg), value as u16, false);
                self.set(reg, sum);
            }
            Instr::Bit { op, bit, reg } => self.bit(op, bit, reg),
            Instr::Mon { number } => {
                self.state.files[14][Reg::T as usize] = number as u16;
                return Err(Interrupt::MonitorCall);
            }
            // An EXR comes here only from another one.
            Instr::Illegal | Instr::Exr { .. } => return Err(Interrupt::Illegal),
            privileged => return self.privileged(privileged),
        }
        Ok(())
    }

    /// The adder, with C, O and Q.
    #[cfg_attr(feature = "inlined", inline(always))]
    fn add_flags(&mut self, a: u16, b: u16, carry: bool) -> u16 {
        let sum = add(a, b, carry);
        self.set_flag(flag::C, sum.carry);
        self.set_overflow(sum.overflow);
        sum.value
    }

    #[cfg_attr(feature = "inlined", inline(always))]
    fn memory(&mut self, op: MemOp, mode: Mode, disp: i16, at: u16) -> Result<(), Interrupt> {
        let (ea, table) = self.effective(mode, disp, at)?;
        match op {
            MemOp::Stz => self.write_words(ea, table, [0])?,
            MemOp::Sta => self.write_words(ea, table, [self.get(Reg::A)])?,
            MemOp::Stt => self.write_words(ea, table, [self.get(Reg::T)])?,
            MemOp::Stx => self.write_words(ea, table, [self.get(Reg::X)])?,
            MemOp::Std => {
                let words = [self.get(Reg::A), self.get(Reg::D)];
                self.write_words(ea, table, words)?;
            }
            MemOp::Stf => {
                let words = [self.get(Reg::T), self.get(Reg::A), self.get(Reg::D)];
                self.write_words(ea, table, words)?;
            }
            MemOp::Lda => {
                let value = self.load(ea, table)?;
                self.set(Reg::A, value);
            }
            MemOp::Ldt => {
                let value = self.load(ea, table)?;
                self.set(Reg::T, value);
            }
            MemOp::Ldx => {
                let value = self.load(ea, table)?;
                self.set(Reg::X, value);
            }
            MemOp::Ldd => {
                let [a, d] = self.read_words(ea, table)?;
                self.set(Reg::A, a);
                self.set(Reg::D, d);
            }
            MemOp::Ldf => {
                let [t, a, d] = self.read_words(ea, table)?;
                self.set(Reg::T, t);
                self.set(Reg::A, a);
                self.set(Reg::D, d);
            }
            MemOp::Min => {
                let value = self.load(ea, table)?.wrapping_add(1);
                self.write_words(ea, table, [value])?;
                if value == 0 {
                    self.skip();
                }
            }
            MemOp::Add => {
                let value = self.load(ea, table)?;
                let sum = self.add_flags(self.get(Reg::A), value, false);
                self.set(Reg::A, sum);
            }
            MemOp::Sub => {
                let value = self.load(ea, table)?;
                let sum = self.add_flags(self.get(Reg::A), !value, true);
                self.set(Reg::A, sum);
            }
            MemOp::And => {
                let value = self.load(ea, table)?;
                self.set(Reg::A, self.get(Reg::A) & value);
            }
            MemOp::Ora => {
                let value = self.load(ea, table)?;
                self.set(Reg::A, self.get(Reg::A) | value);
            }
            MemOp::Mpy => {
                let value = self.load(ea, table)?;
                let (product, overflow) = multiply(self.get(Reg::A), value);
                self.set(Reg::A, product);
                self.set_overflow(overflow);
            }
            MemOp::Jmp => self.set(Reg::P, ea),
            MemOp::Jpl => {
                self.set(Reg::L, self.get(Reg::P));
                self.set(Reg::P, ea);
            }
        }
        Ok(())
    }

    /// Reads words at ea, ea+1, .., each an access of its own.
    #[cfg_attr(feature = "inlined", inline(always))]
    pub fn read_words<const N: usize>(
        &mut self,
        ea: u16,
        table: Table,
    ) -> Result<[u16; N], Interrupt> {
        let mut words = [0; N];
        for (offset, word) in words.iter_mut().enumerate() {
            *word = self.load(ea.wrapping_add(offset as u16), table)?;
        }
        Ok(words)
    }

    /// Writes words at ea, ea+1, .., all tested before the first is stored.
    #[cfg_attr(feature = "inlined", inline(always))]
    pub fn write_words<const N: usize>(
        &mut self,
        ea: u16,
        table: Table,
        words: [u16; N],
    ) -> Result<(), Interrupt> {
        let mut places = [Place::Memory(0); N];
        for (offset, place) in places.iter_mut().enumerate() {
            *place = self.access(ea.wrapping_add(offset as u16), table, Access::Write)?;
        }
        for (place, word) in places.into_iter().zip(words) {
            self.store(place, word);
        }
        Ok(())
    }

    #[cfg_attr(feature = "inlined", inline(always))]
    fn jump(&mut self, cond: JumpCond, disp: i16, at: u16) {
        if matches!(cond, JumpCond::Jpc | JumpCond::Jnc) {
            self.set(Reg::X, self.get(Reg::X).wrapping_add(1));
        }
        let a = self.get(Reg::A) as i16;
        let x = self.get(Reg::X) as i16;
        let taken = match cond {
            JumpCond::Jap => a >= 0,
            JumpCond::Jan => a < 0,
            JumpCond::Jaz => a == 0,
            JumpCond::Jaf => a != 0,
            JumpCond::Jpc => x >= 0,
            JumpCond::Jnc | JumpCond::Jxn => x < 0,
            JumpCond::Jxz => x == 0,
        };
        if taken {
            self.set(Reg::P, at.wrapping_add(disp as u16));
        }
    }

    #[cfg_attr(feature = "inlined", inline(always))]
    fn skip_if(&mut self, cond: SkipCond, src: Reg, dst: Reg) {
        if dst == Reg::Sts {
            return;
        }
        let s = self.operand(src);
        let d = self.operand(dst);
        let negative = (d.wrapping_sub(s) as i16) < 0;
        let holds = match cond {
            SkipCond::Eql => d == s,
            SkipCond::Geq => !negative,
            SkipCond::Gre => d as i16 >= s as i16,
            SkipCond::Mgre => d >= s,
            SkipCond::Ueq => d != s,
            SkipCond::Lss => negative,
            SkipCond::Lst => (d as i16) < s as i16,
            SkipCond::Mlst => d < s,
        };
        if holds {
            self.skip();
        }
    }

    #[cfg_attr(feature = "inlined", inline(always))]
    fn rmpy(&mut self, src: Reg, dst: Reg) {
        if dst == Reg::Sts {
            return;
        }
        let (high, low) = multiply_long(self.operand(src), self.operand(dst));
        self.set(Reg::A, high);
        self.set(Reg::D, low);
    }

    #[cfg_attr(feature = "inlined", inline(always))]
    fn rdiv(&mut self, src: Reg) -> Result<(), Interrupt> {
        match divide(self.get(Reg::A), self.get(Reg::D), self.operand(src)) {
            Some((quotient, remainder)) => {
                self.set(Reg::A, quotient);
                self.set(Reg::D, remainder);
                Ok(())
            }
            None => {
                self.set_flag(flag::Z, true);
                Err(Interrupt::ErrorFlag)
            }
        }
    }

    /// Word of the byte that T and X name.
    #[cfg_attr(feature = "inlined", inline(always))]
    fn byte_address(&self) -> u16 {
        self.get(Reg::T).wrapping_add(self.get(Reg::X) >> 1)
    }

    #[cfg_attr(feature = "inlined", inline(always))]
    fn lbyt(&mut self) -> Result<(), Interrupt> {
        let word = self.load(self.byte_address(), Table::Alternate)?;
        let [upper, lower] = word.to_be_bytes();
        let byte = if self.get(Reg::X) & 1 == 0 {
            upper
        } else {
            lower
        };
        self.set(Reg::A, u16::from(byte));
        Ok(())
    }

    #[cfg_attr(feature = "inlined", inline(always))]
    fn sbyt(&mut self) -> Result<(), Interrupt> {
        let address = self.byte_address();
        let word = self.load(address, Table::Alternate)?;
        let byte = self.get(Reg::A) & 0xff;
        let word = if self.get(Reg::X) & 1 == 0 {
            byte << 8 | word & 0xff
        } else {
            word & 0xff00 | byte
        };
        self.write_words(address, Table::Alternate, [word])
    }

    #[cfg_attr(feature = "inlined", inline(always))]
    fn logic(&mut self, op: Logic, cm1: bool, cld: bool, src: Reg, dst: Reg) {
        if dst == Reg::Sts {
            return;
        }
        let s = self.operand(src);
        let s = if cm1 { !s } else { s };
        let d = if cld { 0 } else { self.operand(dst) };
        match op {
            Logic::Swap => {
                // Destination first: with one register for both, the source's
                // value stands.
                self.set(dst, s);
                if src != Reg::Sts {
                    self.set(src, d);
                }
            }
            Logic::Rand => self.set(dst, d & s),
            Logic::Rexo => self.set(dst, d ^ s),
            Logic::Rora => self.set(dst, d | s),
        }
    }

    #[cfg_attr(feature = "inlined", inline(always))]
    fn radd(&mut self, one: AddOne, cm1: bool, cld: bool, src: Reg, dst: Reg) {
        let carry = match one {
            AddOne::Nothing => false,
            AddOne::One => true,
            AddOne::Carry => self.flag(flag::C),
            AddOne::Both => return,
        };
        if dst == Reg::Sts {
            self.set_flag(flag::C, false);
            return;
        }
        let s = self.operand(src);
        let s = if cm1 { !s } else { s };
        let d = if cld { 0 } else { self.operand(dst) };
        let sum = self.add_flags(d, s, carry);
        self.set(dst, sum);
    }

    #[cfg_attr(feature = "inlined", inline(always))]
    fn shift(&mut self, reg: ShiftReg, kind: ShiftKind, count: i16) {
        if count == 0 {
            return;
        }
        let m = self.flag(flag::M);
        let single = match reg {
            ShiftReg::T => Reg::T,
            ShiftReg::D => Reg::D,
            ShiftReg::A => Reg::A,
            ShiftReg::AD => {
                let value = u32::from(self.get(Reg::A)) << 16 | u32::from(self.get(Reg::D));
                let (value, m) = shift(kind, value, 32, count, m);
                self.set(Reg::A, (value >> 16) as u16);
                self.set(Reg::D, value as u16);
                self.set_flag(flag::M, m);
                return;
            }
        };
        let (value, m) = shift(kind, u32::from(self.get(single)), 16, count, m);
        self.set(single, value as u16);
        self.set_flag(flag::M, m);
    }

    #[cfg_attr(feature = "inlined", inline(always))]
    fn bit(&mut self, op: BitOp, bit: u16, reg: Reg) {
        let mask = 1 << bit;
        let is = self.get(reg) & mask != 0;
        let k = self.flag(flag::K);
        match op {
            BitOp::SetZero => self.set_bit(reg, mask, false),
            BitOp::SetOne => self.set_bit(reg, mask, true),
            BitOp::SetComplement => self.set_bit(reg, mask, !is),
            BitOp::SetK => self.set_bit(reg, mask, k),
            BitOp::SkipZero if !is => self.skip(),
            BitOp::SkipOne if is => self.skip(),
            BitOp::SkipK if is == k => self.skip(),
            // A bit never equals its own complement.
            BitOp::SkipZero | BitOp::SkipOne | BitOp::SkipComplement | BitOp::SkipK => {}
            BitOp::StoreComplement => {
                self.set_bit(reg, mask, !k);
                self.set_flag(flag::K, true);
            }
            BitOp::Store => {
                self.set_bit(reg, mask, k);
                self.set_flag(flag::K, false);
            }
            BitOp::LoadComplement => self.set_flag(flag::K, !is),
            BitOp::Load => self.set_flag(flag::K, is),
            BitOp::AndComplement => self.set_flag(flag::K, !is && k),
            BitOp::And => self.set_flag(flag::K, is && k),
            BitOp::OrComplement => self.set_flag(flag::K, !is || k),
            BitOp::Or => self.set_flag(flag::K, is || k),
        }
    }

    /// Sets one bit of a register; bits 8 to 15 of STS are never written.
    #[cfg_attr(feature = "inlined", inline(always))]
    fn set_bit(&mut self, reg: Reg, mask: u16, on: bool) {
        if reg == Reg::Sts && mask > 0o200 {
            return;
        }
        let value = self.get(reg);
        self.set(reg, if on { value | mask } else { value & !mask });
    }
}
