//! Effective addresses of the eight modes.

use crate::answer::Interrupt;
use crate::decode::{Mode, Reg};
use crate::machine::Machine;
use crate::paging::{Access, Table};

impl Machine<'_> {
    /// Effective address and the table it goes by. `at` is the instruction's
    /// own address. Makes the access of the indirect word.
    #[cfg_attr(feature = "inlined", inline(always))]
    pub fn effective(&mut self, mode: Mode, disp: i16, at: u16) -> Result<(u16, Table), Interrupt> {
        let disp = disp as u16;
        let by_p = at.wrapping_add(disp);
        let by_b = self.get(Reg::B).wrapping_add(disp);
        let x = self.get(Reg::X);
        Ok(match mode {
            Mode::P => (by_p, Table::Normal),
            Mode::B => (by_b, Table::Alternate),
            Mode::PIndirect => (self.indirect(by_p, Table::Normal)?, Table::Alternate),
            Mode::BIndirect => (self.indirect(by_b, Table::Alternate)?, Table::Alternate),
            Mode::X => (x.wrapping_add(disp), Table::Alternate),
            Mode::BX => (by_b.wrapping_add(x), Table::Alternate),
            Mode::PIndirectX => {
                let base = self.indirect(by_p, Table::Normal)?;
                (base.wrapping_add(x), Table::Alternate)
            }
            Mode::BIndirectX => {
                let base = self.indirect(by_b, Table::Alternate)?;
                (base.wrapping_add(x), Table::Alternate)
            }
        })
    }

    #[cfg_attr(feature = "inlined", inline(always))]
    fn indirect(&mut self, address: u16, table: Table) -> Result<u16, Interrupt> {
        let place = self.access(address, table, Access::Indirect)?;
        Ok(self.read(place))
    }
}
