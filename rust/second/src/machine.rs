//! A state together with the lent memory and page tables, for one operation.

use crate::answer::Refusal;
use crate::decode::Reg;
use crate::state::{State, flag};
use crate::{MAX_MEMORY, PAGE, TABLE_WORDS};

pub(crate) struct Machine<'a> {
    pub state: &'a mut State,
    pub memory: &'a mut [u16],
    pub tables: &'a mut [u16; TABLE_WORDS],
    /// Memory references made so far, modulo 2^64.
    pub references: u64,
}

/// Refusal 1: memory or tables of another size than document 01 gives.
pub(crate) fn check_sizes(memory: &[u16], tables: &[u16]) -> Result<(), Refusal> {
    let pages = memory.len().is_multiple_of(PAGE) && (PAGE..=MAX_MEMORY).contains(&memory.len());
    if pages && tables.len() == TABLE_WORDS {
        Ok(())
    } else {
        Err(Refusal::Size)
    }
}

/// Refusals 1 and 2.
pub(crate) fn check_machine(state: &State, memory: &[u16], tables: &[u16]) -> Result<(), Refusal> {
    check_sizes(memory, tables)?;
    if state.in_range() {
        Ok(())
    } else {
        Err(Refusal::State)
    }
}

impl<'a> Machine<'a> {
    /// Refuses 1 and 2.
    pub fn new(
        state: &'a mut State,
        memory: &'a mut [u16],
        tables: &'a mut [u16],
    ) -> Result<Machine<'a>, Refusal> {
        check_machine(state, memory, tables)?;
        let tables = tables.try_into().map_err(|_| Refusal::Size)?;
        Ok(Machine {
            state,
            memory,
            tables,
            references: 0,
        })
    }

    #[cfg_attr(feature = "inlined", inline(always))]
    pub fn get(&self, reg: Reg) -> u16 {
        self.state.reg(reg)
    }

    #[cfg_attr(feature = "inlined", inline(always))]
    pub fn set(&mut self, reg: Reg, value: u16) {
        self.state.set_reg(reg, value);
    }

    /// Register as an operand: number 0 is the value 0, not STS.
    #[cfg_attr(feature = "inlined", inline(always))]
    pub fn operand(&self, reg: Reg) -> u16 {
        match reg {
            Reg::Sts => 0,
            reg => self.get(reg),
        }
    }

    #[cfg_attr(feature = "inlined", inline(always))]
    pub fn flag(&self, flag: u16) -> bool {
        self.get(Reg::Sts) & flag != 0
    }

    #[cfg_attr(feature = "inlined", inline(always))]
    pub fn set_flag(&mut self, flag: u16, on: bool) {
        let sts = self.get(Reg::Sts);
        self.set(Reg::Sts, if on { sts | flag } else { sts & !flag });
    }

    /// O as given; Q is set with it and stays otherwise.
    #[cfg_attr(feature = "inlined", inline(always))]
    pub fn set_overflow(&mut self, overflow: bool) {
        self.set_flag(flag::O, overflow);
        if overflow {
            self.set_flag(flag::Q, true);
        }
    }

    /// P one further: the next instruction is skipped.
    #[cfg_attr(feature = "inlined", inline(always))]
    pub fn skip(&mut self) {
        let p = self.get(Reg::P);
        self.set(Reg::P, p.wrapping_add(1));
    }
}
