//! Page tests, marks, the page-table window and ring lowering.

use crate::answer::Interrupt;
use crate::decode::Reg;
use crate::machine::Machine;
use crate::state::flag;
use crate::{PAGE, TABLE_WORDS};

const WRITE: u16 = 1 << 15;
const READ: u16 = 1 << 14;
const FETCH: u16 = 1 << 13;
const WIP: u16 = 1 << 12;
const PGU: u16 = 1 << 11;
/// Physical page: bits 8-0 of an entry of one word, bits 13-0 of the second word
/// of an entry of two.
const SHORT_PAGE: u16 = 0o777;
const LONG_PAGE: u16 = 0o37777;
/// First address of the page-table window in 19-bit and in extended mode.
const SHORT_WINDOW: u16 = 0o177400;
const LONG_WINDOW: u16 = 0o177000;

const PGS_FETCH: u16 = 1 << 15;
const PGS_PERMIT: u16 = 1 << 14;

#[derive(Clone, Copy, Debug, PartialEq, Eq)]
pub(crate) enum Access {
    Fetch,
    Indirect,
    Read,
    Write,
}

/// Which of the two tables an address goes by; with PTM 0 both are the normal
/// one.
#[derive(Clone, Copy, Debug, PartialEq, Eq)]
pub(crate) enum Table {
    Normal,
    Alternate,
}

/// Where a passed access ends.
#[derive(Clone, Copy, Debug)]
pub(crate) enum Place {
    Memory(usize),
    Tables(usize),
}

/// A page table entry, of either form.
struct Entry {
    /// Its table word with permits, marks and ring.
    at: usize,
    word: u16,
    page: u16,
}

impl Machine<'_> {
    /// The entry of a slot, 64 x table + virtual page: one word in 19-bit mode,
    /// two in extended mode.
    #[cfg_attr(not(feature = "inlined"), inline)]
    #[cfg_attr(feature = "inlined", inline(always))]
    fn entry(&self, slot: u16) -> Entry {
        let extended = self.state.extended != 0;
        let words = if extended { 2 } else { 1 };
        let at = words * usize::from(slot) % TABLE_WORDS;
        let word = self.tables[at];
        let page = if extended {
            self.tables[(at + 1) % TABLE_WORDS] & LONG_PAGE
        } else {
            word & SHORT_PAGE
        };
        Entry { at, word, page }
    }

    /// First address of the page-table window.
    #[cfg_attr(not(feature = "inlined"), inline)]
    #[cfg_attr(feature = "inlined", inline(always))]
    fn window(&self) -> u16 {
        match self.state.extended {
            0 => SHORT_WINDOW,
            _ => LONG_WINDOW,
        }
    }

    /// Counts an access, whether it then passes or fails.
    #[inline(always)]
    fn count_reference(&mut self) {
        self.references = self.references.wrapping_add(1);
    }

    /// Counts, tests and marks one access. A failed one is reported to PGS (2 and 3
    /// only).
    #[inline(always)]
    pub fn access(
        &mut self,
        address: u16,
        table: Table,
        access: Access,
    ) -> Result<Place, Interrupt> {
        self.count_reference();
        let pcr = self.state.pcr[usize::from(self.state.level & 15)];
        let ring = pcr & 3;
        let paging = self.state.paging_on != 0;
        if !paging || ring == 3 {
            let window = self.window();
            if address >= window {
                return Ok(Place::Tables(usize::from(address - window)));
            }
        }
        if !paging {
            return self.physical(address.into());
        }

        let sts = self.state.files[usize::from(self.state.level & 15)][Reg::Sts as usize];
        let number = match table {
            Table::Alternate if sts & flag::PTM != 0 => pcr >> 7 & 3,
            _ => pcr >> 9 & 3,
        };
        let slot = number << 6 | address >> 10;
        let Entry { at, word, page } = self.entry(slot);

        let needed = match access {
            Access::Fetch => FETCH,
            Access::Indirect => READ | FETCH,
            Access::Read => READ,
            Access::Write => WRITE,
        };
        let status = match access {
            Access::Fetch => PGS_FETCH | slot,
            _ => slot,
        };
        if word & (WRITE | READ | FETCH) == 0 {
            self.state.report_fault(status | PGS_PERMIT);
            return Err(Interrupt::PageFault);
        }
        if word & needed == 0 {
            self.state.report_fault(status | PGS_PERMIT);
            return Err(Interrupt::Protect);
        }
        let entry_ring = word >> 9 & 3;
        if entry_ring > ring {
            self.state.report_fault(status);
            return Err(Interrupt::Protect);
        }
        let physical = usize::from(page) * PAGE + usize::from(address) % PAGE;
        if physical >= self.memory.len() {
            return Err(Interrupt::OutOfRange);
        }

        if access == Access::Fetch && entry_ring < ring {
            let pcr = &mut self.state.pcr[usize::from(self.state.level & 15)];
            *pcr = *pcr & !3 | entry_ring;
        }
        let marked = match access {
            Access::Write => word | PGU | WIP,
            _ => word | PGU,
        };
        if marked != word {
            self.tables[at] = marked;
        }
        Ok(Place::Memory(physical))
    }

    /// A physical address of memory, not counted.
    #[cfg_attr(feature = "inlined", inline(always))]
    pub fn physical(&self, address: u64) -> Result<Place, Interrupt> {
        if address < self.memory.len() as u64 {
            Ok(Place::Memory(address as usize))
        } else {
            Err(Interrupt::OutOfRange)
        }
    }

    /// Counts and tests one access by a physical address of memory.
    #[cfg_attr(feature = "inlined", inline(always))]
    pub fn access_memory(&mut self, address: u64) -> Result<Place, Interrupt> {
        self.count_reference();
        self.physical(address)
    }

    /// Counts and tests one access by a physical address of memory or, in the
    /// window, of the page tables: on every ring, paging on or off.
    #[cfg_attr(feature = "inlined", inline(always))]
    pub fn access_memory_or_table(&mut self, address: u64) -> Result<Place, Interrupt> {
        self.count_reference();
        let window = u64::from(self.window());
        if (window..=u64::from(u16::MAX)).contains(&address) {
            Ok(Place::Tables((address - window) as usize))
        } else {
            self.physical(address)
        }
    }

    #[cfg_attr(not(feature = "inlined"), inline)]
    #[cfg_attr(feature = "inlined", inline(always))]
    pub fn read(&self, place: Place) -> u16 {
        match place {
            Place::Memory(at) => self.memory[at],
            Place::Tables(at) => self.tables[at % TABLE_WORDS],
        }
    }

    #[cfg_attr(not(feature = "inlined"), inline)]
    #[cfg_attr(feature = "inlined", inline(always))]
    pub fn store(&mut self, place: Place, value: u16) {
        match place {
            Place::Memory(at) => self.memory[at] = value,
            Place::Tables(at) => self.tables[at % TABLE_WORDS] = value,
        }
    }

    /// An operand read: access and value.
    #[cfg_attr(not(feature = "inlined"), inline)]
    #[cfg_attr(feature = "inlined", inline(always))]
    pub fn load(&mut self, address: u16, table: Table) -> Result<u16, Interrupt> {
        let place = self.access(address, table, Access::Read)?;
        Ok(self.read(place))
    }
}
