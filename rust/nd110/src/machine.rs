//! A machine that owns its words.

use crate::{
    Control, Device, IMAGE_EXTRA, Input, InputRun, MEMORY_MOST, PAGE_WORDS, Ran, Refusal, Register,
    State, TABLE_WORDS, Target,
};
use std::fmt;

/// A machine with its state, memory and page tables. Its sizes are in range from the start and stay so: no method
/// refuses 1.
///
/// The host may store any word between calls, by `state_mut`, `memory_mut` and `tables_mut`. A state out of range is
/// refused, not executed.
#[derive(Clone, PartialEq, Eq)]
pub struct Machine {
    state: State,
    memory: Vec<u16>,
    tables: [u16; TABLE_WORDS],
}

impl Machine {
    /// Every word 0, with so many pages of memory: 1 to 16,384, others are refused 1.
    pub fn new(pages: usize) -> Result<Machine, Refusal> {
        if !(1..=MEMORY_MOST / PAGE_WORDS).contains(&pages) {
            return Err(Refusal::Sizes);
        }
        Ok(Machine {
            state: State::new(),
            memory: vec![0; pages * PAGE_WORDS],
            tables: [0; TABLE_WORDS],
        })
    }

    /// The machine of an image, with so many pages of memory. Refuses 1, 4 to 8, 2.
    pub fn load(image: &[u16], pages: usize) -> Result<Machine, Refusal> {
        let mut machine = Machine::new(pages)?;
        machine.state = crate::load(image, &mut machine.memory, &mut machine.tables)?;
        Ok(machine)
    }

    /// One step; answers the number of the interrupt that it gave, 0 if none. Refuses 2.
    // By nd110_step, which works on the caller's words where they are: the quickest call of one step.
    pub fn step(&mut self) -> Result<u16, Refusal> {
        crate::step(&mut self.state, &mut self.memory, &mut self.tables)
    }

    /// A device raises a level. Refuses 2, 3.
    pub fn raise(&mut self, level: u16) -> Result<(), Refusal> {
        crate::raise(&mut self.state, level, &self.memory, &self.tables)
    }

    /// At most `steps` steps, interrupts and changes of level included. Refuses 2.
    pub fn run(&mut self, steps: u64) -> Result<Ran, Refusal> {
        crate::run(&mut self.state, &mut self.memory, &mut self.tables, steps)
    }

    /// At most `steps` steps, up to the first that gives an interrupt, or before a change of level. Refuses 2.
    pub fn run_to_interrupt(&mut self, steps: u64) -> Result<Ran, Refusal> {
        crate::run_to_interrupt(&mut self.state, &mut self.memory, &mut self.tables, steps)
    }

    /// The real-time clock's pulse, every 20 ms. One that comes before the last was served is not counted, but asks
    /// again if the clock is enabled. Refuses 2.
    pub fn tick(&mut self) -> Result<(), Refusal> {
        crate::tick(&mut self.state, &self.memory, &self.tables)
    }

    /// A character typed at the terminal. Refuses 2, 11.
    pub fn type_character(&mut self, character: u8) -> Result<(), Refusal> {
        crate::type_character(&mut self.state, character, &self.memory, &self.tables)
    }

    /// The character that was sent last, once; `None` if none waits. Refuses 2.
    pub fn read_out(&mut self) -> Result<Option<u8>, Refusal> {
        crate::read_out(&mut self.state, &self.memory, &self.tables)
    }

    /// At most `steps` steps, up to the first that gives an interrupt, or before a change of level, with device input.
    /// Refuses 2.
    pub fn run_with_input(
        &mut self,
        steps: u64,
        inputs: &[(u64, Input)],
    ) -> Result<InputRun, Refusal> {
        let Machine {
            state,
            memory,
            tables,
        } = self;
        crate::run_with_input(state, memory, tables, steps, inputs)
    }

    /// A part of memory or page tables, lent and not copied. Refuses 9.
    pub fn view(&self, target: Target, start: usize, len: usize) -> Result<&[u16], Refusal> {
        crate::view(target, start, len, &self.memory, &self.tables)
    }

    /// The machine as an image, which `load` takes. Refuses 2.
    pub fn write(&self) -> Result<Vec<u16>, Refusal> {
        let mut image = vec![0; self.memory.len() + IMAGE_EXTRA];
        crate::write(&self.state, &self.memory, &self.tables, &mut image)?;
        Ok(image)
    }

    /// The state's words.
    pub fn state(&self) -> &State {
        &self.state
    }

    /// The state's words, to be stored to.
    pub fn state_mut(&mut self) -> &mut State {
        &mut self.state
    }

    /// Memory, 1,024 words a page.
    pub fn memory(&self) -> &[u16] {
        &self.memory
    }

    /// Memory, to be stored to: a DMA transfer is such a store.
    pub fn memory_mut(&mut self) -> &mut [u16] {
        &mut self.memory
    }

    /// The four page tables of 64 entries. In 19-bit mode the entry of virtual page v in table t is word 64 * t + v, in
    /// extended mode the words 2 * (64 * t + v) and the one behind it.
    pub fn tables(&self) -> &[u16; TABLE_WORDS] {
        &self.tables
    }

    /// The page tables, to be stored to.
    pub fn tables_mut(&mut self) -> &mut [u16; TABLE_WORDS] {
        &mut self.tables
    }

    /// A register of a level.
    ///
    /// # Panics
    /// If `level` is above 15.
    pub fn register(&self, level: usize, register: Register) -> u16 {
        self.state.register(level, register)
    }

    /// A control word.
    pub fn control(&self, word: Control) -> u16 {
        self.state.control(word)
    }

    /// The PCR of a level.
    ///
    /// # Panics
    /// If `level` is above 15.
    pub fn pcr(&self, level: usize) -> u16 {
        self.state.pcr(level)
    }

    /// A word of the devices.
    pub fn device(&self, word: Device) -> u16 {
        self.state.device(word)
    }
}

/// Where it stands, not its words.
impl fmt::Debug for Machine {
    fn fmt(&self, f: &mut fmt::Formatter<'_>) -> fmt::Result {
        let level = usize::from(self.control(Control::Level));
        let mut short = f.debug_struct("Machine");
        short.field("pages", &(self.memory.len() / PAGE_WORDS));
        short.field("level", &level);
        if level < 16 {
            let p = self.register(level, Register::P);
            short.field("p", &format_args!("{p:06o}"));
        }
        short.field("stopped", &self.control(Control::Stopped));
        short.finish_non_exhaustive()
    }
}
