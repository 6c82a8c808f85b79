//! One step, and runs.

use crate::answer::{Interrupt, Ran, Reason, Refusal};
use crate::decode::Reg;
use crate::machine::Machine;
use crate::paging::{Access, Table};
use crate::state::State;

impl Machine<'_> {
    /// One step; answers the interrupt it gave, if any.
    #[cfg_attr(feature = "inlined", inline(always))]
    fn step(&mut self) -> Option<Interrupt> {
        if self.state.stopped != 0 {
            return None;
        }
        if self.state.change_due() {
            self.state.pvl = self.state.level;
            self.state.level = self.state.highest_level();
            return None;
        }
        match self.instruction() {
            Ok(()) => None,
            Err(interrupt) => {
                self.state.interrupt(interrupt.number());
                Some(interrupt)
            }
        }
    }

    /// Goes on from `taken` steps to `steps`, if these are more: through, or to the
    /// first interrupt. Answers steps and references in all, and why it ended.
    pub fn run(&mut self, mut taken: u64, steps: u64, to_first_interrupt: bool) -> Ran {
        let reason = loop {
            if self.state.stopped != 0 {
                break Reason::Stopped;
            }
            if to_first_interrupt && self.state.change_due() {
                break Reason::Level;
            }
            if taken >= steps {
                break Reason::Spent;
            }
            let interrupt = self.step();
            taken += 1;
            if to_first_interrupt && interrupt.is_some() {
                break Reason::Interrupt;
            }
        };
        Ran {
            steps: taken,
            reason,
            references: self.references,
        }
    }

    /// Fetch and execute. A fetch that fails leaves P.
    #[cfg_attr(feature = "inlined", inline(always))]
    fn instruction(&mut self) -> Result<(), Interrupt> {
        let at = self.get(Reg::P);
        let place = self.access(at, Table::Normal, Access::Fetch)?;
        let word = self.read(place);
        self.set(Reg::P, at.wrapping_add(1));
        self.execute(word, at)
    }
}

/// One step of the machine. Refuses 1, 2.
pub fn step(
    state: &mut State,
    memory: &mut [u16],
    tables: &mut [u16],
) -> Result<Option<Interrupt>, Refusal> {
    Ok(Machine::new(state, memory, tables)?.step())
}

/// Runs at most `steps` steps: through, or to the first interrupt. Refuses 1, 2.
pub fn run(
    state: &mut State,
    memory: &mut [u16],
    tables: &mut [u16],
    steps: u64,
    to_first_interrupt: bool,
) -> Result<Ran, Refusal> {
    Ok(Machine::new(state, memory, tables)?.run(0, steps, to_first_interrupt))
}

/// The word the next step would fetch, for tracing: `None` if that step is no
/// fetch or the fetch fails. Changes nothing.
pub fn next_word(state: &State, memory: &mut [u16], tables: &[u16]) -> Option<u16> {
    let mut state = state.clone();
    let mut tables = tables.to_vec();
    if state.stopped != 0 || state.change_due() {
        return None;
    }
    let mut machine = Machine::new(&mut state, memory, &mut tables).ok()?;
    let place = machine.access(machine.get(Reg::P), Table::Normal, Access::Fetch);
    place.ok().map(|place| machine.read(place))
}
