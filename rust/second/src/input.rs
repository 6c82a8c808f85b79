//! Device input: what a host hands in between steps, and runs with a list of it.

use crate::answer::{Ran, Reason, Refusal, Told};
use crate::machine::{Machine, check_machine};
use crate::state::State;

/// What is handed in between two steps.
#[derive(Clone, Copy, Debug, PartialEq, Eq)]
pub enum Input {
    /// A device raises a level.
    Raise(u16),
    Tick,
    Typed(u8),
    ReadOut,
}

/// Inputs as one word: a tick, a read out, and the characters 0 to 255.
pub const TICK_WORD: u16 = 256;
pub const READ_OUT_WORD: u16 = 257;
pub const FIRST_TYPED_WORD: u16 = 512;
const LAST_TYPED_WORD: u16 = FIRST_TYPED_WORD + 255;

impl Input {
    /// The input that a word stands for: every word that is none of these is a
    /// raise of that number.
    pub fn from_word(word: u16) -> Input {
        match word {
            TICK_WORD => Input::Tick,
            READ_OUT_WORD => Input::ReadOut,
            FIRST_TYPED_WORD..=LAST_TYPED_WORD => Input::Typed((word - FIRST_TYPED_WORD) as u8),
            level => Input::Raise(level),
        }
    }
}

impl State {
    /// A device raises a level. Refuses 3.
    fn raise(&mut self, level: u16) -> Result<(), Refusal> {
        match level {
            10..=13 | 15 => {
                self.pid |= 1 << level;
                Ok(())
            }
            _ => Err(Refusal::Level),
        }
    }

    /// Takes an input. A refused one changes nothing.
    fn take(&mut self, input: Input) -> Told {
        let done = |answer: Result<(), Refusal>| answer.map_or_else(Told::Refused, |()| Told::Done);
        match input {
            Input::Raise(level) => done(self.raise(level)),
            Input::Tick => {
                self.tick();
                Told::Done
            }
            Input::Typed(character) => done(self.type_character(character)),
            Input::ReadOut => self.read_out().map_or(Told::None, Told::Character),
        }
    }
}

/// A device raises a level: its PID bit is set. Refuses 1, 2, 3.
pub fn raise(state: &mut State, memory: &[u16], tables: &[u16], level: u16) -> Result<(), Refusal> {
    check_machine(state, memory, tables)?;
    state.raise(level)
}

/// The clock's 20 ms are over. Refuses 1, 2.
pub fn tick(state: &mut State, memory: &[u16], tables: &[u16]) -> Result<(), Refusal> {
    check_machine(state, memory, tables)?;
    state.tick();
    Ok(())
}

/// A character is typed at the terminal. Refuses 1, 2, 11.
pub fn type_character(
    state: &mut State,
    memory: &[u16],
    tables: &[u16],
    character: u8,
) -> Result<(), Refusal> {
    check_machine(state, memory, tables)?;
    state.type_character(character)
}

/// The character that was sent last, once; none if none waits. Refuses 1, 2.
pub fn read_out(state: &mut State, memory: &[u16], tables: &[u16]) -> Result<Option<u8>, Refusal> {
    check_machine(state, memory, tables)?;
    Ok(state.read_out())
}

/// How a run with device input ended, and what each input that was handed in was
/// told.
#[derive(Clone, Debug, PartialEq, Eq)]
pub struct Session {
    pub steps: u64,
    pub reason: Reason,
    /// Memory references of all steps, modulo 2^64.
    pub references: u64,
    pub told: Vec<Told>,
}

impl Session {
    pub(crate) fn of(ran: Ran, told: Vec<Told>) -> Session {
        Session {
            steps: ran.steps,
            reason: ran.reason,
            references: ran.references,
            told,
        }
    }
}

/// Runs to the first interrupt, at most `steps` steps. Each input comes with the
/// number of steps after which it is handed in, at once if that is passed; one
/// that is to come after more than `steps` is left with all behind it. Refuses 1,
/// 2.
pub fn run_with_input(
    state: &mut State,
    memory: &mut [u16],
    tables: &mut [u16],
    steps: u64,
    inputs: &[(u64, Input)],
) -> Result<Session, Refusal> {
    let mut machine = Machine::new(state, memory, tables)?;
    let mut taken = 0;
    let mut told = Vec::new();
    for &(at, input) in inputs.iter().take_while(|(at, _)| *at <= steps) {
        let ran = machine.run(taken, at, true);
        if ran.reason != Reason::Spent {
            return Ok(Session::of(ran, told));
        }
        taken = ran.steps;
        told.push(machine.state.take(input));
    }
    Ok(Session::of(machine.run(taken, steps, true), told))
}
