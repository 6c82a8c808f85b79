//! A run with device input: what is handed in between its steps, and what each input was told.

use crate::library::{self, Ended, Inputs};
use crate::numbers::{NO_CHARACTER, READ_OUT, TICK, TYPED};
use crate::{Ran, Reason, Refusal, State, answer, ran};

/// What is handed in between two steps.
#[derive(Clone, Copy, Debug, PartialEq, Eq)]
pub enum Input {
    /// A device raises a level; refused 3 but for 10 to 13 and 15.
    Raise(u16),
    /// The real-time clock's pulse.
    Tick,
    /// A character typed at the terminal; refused 11 while the last is unread.
    Typed(u8),
    /// The character that was sent last is read out.
    ReadOut,
}

impl Input {
    /// The library's word for it. There a word from 256 on may be another input, so every level above 255 is handed over
    /// as 255, which is refused in the same way.
    fn word(self) -> u16 {
        match self {
            Input::Raise(level) => level.min(255),
            Input::Tick => TICK,
            Input::Typed(character) => TYPED + u16::from(character),
            Input::ReadOut => READ_OUT,
        }
    }

    /// What the library's word for its answer tells of it.
    fn told(self, word: u16) -> Told {
        match self {
            Input::ReadOut => character(word).map_or(Told::None, Told::Character),
            _ => answer(word).map_or_else(Told::Refused, |()| Told::Done),
        }
    }
}

/// What an input was told.
#[derive(Clone, Copy, Debug, PartialEq, Eq)]
pub enum Told {
    /// A raise, a tick or a character: it was taken.
    Done,
    /// It was refused, and changed nothing.
    Refused(Refusal),
    /// Of a read out: this character.
    Character(u8),
    /// Of a read out: no character waits.
    None,
}

/// A run with device input.
#[derive(Clone, Debug, PartialEq, Eq)]
pub struct InputRun {
    pub steps: u64,
    pub reason: Reason,
    /// Memory references of these steps, as a [`Ran`] has them; no input makes any.
    pub references: u64,
    /// What each input that was handed in was told, in their order.
    pub told: Vec<Told>,
}

/// A character as a word, `NO_CHARACTER` for none.
pub(crate) fn character(word: u16) -> Option<u8> {
    debug_assert!(word <= NO_CHARACTER);
    u8::try_from(word).ok()
}

/// At most `steps` steps, up to the first that gives an interrupt, or before a change of level, with device input: each
/// input after so many steps, or at once if these have passed, in the order of the list. An input for a step beyond
/// `steps` is not handed in, nor is any behind it, and a run that has ended takes no further one. An input that is
/// refused changes nothing and does not end the run. Refuses 1, 2.
///
/// ```
/// use nd110::{Input, InputRun, Machine, Reason, Told};
///
/// // IOX 300, IOX 305, WAIT: the character typed last is sent
/// let image = [1, 1, 0, 0, 0, 3, 0o164300, 0o164305, 0o151000];
/// let mut machine = Machine::load(&image, 16)?;
/// let inputs = [(0, Input::Typed(b'A')), (2, Input::ReadOut)];
/// let ran = machine.run_with_input(2, &inputs)?;
/// let (steps, reason, references) = (2, Reason::Spent, 2);
/// let told = vec![Told::Done, Told::Character(b'A')];
/// assert_eq!(ran, InputRun { steps, reason, references, told });
/// # Ok::<(), nd110::Refusal>(())
/// ```
pub fn run_with_input(
    state: &mut State,
    memory: &mut [u16],
    tables: &mut [u16],
    steps: u64,
    inputs: &[(u64, Input)],
) -> Result<InputRun, Refusal> {
    let (at, what): (Vec<u64>, Vec<u16>) =
        inputs.iter().map(|(at, input)| (*at, input.word())).unzip();
    let mut told = vec![0; inputs.len()];
    let mut end = Ended::default();
    let lists = Inputs {
        at: &at,
        what: &what,
        told: &mut told,
    };
    let number = library::run_with_input(&mut state.0, memory, tables, steps, lists, &mut end);
    let Ran {
        steps,
        reason,
        references,
    } = ran(number, &end)?;
    // the library is proved to hand in no more than there are
    let handed = inputs.iter().zip(told).take(end.handed as usize);
    Ok(InputRun {
        steps,
        reason,
        references,
        told: handed.map(|((_, input), word)| input.told(word)).collect(),
    })
}

#[cfg(test)]
mod tests {
    use super::*;

    /// Every level is a word that no other input has, and that the library takes for a raise.
    #[test]
    fn a_raise_is_no_other_input() {
        for level in 0..=u16::MAX {
            let word = Input::Raise(level).word();
            assert!(word < 256, "{level}");
            assert_eq!(word, if level < 256 { level } else { 255 });
        }
        assert_eq!([Input::Tick, Input::ReadOut].map(Input::word), [256, 257]);
        let typed = [0, 1, 255].map(|character| Input::Typed(character).word());
        assert_eq!(typed, [512, 513, 767]);
    }
}
