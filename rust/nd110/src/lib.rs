//! The proved ND-110 engine for a Rust host: every operation of document 01 over lent words, and document 02's console
//! and clock and its conversions between the two floating forms.
//!
//! Each function calls the static library's function of the same name. What the library cannot see for itself, slices
//! and references of Rust ensure: they are not null, as long as they say, and do not overlap. So no call here is
//! unsafe.
//!
//! The functions take the machine in its three pieces, for a host that keeps them where it must. A [`Machine`] owns
//! them; its methods are the same operations. `examples/host.rs` shows its use.
//!
//! ```
//! use nd110::{Machine, Ran, Reason, Register};
//!
//! // SAA 5, AAA 3, WAIT: one entry, memory from 0 on, three words
//! let image = [1, 1, 0, 0, 0, 3, 0o170405, 0o172403, 0o151000];
//! let mut machine = Machine::load(&image, 16)?;
//! assert_eq!(machine.step()?, 0);
//! let (steps, reason, references) = (2, Reason::Stopped, 2);
//! assert_eq!(machine.run(1000)?, Ran { steps, reason, references });
//! assert_eq!(machine.register(0, Register::A), 0o10);
//! # Ok::<(), nd110::Refusal>(())
//! ```

mod input;
#[allow(unsafe_code)]
mod library;
mod machine;
mod numbers;

pub use input::{Input, InputRun, Told, run_with_input};
pub use machine::Machine;
pub use numbers::{
    Control, Device, IMAGE_EXTRA, LONG_WORDS, MEMORY_MOST, PAGE_WORDS, Reason, Refusal, Register,
    SHORT_WORDS, STATE_WORDS, TABLE_WORDS, Target, VERSION,
};

/// A state as words in image order: register n of a level is word 8 * level + n, control word n is word 128 + n, device
/// word n is word 156 + n. It is these words alone, so it is also the record that `step_lent` and `raise_lent` take.
#[derive(Clone, Copy, Debug, PartialEq, Eq)]
#[repr(transparent)]
pub struct State(pub [u16; STATE_WORDS]);

impl State {
    /// Every word 0: level 0, interrupts and paging off, not stopped, no paging fault held, 19-bit mode, devices cleared.
    pub fn new() -> State {
        State([0; STATE_WORDS])
    }

    /// A register of a level.
    ///
    /// # Panics
    /// If `level` is above 15.
    pub fn register(&self, level: usize, register: Register) -> u16 {
        assert!(level < 16, "no level {level}");
        self.0[8 * level + register as usize]
    }

    /// A control word.
    pub fn control(&self, word: Control) -> u16 {
        self.0[128 + word as usize]
    }

    /// The PCR of a level.
    ///
    /// # Panics
    /// If `level` is above 15.
    pub fn pcr(&self, level: usize) -> u16 {
        assert!(level < 16, "no level {level}");
        self.0[128 + numbers::PCR + level]
    }

    /// A word of the devices.
    pub fn device(&self, word: Device) -> u16 {
        self.0[numbers::FIRST_DEVICE + word as usize]
    }
}

impl Default for State {
    fn default() -> State {
        State::new()
    }
}

/// 0 is done. The library is proved to answer no number but that and those of `Refusal`.
fn answer(number: u16) -> Result<(), Refusal> {
    if number == 0 {
        return Ok(());
    }
    let refusal = Refusal::ALL.iter().find(|r| r.number() == number);
    Err(*refusal.expect("a refusal's number"))
}

/// A run.
#[derive(Clone, Copy, Debug, PartialEq, Eq)]
pub struct Ran {
    /// Steps taken.
    pub steps: u64,
    pub reason: Reason,
    /// Memory references of these steps, the sum's low 64 bits: words fetched, indirect words, operand words read and
    /// written, an access that fails included. No step makes more than nine.
    pub references: u64,
}

/// What a run told; the library is proved to give a reason's number.
fn ran(number: u16, ended: &library::Ended) -> Result<Ran, Refusal> {
    answer(number)?;
    Ok(Ran {
        steps: ended.steps,
        reason: Reason::ALL[usize::from(ended.reason)],
        references: ended.references,
    })
}

/// One step; answers the number of the interrupt that it gave, 0 if none. Refuses 1, 2.
pub fn step(state: &mut State, memory: &mut [u16], tables: &mut [u16]) -> Result<u16, Refusal> {
    let mut interrupt = 0;
    answer(library::step(&mut state.0, memory, tables, &mut interrupt))?;
    Ok(interrupt)
}

/// The same step by the library's nd110_step_lent, which copies the record out and back: `step` is quicker. Refuses 1,
/// 2.
pub fn step_lent(
    state: &mut State,
    memory: &mut [u16],
    tables: &mut [u16],
) -> Result<u16, Refusal> {
    let mut interrupt = 0;
    answer(library::step_lent(state, memory, tables, &mut interrupt))?;
    Ok(interrupt)
}

/// At most `steps` steps, interrupts and changes of level included. Refuses 1, 2.
pub fn run(
    state: &mut State,
    memory: &mut [u16],
    tables: &mut [u16],
    steps: u64,
) -> Result<Ran, Refusal> {
    let mut ended = library::Ended::default();
    let number = library::run(&mut state.0, memory, tables, steps, &mut ended);
    ran(number, &ended)
}

/// At most `steps` steps, up to the first that gives an interrupt, or before a change of level. Refuses 1, 2.
pub fn run_to_interrupt(
    state: &mut State,
    memory: &mut [u16],
    tables: &mut [u16],
    steps: u64,
) -> Result<Ran, Refusal> {
    let mut ended = library::Ended::default();
    let number = library::run_to_interrupt(&mut state.0, memory, tables, steps, &mut ended);
    ran(number, &ended)
}

/// A device raises a level. Refuses 1, 2, 3.
pub fn raise(state: &mut State, level: u16, memory: &[u16], tables: &[u16]) -> Result<(), Refusal> {
    answer(library::raise(&mut state.0, level, memory, tables))
}

/// The same raise by the library's nd110_raise_lent. Refuses 1, 2, 3.
pub fn raise_lent(
    state: &mut State,
    level: u16,
    memory: &[u16],
    tables: &[u16],
) -> Result<(), Refusal> {
    answer(library::raise_lent(state, level, memory, tables))
}

/// The real-time clock's pulse. A tick that comes before the last was served is not counted, but asks again if the clock
/// is enabled. Refuses 1, 2.
pub fn tick(state: &mut State, memory: &[u16], tables: &[u16]) -> Result<(), Refusal> {
    answer(library::tick(&mut state.0, memory, tables))
}

/// A character typed at the terminal. Refuses 1, 2, 11.
pub fn type_character(
    state: &mut State,
    character: u8,
    memory: &[u16],
    tables: &[u16],
) -> Result<(), Refusal> {
    answer(library::type_character(
        &mut state.0,
        character,
        memory,
        tables,
    ))
}

/// The character that was sent last, once; `None` if none waits, and then nothing changes. Refuses 1, 2.
pub fn read_out(state: &mut State, memory: &[u16], tables: &[u16]) -> Result<Option<u8>, Refusal> {
    let mut character = 0;
    answer(library::read_out(
        &mut state.0,
        memory,
        tables,
        &mut character,
    ))?;
    Ok(input::character(character))
}

/// The words of an image file, which has the high byte first. An odd count of bytes is refused 8.
pub fn image_words(bytes: &[u8]) -> Result<Vec<u16>, Refusal> {
    let (pairs, rest) = bytes.as_chunks();
    if !rest.is_empty() {
        return Err(Refusal::Bodies);
    }
    Ok(pairs.iter().map(|pair| u16::from_be_bytes(*pair)).collect())
}

/// The machine of an image. Refuses 1, 4 to 8, 2.
pub fn load(image: &[u16], memory: &mut [u16], tables: &mut [u16]) -> Result<State, Refusal> {
    let mut state = State::new();
    answer(library::load(&mut state.0, image, memory, tables))?;
    Ok(state)
}

/// The machine as an image of memory + 706 words; words of `out` past it stay. Refuses 1, 2, 10.
pub fn write(
    state: &State,
    memory: &[u16],
    tables: &[u16],
    out: &mut [u16],
) -> Result<(), Refusal> {
    answer(library::write(&state.0, memory, tables, out))
}

/// A part of the lent memory or page tables. Refuses 1, 9.
pub fn view<'a>(
    target: Target,
    start: usize,
    len: usize,
    memory: &'a [u16],
    tables: &'a [u16],
) -> Result<&'a [u16], Refusal> {
    answer(library::view_answer(
        target.number(),
        start,
        len,
        memory,
        tables,
    ))?;
    let words = match target {
        Target::Memory => memory,
        Target::Tables => tables,
    };
    Ok(&words[start..start + len])
}

/// The same part, copied to the front of `out`; words of `out` past it stay. Refuses 255 (`out` is shorter than
/// `len`), 1, 9.
pub fn view_into(
    target: Target,
    start: usize,
    len: usize,
    memory: &[u16],
    tables: &[u16],
    out: &mut [u16],
) -> Result<(), Refusal> {
    answer(library::view(
        target.number(),
        start,
        len,
        memory,
        tables,
        out,
    ))
}

/// A short floating number of document 002, words A and D, as the long one of the same value, words T, A and D. Refuses
/// 15.
///
/// ```
/// let three = nd110::short_to_long([0o040240, 0])?;
/// assert_eq!(three, [0o040002, 0o140000, 0]);
/// assert_eq!(nd110::long_to_short(three), Ok([0o040240, 0]));
/// # Ok::<(), nd110::Refusal>(())
/// ```
pub fn short_to_long(short: [u16; SHORT_WORDS]) -> Result<[u16; LONG_WORDS], Refusal> {
    let [a, d] = short;
    let mut long = [0; LONG_WORDS];
    answer(library::short_to_long(a, d, &mut long))?;
    Ok(long)
}

/// A long floating number, words T, A and D, as the short one of exactly the same value, words A and D. Refuses 15, 16,
/// 17.
pub fn long_to_short(long: [u16; LONG_WORDS]) -> Result<[u16; SHORT_WORDS], Refusal> {
    let [t, a, d] = long;
    let mut short = [0; SHORT_WORDS];
    answer(library::long_to_short(t, a, d, &mut short))?;
    Ok(short)
}
