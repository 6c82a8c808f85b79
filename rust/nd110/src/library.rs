//! The static library's functions: the one declaration of them, and a safe call of each. A slice goes as place and
//! length, a state that is lent as the place of its record. `tests/header.rs` holds the declaration to include/nd110.h.

use crate::State;

mod raw {
    use super::State;

    unsafe extern "C" {
        pub fn nd110_step(
            state: *mut u16,
            state_len: usize,
            memory: *mut u16,
            memory_len: usize,
            tables: *mut u16,
            tables_len: usize,
            interrupt: *mut u16,
        ) -> u16;
        pub fn nd110_step_lent(
            state: *mut State,
            memory: *mut u16,
            memory_len: usize,
            tables: *mut u16,
            tables_len: usize,
            interrupt: *mut u16,
        ) -> u16;
        pub fn nd110_run(
            state: *mut u16,
            state_len: usize,
            memory: *mut u16,
            memory_len: usize,
            tables: *mut u16,
            tables_len: usize,
            n: u64,
            steps: *mut u64,
            reason: *mut u16,
            references: *mut u64,
        ) -> u16;
        pub fn nd110_run_to_interrupt(
            state: *mut u16,
            state_len: usize,
            memory: *mut u16,
            memory_len: usize,
            tables: *mut u16,
            tables_len: usize,
            n: u64,
            steps: *mut u64,
            reason: *mut u16,
            references: *mut u64,
        ) -> u16;
        pub fn nd110_raise(
            state: *mut u16,
            state_len: usize,
            level: u16,
            memory: *const u16,
            memory_len: usize,
            tables: *const u16,
            tables_len: usize,
        ) -> u16;
        pub fn nd110_raise_lent(
            state: *mut State,
            level: u16,
            memory: *const u16,
            memory_len: usize,
            tables: *const u16,
            tables_len: usize,
        ) -> u16;
        pub fn nd110_tick(
            state: *mut u16,
            state_len: usize,
            memory: *const u16,
            memory_len: usize,
            tables: *const u16,
            tables_len: usize,
        ) -> u16;
        pub fn nd110_type(
            state: *mut u16,
            state_len: usize,
            character: u8,
            memory: *const u16,
            memory_len: usize,
            tables: *const u16,
            tables_len: usize,
        ) -> u16;
        pub fn nd110_read_out(
            state: *mut u16,
            state_len: usize,
            memory: *const u16,
            memory_len: usize,
            tables: *const u16,
            tables_len: usize,
            character: *mut u16,
        ) -> u16;
        pub fn nd110_run_with_input(
            state: *mut u16,
            state_len: usize,
            memory: *mut u16,
            memory_len: usize,
            tables: *mut u16,
            tables_len: usize,
            n: u64,
            at: *const u64,
            at_len: usize,
            what: *const u16,
            what_len: usize,
            told: *mut u16,
            told_len: usize,
            handed: *mut u64,
            steps: *mut u64,
            reason: *mut u16,
            references: *mut u64,
        ) -> u16;
        pub fn nd110_load(
            state: *mut u16,
            state_len: usize,
            image: *const u16,
            image_len: usize,
            memory: *mut u16,
            memory_len: usize,
            tables: *mut u16,
            tables_len: usize,
        ) -> u16;
        pub fn nd110_write(
            state: *const u16,
            state_len: usize,
            memory: *const u16,
            memory_len: usize,
            tables: *const u16,
            tables_len: usize,
            out: *mut u16,
            out_len: usize,
        ) -> u16;
        pub fn nd110_view(
            kind: u16,
            start: usize,
            len: usize,
            memory: *const u16,
            memory_len: usize,
            tables: *const u16,
            tables_len: usize,
            out: *mut u16,
            out_len: usize,
        ) -> u16;
        pub fn nd110_view_answer(
            kind: u16,
            start: usize,
            len: usize,
            memory: *const u16,
            memory_len: usize,
            tables: *const u16,
            tables_len: usize,
        ) -> u16;
        pub fn nd110_short_to_long(a: u16, d: u16, out: *mut u16, out_len: usize) -> u16;
        pub fn nd110_long_to_short(t: u16, a: u16, d: u16, out: *mut u16, out_len: usize) -> u16;
    }
}

// SAFETY of every call below: the places and lengths are those of slices and references, valid, and apart where one is
// written; the library is proved to stay within them. A record's place is that of a `State`, which is exactly its 168
// words (`repr(transparent)`), in the order of the header's nd110_state.

pub fn step(state: &mut [u16], memory: &mut [u16], tables: &mut [u16], interrupt: &mut u16) -> u16 {
    unsafe {
        raw::nd110_step(
            state.as_mut_ptr(),
            state.len(),
            memory.as_mut_ptr(),
            memory.len(),
            tables.as_mut_ptr(),
            tables.len(),
            interrupt,
        )
    }
}

pub fn step_lent(
    state: &mut State,
    memory: &mut [u16],
    tables: &mut [u16],
    interrupt: &mut u16,
) -> u16 {
    unsafe {
        raw::nd110_step_lent(
            state,
            memory.as_mut_ptr(),
            memory.len(),
            tables.as_mut_ptr(),
            tables.len(),
            interrupt,
        )
    }
}

/// What a run tells beside its number; a run without input leaves `handed`.
#[derive(Debug, Default, PartialEq)]
pub struct Ended {
    pub handed: u64,
    pub steps: u64,
    pub reason: u16,
    pub references: u64,
}

pub fn run(
    state: &mut [u16],
    memory: &mut [u16],
    tables: &mut [u16],
    n: u64,
    ended: &mut Ended,
) -> u16 {
    unsafe {
        raw::nd110_run(
            state.as_mut_ptr(),
            state.len(),
            memory.as_mut_ptr(),
            memory.len(),
            tables.as_mut_ptr(),
            tables.len(),
            n,
            &mut ended.steps,
            &mut ended.reason,
            &mut ended.references,
        )
    }
}

pub fn run_to_interrupt(
    state: &mut [u16],
    memory: &mut [u16],
    tables: &mut [u16],
    n: u64,
    ended: &mut Ended,
) -> u16 {
    unsafe {
        raw::nd110_run_to_interrupt(
            state.as_mut_ptr(),
            state.len(),
            memory.as_mut_ptr(),
            memory.len(),
            tables.as_mut_ptr(),
            tables.len(),
            n,
            &mut ended.steps,
            &mut ended.reason,
            &mut ended.references,
        )
    }
}

pub fn raise(state: &mut [u16], level: u16, memory: &[u16], tables: &[u16]) -> u16 {
    unsafe {
        raw::nd110_raise(
            state.as_mut_ptr(),
            state.len(),
            level,
            memory.as_ptr(),
            memory.len(),
            tables.as_ptr(),
            tables.len(),
        )
    }
}

pub fn raise_lent(state: &mut State, level: u16, memory: &[u16], tables: &[u16]) -> u16 {
    unsafe {
        raw::nd110_raise_lent(
            state,
            level,
            memory.as_ptr(),
            memory.len(),
            tables.as_ptr(),
            tables.len(),
        )
    }
}

pub fn tick(state: &mut [u16], memory: &[u16], tables: &[u16]) -> u16 {
    unsafe {
        raw::nd110_tick(
            state.as_mut_ptr(),
            state.len(),
            memory.as_ptr(),
            memory.len(),
            tables.as_ptr(),
            tables.len(),
        )
    }
}

pub fn type_character(state: &mut [u16], character: u8, memory: &[u16], tables: &[u16]) -> u16 {
    unsafe {
        raw::nd110_type(
            state.as_mut_ptr(),
            state.len(),
            character,
            memory.as_ptr(),
            memory.len(),
            tables.as_ptr(),
            tables.len(),
        )
    }
}

pub fn read_out(state: &mut [u16], memory: &[u16], tables: &[u16], character: &mut u16) -> u16 {
    unsafe {
        raw::nd110_read_out(
            state.as_mut_ptr(),
            state.len(),
            memory.as_ptr(),
            memory.len(),
            tables.as_ptr(),
            tables.len(),
            character,
        )
    }
}

/// The lists of a run with input: when each input is handed in, what it is, and room for what it is told.
pub struct Inputs<'a> {
    pub at: &'a [u64],
    pub what: &'a [u16],
    pub told: &'a mut [u16],
}

pub fn run_with_input(
    state: &mut [u16],
    memory: &mut [u16],
    tables: &mut [u16],
    n: u64,
    inputs: Inputs,
    ended: &mut Ended,
) -> u16 {
    let Inputs { at, what, told } = inputs;
    unsafe {
        raw::nd110_run_with_input(
            state.as_mut_ptr(),
            state.len(),
            memory.as_mut_ptr(),
            memory.len(),
            tables.as_mut_ptr(),
            tables.len(),
            n,
            at.as_ptr(),
            at.len(),
            what.as_ptr(),
            what.len(),
            told.as_mut_ptr(),
            told.len(),
            &mut ended.handed,
            &mut ended.steps,
            &mut ended.reason,
            &mut ended.references,
        )
    }
}

pub fn load(state: &mut [u16], image: &[u16], memory: &mut [u16], tables: &mut [u16]) -> u16 {
    unsafe {
        raw::nd110_load(
            state.as_mut_ptr(),
            state.len(),
            image.as_ptr(),
            image.len(),
            memory.as_mut_ptr(),
            memory.len(),
            tables.as_mut_ptr(),
            tables.len(),
        )
    }
}

pub fn write(state: &[u16], memory: &[u16], tables: &[u16], out: &mut [u16]) -> u16 {
    unsafe {
        raw::nd110_write(
            state.as_ptr(),
            state.len(),
            memory.as_ptr(),
            memory.len(),
            tables.as_ptr(),
            tables.len(),
            out.as_mut_ptr(),
            out.len(),
        )
    }
}

pub fn view(
    kind: u16,
    start: usize,
    len: usize,
    memory: &[u16],
    tables: &[u16],
    out: &mut [u16],
) -> u16 {
    unsafe {
        raw::nd110_view(
            kind,
            start,
            len,
            memory.as_ptr(),
            memory.len(),
            tables.as_ptr(),
            tables.len(),
            out.as_mut_ptr(),
            out.len(),
        )
    }
}

pub fn view_answer(kind: u16, start: usize, len: usize, memory: &[u16], tables: &[u16]) -> u16 {
    unsafe {
        raw::nd110_view_answer(
            kind,
            start,
            len,
            memory.as_ptr(),
            memory.len(),
            tables.as_ptr(),
            tables.len(),
        )
    }
}

pub fn short_to_long(a: u16, d: u16, out: &mut [u16]) -> u16 {
    unsafe { raw::nd110_short_to_long(a, d, out.as_mut_ptr(), out.len()) }
}

pub fn long_to_short(t: u16, a: u16, d: u16, out: &mut [u16]) -> u16 {
    unsafe { raw::nd110_long_to_short(t, a, d, out.as_mut_ptr(), out.len()) }
}

/// What no other function of this crate can ask for: states of any length, lists of input of different lengths, a load
/// over a state that holds something, conversions to outputs of any length, and over the words that were read.
#[cfg(test)]
mod tests {
    use super::*;
    use crate::{IMAGE_EXTRA, PAGE_WORDS, TABLE_WORDS};

    /// Every call that takes the state as words, on these words, each with its own copy; state, memory, page tables,
    /// output and words told after it, and what a run told.
    fn calls(state: &[u16]) -> Vec<(u16, Vec<u16>, Ended)> {
        let image: [u16; 6] = [1, 3, 0, 0, 0, 0];
        (0..10)
            .map(|call| {
                let mut state = state.to_vec();
                let (mut memory, mut tables) = ([F; PAGE_WORDS], [F; TABLE_WORDS]);
                let (mut out, mut told) = ([F; PAGE_WORDS + IMAGE_EXTRA], [F]);
                let (mut interrupt, mut character) = (F, F);
                let mut ended = untold();
                let (s, m, t) = (&mut state[..], &mut memory[..], &mut tables[..]);
                let number = match call {
                    0 => step(s, m, t, &mut interrupt),
                    1 => run(s, m, t, 0, &mut ended),
                    2 => run_to_interrupt(s, m, t, 0, &mut ended),
                    3 => raise(s, 10, m, t),
                    4 => load(s, &image, m, t),
                    5 => write(s, m, t, &mut out),
                    6 => tick(s, m, t),
                    7 => type_character(s, 0o101, m, t),
                    8 => read_out(s, m, t, &mut character),
                    _ => {
                        let inputs = Inputs {
                            at: &[0],
                            what: &[256],
                            told: &mut told,
                        };
                        run_with_input(s, m, t, 0, inputs, &mut ended)
                    }
                };
                for words in [&memory[..], &tables, &out, &told, &[interrupt, character]] {
                    state.extend(words);
                }
                (number, state, ended)
            })
            .collect()
    }

    /// What a run tells, before it; of the references all 64 bits.
    fn untold() -> Ended {
        Ended {
            handed: F.into(),
            steps: F.into(),
            reason: F,
            references: u64::MAX,
        }
    }

    /// A state of 156 words, as version 4 had it, of 155 or of 154, as it was before, is no state, nor is one of 169.
    #[test]
    fn states_of_any_length() {
        let rest = PAGE_WORDS + TABLE_WORDS + PAGE_WORDS + IMAGE_EXTRA + 3;
        for len in [0, 1, 128, 153, 154, 155, 156, 157, 166, 167, 169, 170, 336] {
            let left: Vec<u16> = [vec![0; len], vec![F; rest]].concat();
            for given in calls(&vec![0; len]) {
                assert_eq!(given, (255, left.clone(), untold()), "{len} words");
            }
        }
        let numbers: Vec<u16> = calls(&[0; 168]).iter().map(|given| given.0).collect();
        assert_eq!(numbers, [0; 10]);
    }

    /// The three lists have one length, or nothing is done: a tick and a character for step 0 of a machine in range.
    #[test]
    fn inputs_of_any_lengths() {
        let (at, what) = ([0, 0], [256, 512]);
        for lens in 0..27 {
            let lens: [usize; 3] = [lens % 3, lens / 3 % 3, lens / 9];
            let (mut state, mut told) = ([0; 168], [F; 2]);
            let (mut memory, mut tables) = ([F; PAGE_WORDS], [F; TABLE_WORDS]);
            let mut ended = untold();
            let inputs = Inputs {
                at: &at[..lens[0]],
                what: &what[..lens[1]],
                told: &mut told[..lens[2]],
            };
            let number =
                run_with_input(&mut state, &mut memory, &mut tables, 0, inputs, &mut ended);
            assert_eq!((memory, tables), ([F; PAGE_WORDS], [F; TABLE_WORDS]));
            if lens[0] != lens[1] || lens[1] != lens[2] {
                assert_eq!((number, ended), (255, untold()), "{lens:?}");
                assert_eq!((state, told), ([0; 168], [F; 2]), "{lens:?}");
                continue;
            }
            let handed = lens[0];
            let wanted = Ended {
                handed: handed as u64,
                steps: 0,
                reason: 2,
                references: 0,
            };
            assert_eq!((number, ended), (0, wanted), "{lens:?}");
            let (ready, unread) = (u16::from(handed > 0), u16::from(handed > 1));
            assert_eq!((state[157], state[160]), (ready, unread));
            assert_eq!(told, [[F, F], [0, F], [0, 0]][handed]);
        }
    }

    /// Runs of a state out of range, and with memory of no page, leave what they would have told.
    #[test]
    fn refused_runs_tell_nothing() {
        for (refusal, level, len) in [(2, 16, PAGE_WORDS), (1, 16, 0), (1, 0, PAGE_WORDS - 1)] {
            for form in 0..3 {
                let (mut state, mut told) = ([0; 168], [F]);
                state[128] = level;
                let (mut memory, mut tables) = ([F; PAGE_WORDS], [F; TABLE_WORDS]);
                let (s, m, t) = (&mut state, &mut memory[..len], &mut tables);
                let mut ended = untold();
                let number = match form {
                    0 => run(s, m, t, 10, &mut ended),
                    1 => run_to_interrupt(s, m, t, 10, &mut ended),
                    _ => {
                        let inputs = Inputs {
                            at: &[0],
                            what: &[256],
                            told: &mut told,
                        };
                        run_with_input(s, m, t, 10, inputs, &mut ended)
                    }
                };
                assert_eq!((number, ended, told), (refusal, untold(), [F]));
            }
        }
    }

    /// Images of 26 and 27 control words, over states whose PGS is held, whose mode is extended and whose devices are
    /// not cleared, or that are out of range: what an image does not name is 0.
    #[test]
    fn loads_over_any_state() {
        for len in [26, 27] {
            let mut image = vec![1, 3, 0, 0, 0, len];
            image.resize(6 + usize::from(len), 0);
            image[6 + 9] = 0o040102;
            let (mut memory, mut tables) = ([F; PAGE_WORDS], [F; TABLE_WORDS]);
            let mut want = [0; 168];
            want[128 + 9] = 0o040102;
            for [held, extended] in [[0, 0], [0, 1], [1, 0], [1, 1], [2, 2], [0o177777; 2]] {
                let mut state = [0; 168];
                state[128 + 26] = held;
                state[128 + 27] = extended;
                state[156..].fill(held);
                assert_eq!(load(&mut state, &image, &mut memory, &mut tables), 0);
                assert_eq!(state, want);
            }
            assert_eq!((memory, tables), ([0; PAGE_WORDS], [0; TABLE_WORDS]));
        }
    }

    /// What an output holds before a conversion.
    const F: u16 = 0o125252;

    /// The answer of a conversion that is lent so many words; and these words, with those after them.
    fn lent(len: usize, convert: impl Fn(&mut [u16]) -> u16) -> (u16, [u16; 5]) {
        let mut words = [F; 5];
        let number = convert(&mut words[..len]);
        (number, words)
    }

    /// Zero, +3 and minus zero.
    #[test]
    fn longs_of_any_length() {
        for len in 0..=4 {
            let given = [[0, 0], [0o040240, 0], [0o100000, 0]]
                .map(|[a, d]| lent(len, |out| short_to_long(a, d, out)));
            let wanted = match len {
                3 => [
                    (0, [0, 0, 0, F, F]),
                    (0, [0o040002, 0o140000, 0, F, F]),
                    (15, [F; 5]),
                ],
                _ => [(255, [F; 5]); 3],
            };
            assert_eq!(given, wanted, "{len} words");
        }
    }

    /// Zero, +3, minus zero, an exponent beyond the match, and a mantissa bit too many.
    #[test]
    fn shorts_of_any_length() {
        for len in 0..=4 {
            let given = [
                [0, 0, 0],
                [0o040002, 0o140000, 0],
                [0o100000, 0, 0],
                [0o040400, 0o140000, 0],
                [0o040002, 0o140000, 1],
            ]
            .map(|[t, a, d]| lent(len, |out| long_to_short(t, a, d, out)));
            let wanted = match len {
                2 => [
                    (0, [0, 0, F, F, F]),
                    (0, [0o040240, 0, F, F, F]),
                    (15, [F; 5]),
                    (16, [F; 5]),
                    (17, [F; 5]),
                ],
                _ => [(255, [F; 5]); 5],
            };
            assert_eq!(given, wanted, "{len} words");
        }
    }

    #[test]
    fn over_the_words_that_were_read() {
        let mut words = [0o040001, 0o152252, 0o125000];
        let [t, a, d] = words;
        assert_eq!(long_to_short(t, a, d, &mut words[..2]), 0);
        assert_eq!(words, [0o040152, 0o052525, 0o125000]);
        let [a, d, _] = words;
        assert_eq!(short_to_long(a, d, &mut words), 0);
        assert_eq!(words, [0o040001, 0o152252, 0o125000]);
    }
}
