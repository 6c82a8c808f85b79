//! Cases of every operation for the proved engine: `crates/check_*` run them,
//! and their stored answers are this engine's. `NOTES.md` has the format.

mod devices;
mod extended;
mod fetches;
mod floating;
mod held;
mod images;
mod instructions;
mod pages;
mod references;
mod runs;
mod system;
mod words;

use crate::answer::{Interrupt, Ran, Reason, Refusal, Told};
use crate::decode::Reg;
use crate::image::{Target, load, view, view_number, write};
use crate::input::{Input, Session, raise, read_out, run_with_input, tick, type_character};
use crate::state::{REGISTER_WORDS, STATE_WORDS, State, control};
use crate::step::{run, step};
use crate::{PAGE, TABLE_WORDS};
use std::fmt::Write;

/// The line of a case and that of its answer.
pub type Lines = (String, String);

/// Lists of cases, by name.
type Group = (&'static str, fn() -> Vec<Lines>);

/// The programs `crates/check_NAME`, each with its groups of cases.
pub const PROGRAMS: [(&str, &[Group]); 7] = [
    (
        "instructions",
        &[
            (
                "unprivileged instructions",
                || lines(&instructions::cases()),
            ),
            ("first faults", || lines(&held::cases())),
        ],
    ),
    (
        "machine",
        &[
            ("pages", || lines(&pages::cases())),
            ("system", || lines(&system::cases())),
            ("fetches", || lines(&fetches::cases())),
        ],
    ),
    (
        "operations",
        &[
            ("runs", || lines(&runs::cases())),
            ("images", || lines(&images::cases())),
            ("words", || lines(&words::cases())),
            ("first faults", || lines(&held::operations_cases())),
        ],
    ),
    (
        "extended",
        &[
            ("modes", || lines(&extended::mode())),
            ("physical", || lines(&extended::physical())),
            ("entries", || lines(&extended::entries())),
            ("window", || lines(&extended::window())),
            ("operations", || lines(&extended::operations())),
            ("runs", || lines(&extended::runs())),
            ("random", || lines(&extended::random())),
        ],
    ),
    (
        "devices",
        &[
            ("registers", || lines(&devices::registers())),
            ("ident", || lines(&devices::ident())),
            ("operations", || lines(&devices::operations())),
            ("runs", || lines(&devices::runs())),
            ("stories", || lines(&devices::stories())),
            ("random steps", || lines(&devices::random())),
            ("random runs", || lines(&devices::random_runs())),
        ],
    ),
    (
        "references",
        &[
            ("instructions", || lines(&references::instructions())),
            ("executed", || lines(&references::executed())),
            ("window", || lines(&references::window())),
            ("faults", || lines(&references::faults())),
            ("ends", || lines(&references::ends())),
            ("programs", || lines(&references::programs())),
            ("input", || lines(&references::input())),
            ("random", || lines(&references::random())),
        ],
    ),
    (
        "floating",
        &[
            ("examples", floating::examples),
            ("ends", floating::ends),
            ("exponents", floating::exponents),
            ("low bits", floating::low_bits),
            ("mantissa bits", floating::mantissa_bits),
            ("zeros", floating::zeros),
            ("order", floating::order),
            ("random", floating::random),
        ],
    ),
];

fn lines(cases: &[Case]) -> Vec<Lines> {
    let lines = |case: &Case| (case.line(), case.answer());
    cases.iter().map(lines).collect()
}

#[derive(Clone, Debug)]
pub enum Operation {
    Step,
    Through(u64),
    ToInterrupt(u64),
    Raise(u16),
    Load(Vec<u16>),
    /// Into so many words of output.
    Write(usize),
    View(Target, usize, usize),
    /// Into so many words of output, then loaded over other contents.
    WriteLoad(usize),
    Tick,
    Typed(u8),
    ReadOut,
    /// So many steps; the inputs as words, each with the number of steps before it.
    WithInput(u64, Vec<(u64, u16)>),
}

/// What an answer's line begins with: the refusal's number or 0, and three more
/// numbers.
type Numbers = (u16, u64, u64, u64);

/// The level that runs in the base machine.
pub const LEVEL: usize = 3;
/// Memory of the base machine.
pub const MEMORY: usize = 4 * PAGE;

/// A start and an operation. The label has no digit.
#[derive(Clone, Debug)]
pub struct Case {
    label: &'static str,
    pub operation: Operation,
    /// Whether it is told by what differs from the extended base machine.
    extended: bool,
    pub state: State,
    pub memory: Vec<u16>,
    pub tables: Vec<u16>,
}

/// A word that tells its index.
fn pattern(index: usize) -> u16 {
    (index % 1_048_576 * 40_503 % 65_521) as u16
}

/// Control words of the base machine before the PCRs.
const BEFORE_PCR: [u16; control::PCR] = [LEVEL as u16, 1, 1, 0, 8, 0o177777, 5, 0, 0o3776, 0];
const FIRST_PCR: usize = REGISTER_WORDS + control::PCR;
const LAST_PCR: usize = FIRST_PCR + 15;

/// Registers and control words of a base machine. Its PGS is 0 and not held.
fn base_state(extended: bool) -> [u16; STATE_WORDS] {
    let mut words = [0; STATE_WORDS];
    for (index, word) in words.iter_mut().enumerate() {
        *word = match index {
            0..=127 if index % 8 == 0 => (index * 3 % 256 / 2 * 2) as u16,
            0..=127 => pattern(index + 7),
            FIRST_PCR..=LAST_PCR => ((index + 2) % 4 * 512 + (index + 3) % 4 * 128 + 2) as u16,
            _ => 0,
        };
    }
    words[REGISTER_WORDS..FIRST_PCR].copy_from_slice(&BEFORE_PCR);
    words[REGISTER_WORDS + control::EXTENDED] = extended.into();
    words
}

fn base_memory(size: usize) -> Vec<u16> {
    (0..size).map(pattern).collect()
}

/// Every access permitted to ring 2.
const OPEN: u16 = 0o162000;

/// Open entries; pages in another order in each table.
fn base_tables(size: usize, memory: usize, extended: bool) -> Vec<u16> {
    let pages = memory / PAGE;
    let page = |slot: usize| ((slot % 64 + slot / 64 % 4) % pages) as u16;
    let word = |index: usize| match (pages, extended) {
        (0, _) => 0,
        (_, false) => OPEN + page(index) % 512,
        (_, true) if index.is_multiple_of(2) => OPEN,
        (_, true) => page(index / 2),
    };
    (0..size).map(word).collect()
}

impl Case {
    /// The base machine, in 19-bit mode, with lent words of other sizes.
    pub fn sized(label: &'static str, operation: Operation, memory: usize, tables: usize) -> Case {
        Case::in_mode(false, label, operation, memory, tables)
    }

    /// The base machine of either mode.
    pub fn in_mode(
        extended: bool,
        label: &'static str,
        operation: Operation,
        memory: usize,
        tables: usize,
    ) -> Case {
        Case {
            label,
            operation,
            extended,
            state: State::from_words(&base_state(extended)),
            memory: base_memory(memory),
            tables: base_tables(tables, memory, extended),
        }
    }

    pub fn new(label: &'static str, operation: Operation) -> Case {
        Case::sized(label, operation, MEMORY, TABLE_WORDS)
    }

    /// One step; `at_p` puts its word.
    pub fn step(label: &'static str) -> Case {
        Case::new(label, Operation::Step)
    }

    fn level(&self) -> usize {
        usize::from(self.state.level % 16)
    }

    pub fn get(&self, reg: Reg) -> u16 {
        self.state.files[self.level()][reg as usize]
    }

    pub fn reg(mut self, reg: Reg, value: u16) -> Case {
        let level = self.level();
        self.state.files[level][reg as usize] = value;
        self
    }

    pub fn of_level(mut self, level: usize, reg: Reg, value: u16) -> Case {
        self.state.files[level][reg as usize] = value;
        self
    }

    pub fn with(mut self, change: impl FnOnce(&mut State)) -> Case {
        change(&mut self.state);
        self
    }

    /// The running level, with PID so that no change is due.
    pub fn on_level(self, level: usize) -> Case {
        self.with(|state| {
            state.level = level as u16;
            state.pid = 1 << level;
        })
    }

    pub fn ring(mut self, ring: u16) -> Case {
        let level = self.level();
        self.state.pcr[level] = self.state.pcr[level] & !3 | ring;
        self
    }

    pub fn paging(self, on: bool) -> Case {
        self.with(|state| state.paging_on = on.into())
    }

    pub fn word(mut self, at: usize, value: u16) -> Case {
        self.memory[at] = value;
        self
    }

    pub fn entry(mut self, index: usize, value: u16) -> Case {
        self.tables[index] = value;
        self
    }

    /// The number of the normal or the alternate table.
    pub fn table(&self, alternate: bool) -> usize {
        let pcr = self.state.pcr[self.level()];
        usize::from(if alternate {
            pcr >> 7 & 3
        } else {
            pcr >> 9 & 3
        })
    }

    /// The slot of the entry that an address goes by; in 19-bit mode its index.
    pub fn index(&self, address: u16, alternate: bool) -> usize {
        self.table(alternate) * 64 + usize::from(address >> 10)
    }

    /// First address of the page-table window.
    pub fn window(&self) -> u16 {
        match self.state.extended {
            0 => 0o177400,
            _ => 0o177000,
        }
    }

    /// The physical page of an entry.
    pub fn physical_page(&self, slot: usize) -> usize {
        usize::from(match self.state.extended {
            0 => self.tables[slot] & 0o777,
            _ => self.tables[2 * slot + 1] & 0o37777,
        })
    }

    /// Puts a word where an address leads, if it leads somewhere.
    pub fn put(mut self, address: u16, alternate: bool, value: u16) -> Case {
        let paging = self.state.paging_on == 1;
        let ring = self.state.pcr[self.level()] & 3;
        let window = self.window();
        if address >= window && (!paging || ring == 3) {
            self.tables[usize::from(address - window)] = value;
            return self;
        }
        let at = if paging {
            self.physical_page(self.index(address, alternate)) * PAGE + usize::from(address) % PAGE
        } else {
            usize::from(address)
        };
        if let Some(place) = self.memory.get_mut(at) {
            *place = value;
        }
        self
    }

    /// Puts the word that the step fetches.
    pub fn at_p(self, word: u16) -> Case {
        let p = self.get(Reg::P);
        self.put(p, false, word)
    }

    /// Number and arguments of the operation.
    fn arguments(&self) -> (u64, Vec<u64>) {
        match &self.operation {
            Operation::Step => (0, vec![]),
            Operation::Through(steps) => (1, vec![*steps]),
            Operation::ToInterrupt(steps) => (2, vec![*steps]),
            Operation::Raise(level) => (3, vec![u64::from(*level)]),
            Operation::Load(image) => (4, image.iter().map(|&word| word.into()).collect()),
            Operation::Write(length) => (5, vec![*length as u64]),
            Operation::View(target, start, length) => {
                let kind = (*target == Target::Tables).into();
                (6, vec![kind, *start as u64, *length as u64])
            }
            Operation::WriteLoad(length) => (7, vec![*length as u64]),
            Operation::Tick => (0o20, vec![]),
            Operation::Typed(character) => (0o21, vec![(*character).into()]),
            Operation::ReadOut => (0o22, vec![]),
            Operation::WithInput(steps, inputs) => {
                let pairs = inputs.iter().flat_map(|&(at, word)| [at, word.into()]);
                (0o23, [*steps].into_iter().chain(pairs).collect())
            }
        }
    }

    /// The case's line: label, count, operation, sizes, arguments, changes.
    pub fn line(&self) -> String {
        let (number, arguments) = self.arguments();
        let number = number + if self.extended { 8 } else { 0 };
        let sizes = [self.memory.len() as u64, self.tables.len() as u64];
        let mut numbers = vec![number, sizes[0], sizes[1], arguments.len() as u64];
        numbers.extend(arguments);
        let mut change = |place: usize, words: &[u16], base: &[u16]| {
            for (index, (word, old)) in words.iter().zip(base).enumerate() {
                if word != old {
                    numbers.extend([(place + index) as u64, u64::from(*word)]);
                }
            }
        };
        change(0, &self.state.to_words(), &base_state(self.extended));
        let tables = base_tables(self.tables.len(), self.memory.len(), self.extended);
        change(512, &self.tables, &tables);
        change(1024, &self.memory, &base_memory(self.memory.len()));
        let mut text = format!("{} {:o}", self.label, numbers.len());
        for number in numbers {
            let _ = write!(text, " {number:o}");
        }
        text
    }

    /// The answer's line.
    pub fn answer(&self) -> String {
        let mut end = self.clone();
        let (refusal, first, second, third) = end.act();
        let words = end.state.to_words();
        let mut text = format!("{refusal} {first} {second} {third}");
        let parts: [&[u16]; 4] = [
            &words[..REGISTER_WORDS],
            &words[REGISTER_WORDS..],
            &end.tables,
            &end.memory,
        ];
        for part in parts {
            let _ = write!(text, " {:08x}", sum(part));
        }
        let _ = write!(text, " {}", end.state.level);
        for word in end.state.files[end.level()] {
            let _ = write!(text, " {word:06o}");
        }
        text
    }

    /// Does the operation.
    fn act(&mut self) -> Numbers {
        let (state, memory, tables) = (&mut self.state, &mut self.memory, &mut self.tables);
        let refused = |refusal: Refusal| (refusal.number(), 0, 0, 0);
        match &self.operation {
            Operation::Step => step(state, memory, tables).map_or_else(refused, |interrupt| {
                (0, interrupt.map_or(0, Interrupt::number).into(), 0, 0)
            }),
            Operation::Through(steps) => {
                run(state, memory, tables, *steps, false).map_or_else(refused, ended)
            }
            Operation::ToInterrupt(steps) => {
                run(state, memory, tables, *steps, true).map_or_else(refused, ended)
            }
            Operation::Raise(level) => {
                raise(state, memory, tables, *level).map_or_else(refused, |()| (0, 0, 0, 0))
            }
            Operation::Load(image) => load(image, memory, tables).map_or_else(refused, |loaded| {
                *state = loaded;
                (0, 0, 0, 0)
            }),
            Operation::Write(length) => {
                let mut out = base_memory(*length);
                let answer = write(state, memory, tables, &mut out);
                (number(answer.err()), sum(&out), 0, 0)
            }
            Operation::View(target, start, length) => {
                let refusal = view_number(memory, tables, *target, *start, *length);
                let part = view(memory, tables, *target, *start, *length);
                (number(refusal), part.len() as u64, sum(part), 0)
            }
            Operation::WriteLoad(length) => {
                let mut out = base_memory(*length);
                let written = write(state, memory, tables, &mut out).err();
                *memory = base_tables(memory.len(), PAGE, false);
                *tables = base_memory(tables.len());
                *state = State::new();
                let loaded = load(&out, memory, tables);
                let refusal = number(loaded.as_ref().err().copied());
                if let Ok(loaded) = loaded {
                    *state = loaded;
                }
                (refusal, sum(&out), number(written).into(), 0)
            }
            Operation::Tick => tick(state, memory, tables).map_or_else(refused, |()| (0, 0, 0, 0)),
            Operation::Typed(character) => {
                let answer = type_character(state, memory, tables, *character);
                answer.map_or_else(refused, |()| (0, 0, 0, 0))
            }
            Operation::ReadOut => {
                let answer = read_out(state, memory, tables);
                answer.map_or_else(refused, |sent| {
                    let told = sent.map_or(Told::None, Told::Character);
                    (0, told.word().into(), 0, 0)
                })
            }
            Operation::WithInput(steps, inputs) => {
                let input = |&(at, word): &(u64, u16)| (at, Input::from_word(word));
                let inputs: Vec<_> = inputs.iter().map(input).collect();
                let answer = run_with_input(state, memory, tables, *steps, &inputs);
                answer.map_or_else(refused, ended_with_input)
            }
        }
    }
}

fn number(refusal: Option<Refusal>) -> u16 {
    refusal.map_or(0, Refusal::number)
}

/// Reasons in the order of the tests.
fn reason_number(reason: Reason) -> u64 {
    match reason {
        Reason::Stopped => 0,
        Reason::Level => 1,
        Reason::Spent => 2,
        Reason::Interrupt => 3,
    }
}

/// The reason, the steps, the references.
fn ended(ran: Ran) -> Numbers {
    (0, reason_number(ran.reason), ran.steps, ran.references)
}

/// The reason with the checksum of what the inputs were told, the steps, the
/// references.
fn ended_with_input(session: Session) -> Numbers {
    let told: Vec<u16> = session.told.into_iter().map(Told::word).collect();
    let reason = reason_number(session.reason) + 8 * sum(&told);
    (0, reason, session.steps, session.references)
}

/// Checksum of words: each counts by its place.
fn sum(words: &[u16]) -> u64 {
    let add = |sum: u64, &word: &u16| (sum * 1_000_003 + u64::from(word) + 1) % 4_294_967_291;
    words.iter().fold(1, add)
}

#[cfg(test)]
mod tests {
    use super::*;

    /// What a program reads.
    const MOST_BYTES: usize = 524_288;
    const MOST_NUMBERS: usize = 196_608;

    #[test]
    fn programs_read_all_cases() {
        for (name, groups) in PROGRAMS {
            let cases = groups.iter().flat_map(|(_, make)| make());
            let (mut bytes, mut numbers) = (0, 0);
            for (line, _) in cases {
                let of_line = line
                    .split(|c: char| !c.is_digit(8))
                    .filter(|n| !n.is_empty());
                bytes += line.len() + 1;
                numbers += of_line.count();
            }
            assert!(
                bytes <= MOST_BYTES && numbers <= MOST_NUMBERS,
                "{name}: {bytes} {numbers}"
            );
        }
    }
}
