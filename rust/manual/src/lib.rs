//! The worked examples of the manuals as tables: document 002, the instruction set, and document 000, the functional
//! description; and those of docs/ARITHMETIC.md, docs/ROTATIONS.md and docs/FLOATING.md. The tests `manual` of `second`
//! and `nd110` hold the second engine and the proved engine to them.
//!
//! What must come is typed from the manuals or stands on those pages; no engine computes it. An example is a whole
//! machine before and after, and every word that it does not name must stay. The numbers of docs/FLOATING.md are no
//! instructions: `floating` has them as conversions.

mod arithmetic;
mod document000;
mod document002;
pub mod floating;
mod page;
mod rotations;
mod words;

use std::fmt;

/// Where an example's instructions stand in memory.
pub const HERE: u16 = 0o100;

/// Registers of all levels, control words, and the devices' words: the order is that of the host's state.
const REGISTERS: usize = 128;
const CONTROL: usize = 28;
const DEVICES: usize = 12;
const FIRST_DEVICE: usize = REGISTERS + CONTROL;
const STATE: usize = FIRST_DEVICE + DEVICES;
const TABLES: usize = 512;

const P: usize = 2;
const LEVEL: usize = REGISTERS;

/// One of the words that an example names.
#[derive(Clone, Copy, Debug)]
pub enum Place {
    /// Register 8 * level + number, control word 128 + number, or device word 156 + number.
    State(usize),
    Table(usize),
    Memory(usize),
    /// The number of the interrupt that the last step gives, 0 if none.
    Interrupt,
}

pub type Words = &'static [(Place, u16)];

/// Where an example stands.
#[derive(Clone, Copy, Debug)]
pub enum Source {
    /// Of document 002.
    Page(u16),
    /// Of document 000.
    Section(&'static str),
    /// docs/ARITHMETIC.md.
    Arithmetic,
    /// docs/ROTATIONS.md.
    Rotations,
}

impl fmt::Display for Source {
    fn fmt(&self, f: &mut fmt::Formatter<'_>) -> fmt::Result {
        match self {
            Source::Page(page) => write!(f, "document 002, page {page}"),
            Source::Section(section) => write!(f, "document 000, section {section}"),
            Source::Arithmetic => write!(f, "docs/ARITHMETIC.md"),
            Source::Rotations => write!(f, "docs/ROTATIONS.md"),
        }
    }
}

#[derive(Clone, Copy, Debug)]
pub struct Example {
    pub source: Source,
    /// The instructions as they are written there.
    pub text: &'static str,
    pub word: u16,
    /// The words that follow it.
    pub next: &'static [u16],
    pub steps: usize,
    /// What it needs at the start.
    pub before: Words,
    /// What it leaves. The running level's P is one further unless it is named.
    pub after: Words,
}

/// Those of both manuals and of the pages with instructions.
pub fn examples() -> impl Iterator<Item = &'static Example> {
    let manuals = document002::EXAMPLES.iter().chain(document000::EXAMPLES);
    let pages = arithmetic::EXAMPLES
        .iter()
        .chain(rotations::EXAMPLES.iter());
    manuals.chain(pages)
}

/// A machine in the words that all engines know.
#[derive(Clone, Debug)]
pub struct Machine {
    /// Registers, control words and devices' words, each in image order.
    pub state: [u16; STATE],
    pub tables: Vec<u16>,
    pub memory: Vec<u16>,
    /// What the last step gave.
    pub interrupt: u16,
}

impl Machine {
    /// Level 0 with interrupts and paging off, and 32 pages of memory. Flags, control words and devices are 0, every
    /// level is to go on at `HERE`, and every other word tells its index.
    fn new() -> Machine {
        let mut state = [0; STATE];
        for (index, word) in (0..).zip(&mut state[..REGISTERS]) {
            *word = match index % 8 {
                0 => 0,
                2 => HERE,
                _ => 0o010000 + index,
            };
        }
        Machine {
            state,
            tables: (0o020000..).take(TABLES).collect(),
            memory: (0o100000..=0o177777).collect(),
            interrupt: 0,
        }
    }

    fn put(&mut self, words: Words) {
        for &(place, word) in words {
            match place {
                Place::State(index) => self.state[index] = word,
                Place::Table(index) => self.tables[index] = word,
                Place::Memory(address) => self.memory[address] = word,
                Place::Interrupt => self.interrupt = word,
            }
        }
    }

    fn words(&self) -> Vec<u16> {
        let interrupt = [self.interrupt];
        [&self.state[..], &interrupt, &self.tables, &self.memory].concat()
    }
}

/// What a word of `Machine::words` is.
fn name(index: usize) -> String {
    const NAMES: [&str; 8] = ["STS", "D", "P", "B", "L", "A", "T", "X"];
    const FIRST_TABLE: usize = STATE + 1;
    const FIRST_MEMORY: usize = FIRST_TABLE + TABLES;
    match index {
        0..REGISTERS => format!("{} of level {}", NAMES[index % 8], index / 8),
        REGISTERS..FIRST_DEVICE => format!("control word {}", index - REGISTERS),
        FIRST_DEVICE..STATE => format!("device word {}", index - FIRST_DEVICE),
        STATE => "the interrupt".to_string(),
        FIRST_TABLE..FIRST_MEMORY => format!("page table word {:03o}", index - FIRST_TABLE),
        _ => format!("memory word {:06o}", index - FIRST_MEMORY),
    }
}

/// Several words and steps; a change of level is a step too.
const fn program(next: &'static [u16], steps: usize, first: Example) -> Example {
    Example {
        next,
        steps,
        ..first
    }
}

impl Example {
    /// One instruction.
    const fn one(
        source: Source,
        text: &'static str,
        word: u16,
        before: Words,
        after: Words,
    ) -> Example {
        Example {
            source,
            text,
            word,
            next: &[],
            steps: 1,
            before,
            after,
        }
    }

    pub fn start(&self) -> Machine {
        let mut machine = Machine::new();
        let words = [self.word].into_iter().chain(self.next.iter().copied());
        for (place, word) in machine.memory[usize::from(HERE)..].iter_mut().zip(words) {
            *place = word;
        }
        machine.put(self.before);
        machine
    }

    pub fn end(&self) -> Machine {
        let mut machine = self.start();
        let level = usize::from(machine.state[LEVEL]);
        machine.state[8 * level + P] += 1;
        machine.put(self.after);
        machine
    }

    /// A line for each word of a machine that is not as at the end.
    pub fn differing(&self, machine: &Machine) -> Vec<String> {
        let Example { source, text, .. } = self;
        let pairs = machine.words().into_iter().zip(self.end().words());
        pairs
            .enumerate()
            .filter(|(_, (is, must))| is != must)
            .map(|(index, (is, must))| {
                let name = name(index);
                format!("{source}, {text}: {name} is {is:06o}, not {must:06o}")
            })
            .collect()
    }
}

/// What differs in all examples after their steps by `step`, an engine's.
pub fn differences(step: impl Fn(&mut Machine)) -> Vec<String> {
    let end = |example: &Example| {
        let mut machine = example.start();
        (0..example.steps).for_each(|_| step(&mut machine));
        example.differing(&machine)
    };
    examples().flat_map(end).collect()
}

#[cfg(test)]
mod tests {
    use super::*;

    #[test]
    fn an_engine_that_does_nothing_fails_every_example() {
        for example in examples() {
            assert!(!example.differing(&example.start()).is_empty());
            assert!(example.differing(&example.end()).is_empty());
        }
    }

    #[test]
    fn differences_name_their_word() {
        let lines = differences(|machine| machine.interrupt = 9).join("\n");
        for line in [
            "document 002, page 19, STA *2: P of level 0 is 000100, not 000101",
            "document 002, page 19, STA *2: memory word 000102 is 100102, not 000777",
            "document 002, page 118, MST PIE: control word 5 is 000001, not 000141",
            "document 002, page 125, IDENT PL13: the interrupt is 000011, not 000007",
            "document 000, section 6.5.2, IOX 305: device word 11 is 000000, not 000101",
            "document 000, section 3.8, LDA ,B: page table word 220 is 161000, not 165000",
        ] {
            assert!(lines.contains(line), "{line}");
        }
    }
}
