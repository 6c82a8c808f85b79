//! A trace of an image's run. The steps and their memory references are the proved engine's; it does not tell the word
//! that a step fetched, so that word and its mnemonic come from the second engine.

use nd110::{Control, MEMORY_MOST, PAGE_WORDS, Refusal, Register, State, TABLE_WORDS};
use second::{DEVICE_NAMES, FIRST_DEVICE, REGISTER_WORDS, Reg, control, disassemble, next_word};
use std::fmt::Write as _;
use std::io::{self, BufWriter, Read, Write};
use std::process::ExitCode;

const USAGE: &str = "\
usage: trace [STEPS [PAGES]] < IMAGE

Loads an image into so many pages of memory and steps it until it stops, with a line for each step:
level, address, word, mnemonic, memory references, registers, control words and devices' words that
changed, interrupt. P going on by one is not mentioned. The last line has the steps and the memory
references of all. Nothing is typed, the clock does not tick, and what is sent is not read out. At
most 1,000 steps and 16 pages unless said otherwise. The steps are those of the proved engine; word
and mnemonic are the second engine's.";

/// Internal interrupts by number; 8 and 10 never come.
const INTERRUPTS: [&str; 11] = [
    "",
    "MonitorCall",
    "Protect",
    "PageFault",
    "Illegal",
    "ErrorFlag",
    "Privileged",
    "NoDevice",
    "",
    "OutOfRange",
    "",
];

/// Words that differ, by name.
fn changes(before: &State, after: &State) -> String {
    let mut text = String::new();
    let level = usize::from(before.control(Control::Level));
    let p = 8 * level + Register::P as usize;
    for (index, (old, new)) in before.0.iter().zip(after.0).enumerate() {
        if *old == new || index == p && old.wrapping_add(1) == new {
            continue;
        }
        let name = match index {
            0..REGISTER_WORDS if index / 8 == level => Reg::ALL[index % 8].name().to_string(),
            0..REGISTER_WORDS => format!("{}({})", Reg::ALL[index % 8].name(), index / 8),
            REGISTER_WORDS..FIRST_DEVICE => control::name(index - REGISTER_WORDS),
            _ => DEVICE_NAMES[index - FIRST_DEVICE].to_string(),
        };
        let _ = write!(text, " {name}={new:06o}");
    }
    text
}

#[derive(Clone)]
struct Machine {
    state: State,
    memory: Vec<u16>,
    tables: Vec<u16>,
}

impl Machine {
    fn load(image: &[u16], pages: usize) -> Result<Machine, Refusal> {
        let (mut memory, mut tables) = (vec![0; pages * PAGE_WORDS], vec![0; TABLE_WORDS]);
        let state = nd110::load(image, &mut memory, &mut tables)?;
        Ok(Machine {
            state,
            memory,
            tables,
        })
    }

    /// The interrupt that a step gives.
    fn step(&mut self) -> Result<u16, Refusal> {
        nd110::step(&mut self.state, &mut self.memory, &mut self.tables)
    }

    /// The memory references that a step makes, which only a run tells.
    fn references(&mut self) -> Result<u64, Refusal> {
        let ran = nd110::run(&mut self.state, &mut self.memory, &mut self.tables, 1)?;
        Ok(ran.references)
    }
}

/// One step and its line, and the references that it made. The second machine is a copy that takes the same steps, each
/// by a run.
fn step(machine: &mut Machine, copy: &mut Machine) -> Result<(String, u64), Refusal> {
    let before = machine.state;
    let level = before.control(Control::Level);
    let at = before.register(usize::from(level), Register::P);
    let of_second = second::State::from_words(&before.0);
    let word = next_word(&of_second, &mut machine.memory, &machine.tables);
    let interrupt = machine.step()?;
    let references = copy.references()?;
    let what = match word {
        Some(word) => format!("{word:06o}  {}", disassemble(word)),
        None if machine.state.control(Control::Level) != level => "------  change of level".into(),
        None => "------  no fetch".into(),
    };
    let interrupt = match interrupt {
        0 => String::new(),
        n => format!("  interrupt {n} {}", INTERRUPTS[usize::from(n)]),
    };
    let line = format!(
        "{level:>2}  {at:06o}  {what:<28}{references:>2} {}{interrupt}",
        changes(&before, &machine.state)
    );
    Ok((line.trim_end().to_string(), references))
}

fn main() -> ExitCode {
    cli::run(USAGE, |mut args| {
        let most = (MEMORY_MOST / PAGE_WORDS) as u64;
        let steps = args.optional_number("STEPS", 0..=u64::MAX)?;
        let pages = args.optional_number("PAGES", 1..=most)?.unwrap_or(16);
        args.end()?;

        let mut input = Vec::new();
        io::stdin().lock().read_to_end(&mut input)?;
        let image = nd110::image_words(&input)?;
        let mut machine = Machine::load(&image, pages as usize)?;
        let mut copy = machine.clone();

        let mut out = BufWriter::new(io::stdout().lock());
        let (mut taken, mut sum) = (0, 0u64);
        while taken < steps.unwrap_or(1_000) && machine.state.control(Control::Stopped) == 0 {
            let (line, references) = step(&mut machine, &mut copy)?;
            writeln!(out, "{line}")?;
            taken += 1;
            sum = sum.wrapping_add(references);
        }
        writeln!(out, "{taken} steps, {sum} references")?;
        out.flush()?;
        Ok(())
    })
}
