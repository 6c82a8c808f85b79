//! The program `turn` of document 01, by this engine.

use second::{PAGE, Ran, Refusal, Reg, State, TABLE_WORDS, load, run};
use std::io::{self, Read, Write};
use std::process::ExitCode;

const USAGE: &str = "\
usage: second_turn < IMAGE

The program turn of document 01 by the second engine: runs an image through at
most 1,000 steps in 16 pages and prints how it ended and the running level's
registers, or `refused N`.";

const MAX_BYTES: usize = 65_536;

fn turn(input: &[u8]) -> Result<(State, Ran), Refusal> {
    if input.len() > MAX_BYTES || !input.len().is_multiple_of(2) {
        return Err(Refusal::Bodies);
    }
    let image: Vec<u16> = input
        .chunks_exact(2)
        .map(|pair| u16::from_be_bytes([pair[0], pair[1]]))
        .collect();
    let mut memory = vec![0; 16 * PAGE];
    let mut tables = vec![0; TABLE_WORDS];
    let mut state = load(&image, &mut memory, &mut tables)?;
    let ran = run(&mut state, &mut memory, &mut tables, 1_000, false)?;
    Ok((state, ran))
}

fn main() -> ExitCode {
    cli::run(USAGE, |args| {
        args.end()?;
        let mut input = Vec::new();
        io::stdin()
            .lock()
            .take(MAX_BYTES as u64 + 1)
            .read_to_end(&mut input)?;
        let mut out = io::stdout().lock();
        match turn(&input) {
            Ok((state, ran)) => {
                writeln!(out, "ended {}", ran.reason.name())?;
                writeln!(out, "steps {}", ran.steps)?;
                writeln!(out, "level {}", state.level)?;
                for reg in Reg::ALL {
                    writeln!(out, "{} {:06o}", reg.name(), state.reg(reg))?;
                }
            }
            Err(refusal) => writeln!(out, "refused {}", refusal.number())?,
        }
        Ok(())
    })
}
