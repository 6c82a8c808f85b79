//! Random cases of one step, in the line format of `NOTES.md`.

use second::random::Random;
use second::vectors::{case_text, start};
use std::io::{self, BufWriter, Write};
use std::process::ExitCode;

const USAGE: &str = "\
usage: vectors SEED COUNT

Prints random cases of one step and what the second engine makes of them, in
the line format of rust/second/NOTES.md. The same seed gives the same cases.";

fn main() -> ExitCode {
    cli::run(USAGE, |mut args| {
        let seed = args.number("SEED", 0..=u64::MAX)?;
        let count = args.number("COUNT", 0..=u64::MAX)?;
        args.end()?;
        let mut random = Random::new(seed);
        let mut out = BufWriter::new(io::stdout().lock());
        for number in 0..count {
            out.write_all(case_text(number, &start(&mut random)).as_bytes())?;
        }
        out.flush()?;
        Ok(())
    })
}
