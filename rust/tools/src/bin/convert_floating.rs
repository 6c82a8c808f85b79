//! A floating number from one form of document 002 to the other, by the proved engine.

use nd110::{Refusal, long_to_short, short_to_long};
use std::io::{self, Write};
use std::process::ExitCode;

const USAGE: &str = "\
usage: convert_floating WORD WORD
       convert_floating WORD WORD WORD

Converts a floating number, only where its value is kept exactly, and prints its words in octal: a
short one of 32 bits (A D) becomes a long one of 48 bits (T A D), and three words become two. Each
word is octal, one to six digits, at most 177777. Why a number is not converted is told on standard
error, and the exit status is then the refusal's number: 15, 16 or 17.";

/// A refusal's number is at most 255.
fn refused(refusal: Refusal) -> cli::WithStatus {
    cli::WithStatus {
        status: refusal.number() as u8,
        trouble: refusal.into(),
    }
}

fn main() -> ExitCode {
    cli::run(USAGE, |args| {
        let converted = match args.octal_words("WORD")?[..] {
            [a, d] => short_to_long([a, d]).map(Vec::from),
            [t, a, d] => long_to_short([t, a, d]).map(Vec::from),
            _ => return Err("a short number has two words, a long one three; see --help".into()),
        };
        let words = converted.map_err(refused)?;
        writeln!(io::stdout(), "{}", cli::octal::text(&words))?;
        Ok(())
    })
}
