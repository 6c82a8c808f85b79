//! Octal text from standard input to an image on standard output.

use std::io::{self, Read, Write};
use std::process::ExitCode;

const USAGE: &str = "\
usage: octal_to_image < TEXT > IMAGE

Writes the words of octal text as an image, the high byte of each first. The text has numbers of at
most 177777, parted by blanks or lines; # begins a comment. Of text with anything else the line is
told, and nothing is written.";

fn main() -> ExitCode {
    cli::run(USAGE, |args| {
        args.end()?;
        let mut text = Vec::new();
        io::stdin().lock().read_to_end(&mut text)?;
        let words = cli::octal::words(&String::from_utf8_lossy(&text))?;
        let bytes: Vec<u8> = words.iter().flat_map(|word| word.to_be_bytes()).collect();
        let mut out = io::stdout().lock();
        out.write_all(&bytes)?;
        out.flush()?;
        Ok(())
    })
}
