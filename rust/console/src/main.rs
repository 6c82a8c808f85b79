//! The operator's terminal: an image runs on the proved engine, with standard input and output as its terminal 1 and
//! with a tick for each 20 ms of wall time.

mod keyboard;
mod raw;
mod session;

use keyboard::Keyboard;
use nd110::{MEMORY_MOST, Machine, PAGE_WORDS};
use raw::Raw;
use session::{End, Session};
use std::ffi::OsStr;
use std::fs;
use std::io::{self, IsTerminal};
use std::process::ExitCode;

const USAGE: &str = "\
usage: console IMAGE [PAGES]

Loads an image file into so many pages of memory, 64 unless said otherwise, and runs it. What is
typed on standard input is typed at its terminal 1, what it sends there is written to standard
output, and its clock ticks every 20 ms. Ends when the machine stops. With a terminal as standard
input it also ends with Ctrl-], and every other key goes to the machine; with a file or a pipe when
that has ended, all of it is read, and nothing more was sent for 50 ticks.";

/// Pages if none are asked for: all addresses of a program without paging.
const PAGES: u64 = 64;

/// The machine of an image file.
fn load(name: &OsStr, pages: u64) -> Result<Machine, cli::Trouble> {
    let image = nd110::image_words(&fs::read(name)?)?;
    Ok(Machine::load(&image, pages as usize)?)
}

/// A session with the terminal in raw mode, which is left before anything else is told.
fn at_terminal(machine: Machine) -> Result<End, cli::Trouble> {
    eprintln!("console: Ctrl-] leaves");
    let raw = Raw::enter()?;
    let end = Session::new(machine, Keyboard::terminal()).run();
    drop(raw);
    end
}

fn console(machine: Machine) -> Result<(), cli::Trouble> {
    if !io::stdin().is_terminal() {
        Session::new(machine, Keyboard::file()).run()?;
        return Ok(());
    }
    let end = at_terminal(machine)?;
    eprintln!("\nconsole: {end}");
    Ok(())
}

fn main() -> ExitCode {
    cli::run(USAGE, |mut args| {
        let most = (MEMORY_MOST / PAGE_WORDS) as u64;
        let name = args.word("IMAGE")?;
        let pages = args.optional_number("PAGES", 1..=most)?.unwrap_or(PAGES);
        args.end()?;
        let machine = load(&name, pages)
            .map_err(|trouble| format!("{}: {trouble}", name.to_string_lossy()))?;
        console(machine)
    })
}
