//! A small host in Rust, to learn from; examples/host.c is the same in C.
//!
//! `host IMAGE` loads an image file into 16 pages, steps it, raises level 10, runs it to its end and shows memory.
//! What it prints for examples/add.image is in examples/host.expected. No argument, a file that cannot be read or an
//! image that is refused is told on standard error, and the exit status is 1.

use nd110::{Control, Machine, Refusal, Register, Target};
use std::error::Error;
use std::ffi::OsStr;
use std::process::ExitCode;

const USAGE: &str = "usage: host IMAGE";

/// A register of the running level.
fn running(machine: &Machine, register: Register) -> u16 {
    let level = machine.control(Control::Level);
    machine.register(usize::from(level), register)
}

/// One step, and the interrupt that it gave (0 if none).
fn step(machine: &mut Machine) -> Result<(), Refusal> {
    let interrupt = machine.step()?;
    let (p, a) = (running(machine, Register::P), running(machine, Register::A));
    println!("step: interrupt {interrupt}, P {p:06o}, A {a:06o}");
    Ok(())
}

/// A device raises a level. A refusal is an answer like others: the machine is as it was.
fn raise(machine: &mut Machine, level: u16) {
    let number = machine.raise(level).map_or_else(Refusal::number, |()| 0);
    let pid = machine.control(Control::Pid);
    println!("raise of {level}: answer {number}, PID {pid:06o}");
}

/// At most so many steps, and the memory references that they made.
fn run(machine: &mut Machine, steps: u64) -> Result<(), Refusal> {
    let ran = machine.run(steps)?;
    let (taken, references) = (ran.steps, ran.references);
    let (number, p) = (ran.reason.number(), running(machine, Register::P));
    println!("run: steps {taken}, reason {number}, references {references}, P {p:06o}");
    Ok(())
}

/// A part of memory, lent and not copied.
fn view(machine: &Machine, start: usize, len: usize) {
    match machine.view(Target::Memory, start, len) {
        Ok(words) => {
            let words: Vec<String> = words.iter().map(|w| format!("{w:06o}")).collect();
            println!("view of {len} words at {start}: {}", words.join(" "));
        }
        Err(refusal) => {
            let number = refusal.number();
            println!("view of {len} words at {start}: refused {number}");
        }
    }
}

/// An image file has its words high byte first.
fn host(name: &OsStr) -> Result<(), Box<dyn Error>> {
    let image = nd110::image_words(&std::fs::read(name)?)?;
    let mut machine = Machine::load(&image, 16)?;
    step(&mut machine)?;
    raise(&mut machine, 10);
    raise(&mut machine, 14);
    step(&mut machine)?;
    run(&mut machine, 100)?;
    view(&machine, 0, 3);
    view(&machine, 16383, 2);
    Ok(())
}

fn main() -> ExitCode {
    let words: Vec<_> = std::env::args_os().skip(1).collect();
    let [name] = &words[..] else {
        eprintln!("{USAGE}");
        return ExitCode::FAILURE;
    };
    if name == "--help" {
        println!("{USAGE}");
        return ExitCode::SUCCESS;
    }
    match host(name) {
        Ok(()) => ExitCode::SUCCESS,
        Err(error) => {
            eprintln!("host: {}: {error}", name.to_string_lossy());
            ExitCode::FAILURE
        }
    }
}
