//! Additions by both engines: every pair of the second engine's values, with and without a carry in, by ADD, SUB, AAx
//! and RADD with its forms; whole states compared after the step.

use compare::engines::Both;
use second::additions::{all, start, values};
use std::process::ExitCode;

const USAGE: &str = "\
usage: additions

Adds every pair of some three hundred words by ADD, SUB, AAx and RADD with its forms, with and without
a carry in, in the proved engine and in the second engine, and compares whole states. The last line is
'N additions compared, M differences'.";

fn main() -> ExitCode {
    cli::run(USAGE, |args| {
        args.end()?;
        let values = values();
        let mut start = start();
        let (mut compared, mut differences) = (0, 0);
        for addition in all(&values) {
            addition.put(&mut start);
            let mut both = Both::new(&start);
            let answers = both.step();
            compared += 1;
            if answers.is_ok() && both.equal() {
                continue;
            }
            if differences == 0 {
                println!("first difference: {addition}");
                if let Err((ours, theirs)) = answers {
                    println!("answer: proved {ours}, second {theirs}");
                }
                both.differing().iter().for_each(|line| println!("{line}"));
            }
            differences += 1;
        }
        println!("every pair of {} words", values.len());
        println!("{compared} additions compared, {differences} differences");
        if differences > 0 {
            return Err("the engines differ".into());
        }
        Ok(())
    })
}
