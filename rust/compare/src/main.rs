//! The proved engine, as the static library, against the second engine: random machines and programs, whole states
//! compared after every step, or after runs of some steps each, and after each device input.

mod programs;
mod report;

use compare::engines::{Answers, Both};
use report::Taken;
use second::random::Random;
use second::vectors::{Start, older_image};
use second::{CONTROL_WORDS, DEVICE_WORDS, Input, TABLE_WORDS, control};
use std::process::ExitCode;
use std::time::{Duration, Instant};

const USAGE: &str = "\
usage: compare SEED STEPS

Follows the proved engine and the second engine on random machines and programs, half of them step
by step and half in runs of some steps each, with and without device input, and compares answers,
references of a run included, and whole states after every step, run and device input between them.
Every second program that is followed step by step is so by lent steps and raises; of every eighth
step the references are compared too, by a run of one step on a copy. The same seed gives the same
machines. The last line is 'N steps compared, M differences'.";

/// Steps that a program is followed.
const LENGTH: u64 = 64;
/// Most steps of one run of a program that is followed in runs.
const RUN: u64 = 24;
/// Of the single steps one in so many is taken by a run too, on a copy, since a step tells no references.
const SHARE: u64 = 8;
/// Words of the list of contents that the writer makes: the number of entries, and five of five words.
const CONTENTS: u64 = 1 + 5 * 5;

/// How a program is followed: by runs of some steps each, by steps, or by lent steps.
#[derive(Clone, Copy, PartialEq)]
enum By {
    Runs,
    Steps,
    Lent,
}

/// What is taken next of so many steps.
fn next(random: &mut Random, by: By, left: u64) -> Taken {
    match by {
        By::Runs => {
            let steps = 1 + random.below(RUN.min(left));
            match random.below(2) {
                0 => Taken::Run(steps),
                _ => Taken::WithInput(steps, programs::inputs(random, steps)),
            }
        }
        By::Steps => Taken::Step,
        By::Lent => Taken::Lent,
    }
}

struct Tally {
    steps: u64,
    /// Programs followed step by step.
    stepped: u64,
    differences: u64,
}

impl Tally {
    /// Counts a difference and prints the first.
    fn differ(&mut self, what: &str, show: impl FnOnce()) {
        if self.differences == 0 {
            println!("first difference: {what}");
            show();
        }
        self.differences += 1;
    }

    /// Notes an operation after which the engines should agree.
    fn note(&mut self, what: &str, answers: Result<(), Answers>, both: &Both) {
        if let Err((ours, theirs)) = answers {
            self.differ(what, || println!("answer: proved {ours}, second {theirs}"));
        } else if !both.equal() {
            self.differ(what, || {
                both.differing().iter().for_each(|l| println!("{l}"))
            });
        }
    }

    /// How the next program is followed. The two forms of a step take turns and are not drawn, so that a seed gives the
    /// machines that it gave before.
    fn by(&mut self, in_runs: bool) -> By {
        if in_runs {
            return By::Runs;
        }
        self.stepped += 1;
        if self.stepped.is_multiple_of(2) {
            By::Lent
        } else {
            By::Steps
        }
    }

    /// Step by step, or in runs of some steps each, with what a host does in between. What an engine keeps from one
    /// step of a run to the next shows in runs alone. A step that changes nothing ends it.
    fn follow(&mut self, random: &mut Random, start: &Start, by: By) {
        let mut both = Both::new(start);
        let mut left = LENGTH;
        while left > 0 {
            let before = both.theirs.clone();
            let taken = next(random, by, left);
            if by != By::Runs && self.steps.is_multiple_of(SHARE) {
                let one = Taken::Run(1);
                if report::differs(&before, &one) {
                    self.differ("references of a step", || report::print(&before, &one));
                    return;
                }
            }
            let answers = taken.by(&mut both);
            let steps = *answers.as_ref().unwrap_or(&1);
            self.steps += steps;
            if answers.is_err() || !both.equal() {
                self.differ("steps", || report::print(&before, &taken));
                return;
            }
            let ended = match taken {
                Taken::Step | Taken::Lent => both.theirs == before,
                Taken::Run(_) => steps == 0,
                // Before a level that is due: a run through goes on.
                Taken::WithInput(..) => false,
            };
            if ended {
                return;
            }
            left -= steps;
            self.host(random, &mut both, by);
        }
    }

    /// What a host does between two steps: nothing, device input, or a register of the running level set.
    fn host(&mut self, random: &mut Random, both: &mut Both, by: By) {
        match random.below(16) {
            0..=3 => {
                let input = programs::input(random);
                let answers = match (by, input) {
                    (By::Lent, Input::Raise(level)) => both.raise_lent(level),
                    _ => both.input(input),
                };
                self.note("device input", answers, both);
            }
            4..=7 => {
                let register = random.pick(&[1, 3, 4, 5, 5, 6, 7]);
                let level = usize::from(both.theirs.state.level);
                both.theirs.state.files[level][register] = programs::operand(random);
                both.ours.0 = both.theirs.state.to_words();
            }
            _ => {}
        }
    }

    /// Both runs from the start, and what is refused.
    fn operations(&mut self, random: &mut Random, start: &Start) {
        for first in [false, true] {
            let mut both = Both::new(start);
            let answers = both.run(random.below(2 * LENGTH), first);
            self.note(
                if first { "run to interrupt" } else { "run" },
                answers.map(|_| ()),
                &both,
            );
        }
        let mut both = Both::new(start);
        let steps = random.below(2 * LENGTH);
        let inputs = programs::inputs(random, steps);
        let answers = both.run_with_input(steps, &inputs);
        self.note("run with device input", answers.map(|_| ()), &both);
        if !random.one_in(16) {
            return;
        }
        let mut damaged = start.clone();
        programs::damage(random, &mut damaged);
        let mut both = Both::new(&damaged);
        let answers = both.step_lent();
        self.note("a lent step of any state", answers, &both);
        let mut both = Both::new(&damaged);
        let answers = both.step();
        self.note("a step of any state", answers, &both);
        let answers = both.write().map(|_| ());
        self.note("write of any state", answers, &both);
        let mut both = Both::new(&damaged);
        let answers = both.run_with_input(steps, &inputs);
        self.note(
            "run with device input of any state",
            answers.map(|_| ()),
            &both,
        );
        for input in [Input::Tick, Input::Typed(7), Input::ReadOut] {
            let mut both = Both::new(&damaged);
            let answers = both.input(input);
            self.note("device input of any state", answers, &both);
        }
        self.images(random, start);
    }

    /// Write, then load, the image whole or damaged.
    fn images(&mut self, random: &mut Random, start: &Start) {
        let mut both = Both::new(start);
        let mut image = match both.write() {
            Ok(image) => image,
            Err(answers) => return self.note("write", Err(answers), &both),
        };
        image.truncate(image.len() - 3);
        for _ in 0..random.below(3) {
            let at = random.below(CONTENTS) as usize;
            let control = CONTROL_WORDS as u16;
            let tables = TABLE_WORDS as u16;
            let devices = DEVICE_WORDS as u16;
            image[at] = random.pick(&[
                0,
                1,
                2,
                3,
                4,
                5,
                6,
                devices - 1,
                devices,
                devices + 1,
                control - 1,
                control,
                128,
                256,
                tables - 1,
                tables,
                0o177777,
            ]);
        }
        let answers = both.load(&image);
        self.note("load", answers, &both);
        for words in [control::PGS_HELD, control::EXTENDED, CONTROL_WORDS] {
            let answers = both.load(&older_image(start, words));
            self.note("load of an older image", answers, &both);
        }
    }
}

fn main() -> ExitCode {
    cli::run(USAGE, |mut args| {
        let seed = args.number("SEED", 0..=u64::MAX)?;
        let steps = args.number("STEPS", 0..=u64::MAX)?;
        args.end()?;
        let mut random = Random::new(seed);
        let pool = programs::pool(&mut random);
        let mut tally = Tally {
            steps: 0,
            stepped: 0,
            differences: 0,
        };
        let mut told = Instant::now();
        while tally.steps < steps {
            let start = programs::start(&mut random, &pool);
            let by = tally.by(random.one_in(2));
            tally.follow(&mut random, &start, by);
            tally.operations(&mut random, &start);
            if told.elapsed() > Duration::from_secs(10) {
                eprintln!(
                    "{} of {steps} steps, {} differences",
                    tally.steps, tally.differences
                );
                told = Instant::now();
            }
        }
        println!(
            "{} steps compared, {} differences",
            tally.steps, tally.differences
        );
        if tally.differences > 0 {
            return Err("the engines differ".into());
        }
        Ok(())
    })
}
