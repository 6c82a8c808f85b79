//! The proved engine and the second engine on one image: runs, single steps, load and write; and how a run's time
//! grows.
mod image;

use image::{Image, Machine, machine};
use second::State;
use std::process::ExitCode;
use std::time::Instant;

const USAGE: &str = "\
usage: bench [STEPS]
       bench ours STEPS [extended | iox | tra] [calls | lent]
       bench rust STEPS [extended | iox | tra] [calls]

Times the proved engine (ours) and the second engine (Rust) on mixed.octal, and runs of
extended.octal, iox.octal and tra.octal, 30,000,000 steps a repetition unless said otherwise. The
last line is 'ratio R', the median of our run of mixed.octal over that of Rust's. With 'ours' or
'rust' it only runs that engine, for a profiler; with the name of another image that one; with
'calls' by as many calls of the step, with 'lent' by as many of the lent step. Built with the feature
'inlined' the second engine has forced inlining on the path of its step.";

const REPETITIONS: usize = 5;
/// A repetition is so many slices of each engine, in turn, so that what disturbs the machine disturbs both.
const SLICES: u64 = 10;

/// What is left: the state's words in image order, memory, tables; the references of a run, 0 of all else; and the
/// seconds that it took.
struct Left {
    words: [u16; nd110::STATE_WORDS],
    memory: Vec<u16>,
    tables: Vec<u16>,
    references: u64,
    seconds: f64,
}

/// How steps are taken: a run through, or as many calls of the step or of the lent step. The second engine has one.
#[derive(Clone, Copy)]
enum By {
    Run,
    Calls,
    Lent,
}

fn ours(image: Image, pages: usize, n: u64, by: By) -> Left {
    let Machine {
        mut state,
        mut memory,
        mut tables,
    } = machine(image, pages);
    let mut references = 0;
    let began = Instant::now();
    match by {
        By::Run => {
            let ran = nd110::run(&mut state, &mut memory, &mut tables, n).expect("no refusal");
            assert_eq!((ran.steps, ran.reason), (n, nd110::Reason::Spent));
            references = ran.references;
        }
        By::Calls => {
            for _ in 0..n {
                nd110::step(&mut state, &mut memory, &mut tables).expect("no refusal");
            }
        }
        By::Lent => {
            for _ in 0..n {
                nd110::step_lent(&mut state, &mut memory, &mut tables).expect("no refusal");
            }
        }
    }
    let seconds = began.elapsed().as_secs_f64();
    Left {
        words: state.0,
        memory,
        tables,
        references,
        seconds,
    }
}

fn rust(image: Image, pages: usize, n: u64, by: By) -> Left {
    let start = machine(image, pages);
    let mut state = State::from_words(&start.state.0);
    let (mut memory, mut tables) = (start.memory, start.tables);
    let mut references = 0;
    let began = Instant::now();
    match by {
        By::Run => {
            let ran = second::run(&mut state, &mut memory, &mut tables, n, false);
            let ran = ran.expect("no refusal");
            assert_eq!((ran.steps, ran.reason), (n, second::Reason::Spent));
            references = ran.references;
        }
        By::Calls | By::Lent => {
            for _ in 0..n {
                second::step(&mut state, &mut memory, &mut tables).expect("no refusal");
            }
        }
    }
    let seconds = began.elapsed().as_secs_f64();
    Left {
        words: state.to_words(),
        memory,
        tables,
        references,
        seconds,
    }
}

/// Write and load `n` times over.
fn our_images(pages: usize, n: u64) -> Left {
    let Machine {
        mut state,
        mut memory,
        mut tables,
    } = machine(Image::Mixed, pages);
    let mut out = vec![0; memory.len() + nd110::IMAGE_EXTRA];
    let began = Instant::now();
    for _ in 0..n {
        nd110::write(&state, &memory, &tables, &mut out).expect("no refusal");
        state = nd110::load(&out, &mut memory, &mut tables).expect("no refusal");
    }
    let seconds = began.elapsed().as_secs_f64();
    Left {
        words: state.0,
        memory,
        tables,
        references: 0,
        seconds,
    }
}

fn rust_images(pages: usize, n: u64) -> Left {
    let start = machine(Image::Mixed, pages);
    let mut state = State::from_words(&start.state.0);
    let (mut memory, mut tables) = (start.memory, start.tables);
    let mut out = vec![0; memory.len() + second::IMAGE_EXTRA];
    let began = Instant::now();
    for _ in 0..n {
        second::write(&state, &memory, &tables, &mut out).expect("no refusal");
        state = second::load(&out, &mut memory, &mut tables).expect("no refusal");
    }
    let seconds = began.elapsed().as_secs_f64();
    Left {
        words: state.to_words(),
        memory,
        tables,
        references: 0,
        seconds,
    }
}

fn same(a: &Left, b: &Left) {
    assert!(a.words == b.words, "registers, control words and devices");
    assert!(a.memory == b.memory, "memory");
    assert!(a.tables == b.tables, "tables");
    assert_eq!(a.references, b.references, "references");
    assert_eq!(a.words[135], 0, "the image gives no interrupt");
}

fn median(mut times: Vec<f64>) -> f64 {
    times.sort_by(f64::total_cmp);
    times[times.len() / 2]
}

/// Slices of n each of both in turn, so often; the medians of the repetitions and their ratio.
fn both(label: &str, n: u64, ours: impl Fn() -> Left, rust: impl Fn() -> Left) -> f64 {
    let (mut a, mut b) = (Vec::new(), Vec::new());
    for _ in 0..REPETITIONS {
        let (mut our_time, mut rust_time) = (0.0, 0.0);
        for _ in 0..SLICES {
            let (x, y) = (ours(), rust());
            same(&x, &y);
            our_time += x.seconds;
            rust_time += y.seconds;
        }
        a.push(our_time);
        b.push(rust_time);
    }
    let (a, b) = (median(a), median(b));
    let ns = 1e9 / (n * SLICES) as f64;
    println!(
        "{label}: median ns each: ours {:.2}, Rust {:.2}; ours over Rust {:.3}",
        a * ns,
        b * ns,
        a / b
    );
    a / b
}

/// A run's time for more steps, and for more memory, over that of the least.
fn growth(steps: u64) {
    let time = |pages, n| {
        median(
            (0..REPETITIONS)
                .map(|_| ours(Image::Mixed, pages, n, By::Run).seconds)
                .collect(),
        )
    };
    let least = time(64, steps);
    for k in [2, 4, 8] {
        println!(
            "run of {k} times the steps: {:.2} times the time",
            time(64, k * steps) / least
        );
    }
    for pages in [128, 256, 512] {
        println!(
            "run with {} times the memory: {:.2} times the time",
            pages / 64,
            time(pages, steps) / least
        );
    }
}

/// Everything that is measured; the ratio of the runs last.
fn compare(steps: u64) {
    let few = (steps / 20).max(1);
    let slice = (steps / SLICES).max(1);
    let calls = (few / SLICES).max(1);
    both(
        "write and load of 64 pages",
        10,
        || our_images(64, 10),
        || rust_images(64, 10),
    );
    for (label, by) in [("step calls", By::Calls), ("lent step calls", By::Lent)] {
        both(
            label,
            calls,
            || ours(Image::Mixed, 64, calls, by),
            || rust(Image::Mixed, 64, calls, by),
        );
    }
    growth(few);
    let run = |label, image| {
        both(
            label,
            slice,
            || ours(image, 64, slice, By::Run),
            || rust(image, 64, slice, By::Run),
        )
    };
    run("run in extended mode", Image::Extended);
    run("run of IOX", Image::Iox);
    run("run of TRA", Image::Tra);
    let ratio = run("run", Image::Mixed);
    println!("ratio {ratio:.3}");
}

fn main() -> ExitCode {
    cli::run(USAGE, |mut args| {
        let is_ours = args.next_is("ours");
        if !is_ours && !args.next_is("rust") {
            let steps = args.optional_number("STEPS", 1..=u64::MAX)?;
            args.end()?;
            compare(steps.unwrap_or(30_000_000));
            return Ok(());
        }
        let steps = args.number("STEPS", 1..=u64::MAX)?;
        let mut named = Image::NAMED.into_iter();
        let image = named.find(|(name, _)| args.next_is(name));
        let image = image.map_or(Image::Mixed, |(_, image)| image);
        let by = if args.next_is("calls") {
            By::Calls
        } else if is_ours && args.next_is("lent") {
            By::Lent
        } else {
            By::Run
        };
        args.end()?;
        let engine = if is_ours { ours } else { rust };
        let p = nd110::Register::P as usize;
        println!("{}", engine(image, 64, steps, by).words[p]);
        Ok(())
    })
}
