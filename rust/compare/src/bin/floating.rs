//! Floating numbers converted by both engines, random ones or every short one, and by the proved engine back.

use manual::floating::{Answer, shown};
use second::floating;
use std::collections::BTreeMap;
use std::ops::RangeInclusive;
use std::process::ExitCode;
use std::thread;

const USAGE: &str = "\
usage: floating SEED COUNT
       floating all

Converts COUNT random short floating numbers and as many long ones in the proved engine and in the
second engine and compares the answers. What was converted must come back, by the proved engine, to
the words that it came from. With 'all' these are every short number, and every long one that a short
one becomes, which takes minutes. The last line is 'N numbers compared, M differences'.";

fn to_long(short: [u16; 2]) -> Answer<3> {
    nd110::short_to_long(short).map_err(nd110::Refusal::number)
}

fn to_short(long: [u16; 3]) -> Answer<2> {
    nd110::long_to_short(long).map_err(nd110::Refusal::number)
}

/// How the numbers of one form were answered.
#[derive(Default)]
struct Tally {
    converted: u64,
    refused: BTreeMap<u16, u64>,
    differences: u64,
    first: Option<String>,
}

impl Tally {
    /// Both engines' answers to a number, and the proved engine's way back.
    fn hold<const N: usize, const M: usize>(
        &mut self,
        words: [u16; N],
        ours: Answer<M>,
        theirs: Result<[u16; M], second::Refusal>,
        back: impl Fn([u16; M]) -> Answer<N>,
    ) {
        match ours {
            Ok(_) => self.converted += 1,
            Err(number) => *self.refused.entry(number).or_default() += 1,
        }
        let theirs = theirs.map_err(second::Refusal::number);
        let back = ours.and_then(back);
        if ours == theirs && (ours.is_err() || back == Ok(words)) {
            return;
        }
        self.differences += 1;
        self.first.get_or_insert_with(|| {
            let [words, back] = [Ok(words), back].map(shown);
            let [ours, theirs] = [ours, theirs].map(shown);
            if ours == theirs {
                format!("{words}: both {ours}, which comes back as {back}")
            } else {
                format!("{words}: proved {ours}, second {theirs}")
            }
        });
    }

    fn add(&mut self, other: Tally) {
        self.converted += other.converted;
        for (number, count) in other.refused {
            *self.refused.entry(number).or_default() += count;
        }
        self.differences += other.differences;
        self.first = self.first.take().or(other.first);
    }

    fn numbers(&self) -> u64 {
        self.converted + self.refused.values().sum::<u64>()
    }

    fn print(&self, form: &str) {
        if let Some(first) = &self.first {
            println!("first difference: {first}");
        }
        print!("{form} numbers: {} converted", self.converted);
        for (number, count) in &self.refused {
            print!(", {count} refused {number}");
        }
        println!();
    }
}

/// What was compared, by the form of the number that was converted.
#[derive(Default)]
struct Compared {
    shorts: Tally,
    longs: Tally,
}

impl Compared {
    /// Answers what the number became.
    fn short(&mut self, short: [u16; 2]) -> Answer<3> {
        let long = to_long(short);
        let theirs = floating::short_to_long(short);
        self.shorts.hold(short, long, theirs, to_short);
        long
    }

    fn long(&mut self, long: [u16; 3]) {
        let theirs = floating::long_to_short(long);
        self.longs.hold(long, to_short(long), theirs, to_long);
    }

    fn random(seed: u64, count: usize) -> Compared {
        let mut compared = Compared::default();
        for short in floating::shorts(seed).take(count) {
            let _ = compared.short(short);
        }
        for long in floating::longs(seed).take(count) {
            compared.long(long);
        }
        compared
    }

    /// Every short number whose word A is among these, and what it becomes.
    fn every(words: RangeInclusive<u16>) -> Compared {
        let mut compared = Compared::default();
        for a in words {
            for d in 0..=u16::MAX {
                if let Ok(long) = compared.short([a, d]) {
                    compared.long(long);
                }
            }
        }
        compared
    }

    /// Every short number and what it becomes, those of each sign by a thread.
    fn all() -> Compared {
        thread::scope(|scope| {
            let plus = scope.spawn(|| Compared::every(0..=0o077777));
            let minus = Compared::every(0o100000..=0o177777);
            let mut compared = plus.join().expect("the thread ends");
            compared.shorts.add(minus.shorts);
            compared.longs.add(minus.longs);
            compared
        })
    }
}

fn main() -> ExitCode {
    cli::run(USAGE, |mut args| {
        let compared = if args.next_is("all") {
            args.end()?;
            Compared::all()
        } else {
            let seed = args.number("SEED", 0..=u64::MAX)?;
            let count = args.number("COUNT", 0..=u64::MAX)?;
            args.end()?;
            Compared::random(seed, count as usize)
        };
        let Compared { shorts, longs } = compared;
        shorts.print("short");
        longs.print("long");
        let numbers = shorts.numbers() + longs.numbers();
        let differences = shorts.differences + longs.differences;
        println!("{numbers} numbers compared, {differences} differences");
        if differences > 0 {
            return Err("the engines differ, or a number does not come back".into());
        }
        Ok(())
    })
}
