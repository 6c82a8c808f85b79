//! Pairs of rotations by both engines: two instructions against the one that stands for both, whole states compared.

use compare::engines::Both;
use second::rotations::{Pair, all, start};
use second::vectors::Start;
use std::collections::{BTreeMap, BTreeSet};
use std::process::ExitCode;

const USAGE: &str = "\
usage: rotations

Executes every pair of counts by SHT, SHD, SHA and SAD ROT, for some values and both M, in the proved
engine and in the second engine, and compares whole states. Then the one rotation that stands for the
pair, which must leave what the pair left, but for P. Of a pair that has none, every single count must
leave something else for one of the values. The last line is 'N pairs compared, M differences'.";

/// P among the registers of level 0.
const P: usize = 2;

/// So many steps of both engines, which must leave memory and page tables as they were; if they do not or if they
/// differ, in what.
fn stepped(start: &Start, steps: usize) -> Result<Both, Vec<String>> {
    let mut both = Both::new(start);
    for _ in 0..steps {
        let answers = both.step();
        answers
            .map_err(|(ours, theirs)| vec![format!("answer: proved {ours}, second {theirs}")])?;
        if !both.equal() {
            return Err(both.differing());
        }
    }
    let Start { memory, tables, .. } = &both.theirs;
    if (memory, tables) != (&start.memory, &start.tables) {
        return Err(vec!["memory or page tables are changed".into()]);
    }
    Ok(both)
}

/// Whether one step left the registers and control words that two steps left; P is one further after the second.
fn stands_for(one: &Both, two: &Both) -> bool {
    let mut words = one.ours.0;
    words[P] += 1;
    words == two.ours.0
}

/// For each pair of words that no single one stands for, the single ones that have not yet left anything else.
type Untold = BTreeMap<(u16, u16), BTreeSet<u16>>;

/// The pair, then the rotation that stands for it or every single count.
fn try_pair(pair: &Pair, start: &mut Start, untold: &mut Untold) -> Result<(), Vec<String>> {
    pair.put(start);
    let two = stepped(start, 2)?;
    if pair.put_joined(start) {
        if stands_for(&stepped(start, 1)?, &two) {
            return Ok(());
        }
        return Err(vec!["the joined rotation leaves something else".into()]);
    }
    let single = || pair.counts().collect();
    let left = untold
        .entry((pair.first, pair.second))
        .or_insert_with(single);
    for word in pair.counts() {
        pair.put_single(start, word);
        if !stands_for(&stepped(start, 1)?, &two) {
            left.remove(&word);
        }
    }
    Ok(())
}

fn main() -> ExitCode {
    cli::run(USAGE, |args| {
        args.end()?;
        let mut start = start();
        let mut untold = Untold::new();
        let (mut compared, mut differences) = (0, 0);
        for pair in all() {
            compared += 1;
            if let Err(lines) = try_pair(&pair, &mut start, &mut untold) {
                if differences == 0 {
                    println!("first difference: {pair}");
                    lines.iter().for_each(|line| println!("{line}"));
                }
                differences += 1;
            }
        }
        for ((first, second), words) in &untold {
            for word in words {
                println!("{word:06o} leaves what {first:06o} {second:06o} leaves");
                differences += 1;
            }
        }
        println!(
            "{} pairs of words with no single one for both",
            untold.len()
        );
        println!("{compared} pairs compared, {differences} differences");
        if differences > 0 {
            return Err("the engines or the rotations differ".into());
        }
        Ok(())
    })
}
