//! Worked examples read from a page of docs, in its own tables: what the page shows is what is executed.

use crate::Place::{self, Memory};
use crate::words::*;
use crate::{HERE, Words};

/// The lines of a page's tables that have so many cells.
pub fn lines<const CELLS: usize>(
    page: &'static str,
) -> impl Iterator<Item = [&'static str; CELLS]> {
    let tables = page.lines().filter(|line| line.starts_with('|'));
    tables.filter_map(|line| {
        let cells: Vec<&str> = line.trim_matches('|').split('|').map(str::trim).collect();
        cells.try_into().ok()
    })
}

pub fn octal(text: &str) -> u16 {
    u16::from_str_radix(text, 8).expect("an octal number")
}

/// A cell such as `A 000005, word 000003, C 1`.
pub fn named(cell: &str) -> impl Iterator<Item = (&str, u16)> {
    cell.split(", ").map(|item| {
        let (name, value) = item.split_once(' ').expect("a name and a word");
        (name, octal(value))
    })
}

fn flag(name: &str) -> Option<u16> {
    match name {
        "C" => Some(C),
        "O" => Some(O),
        "Q" => Some(Q),
        "M" => Some(M),
        _ => None,
    }
}

/// A register, or the word after the instruction.
fn place(name: &str) -> Place {
    match name {
        "D" => D,
        "B" => B,
        "A" => A,
        "T" => T,
        "X" => X,
        "word" => Memory(usize::from(HERE) + 1),
        _ => panic!("{name} is no register, flag or word"),
    }
}

/// Flags that are not named are 0.
pub fn words(cell: &str) -> Words {
    let flags = named(cell).filter_map(|(name, value)| Some(flag(name)? * value));
    let others = named(cell).filter(|(name, _)| flag(name).is_none());
    let mut words: Vec<_> = others.map(|(name, value)| (place(name), value)).collect();
    words.push((STS, flags.sum()));
    words.leak()
}

/// The word that a cell names, 0 if it does not.
#[cfg(test)]
pub fn get(cell: &str, name: &str) -> u16 {
    named(cell).find(|item| item.0 == name).map_or(0, |it| it.1)
}
