//! The worked joins of docs/ROTATIONS.md: the pair and, where there is one, the joined rotation, each from the same
//! machine to the same words.

use crate::page::{lines, octal, words};
use crate::words::P;
use crate::{Example, HERE, Source};
use std::sync::LazyLock;

const PAGE: &str = include_str!("../../../docs/ROTATIONS.md");

pub static EXAMPLES: LazyLock<Vec<Example>> =
    LazyLock::new(|| worked().flat_map(examples).collect());

/// First and its code, second and its code, joined and its code, before, after.
type Line = [&'static str; 8];

/// What stands for a joined rotation where there is none.
const NONE: &str = "none";

fn worked() -> impl Iterator<Item = Line> {
    lines(PAGE).filter(|[_, code, ..]: &Line| code.starts_with(|c: char| c.is_ascii_digit()))
}

fn examples(line: Line) -> impl Iterator<Item = Example> {
    [Some(pair(line)), joined(line)].into_iter().flatten()
}

fn pair([first, code, second, next, _, _, before, after]: Line) -> Example {
    let after = [words(after), &[(P, HERE + 2)]].concat();
    Example {
        source: Source::Rotations,
        text: format!("{first}; {second}").leak(),
        word: octal(code),
        next: vec![octal(next)].leak(),
        steps: 2,
        before: words(before),
        after: after.leak(),
    }
}

fn joined([.., text, code, before, after]: Line) -> Option<Example> {
    let one = || {
        Example::one(
            Source::Rotations,
            text,
            octal(code),
            words(before),
            words(after),
        )
    };
    (code != NONE).then(one)
}

#[cfg(test)]
mod tests {
    use super::*;
    use crate::page::get;

    /// The count in bits 5-0, left when positive.
    fn count(code: u16) -> i32 {
        let count = i32::from(code & 0o77);
        if count < 32 { count } else { count - 64 }
    }

    /// Bits 8-7 tell the register.
    fn width(code: u16) -> i32 {
        if code >> 7 & 3 == 3 { 32 } else { 16 }
    }

    /// As document 002 writes it.
    fn text(code: u16) -> String {
        let register = ["SHT", "SHD", "SHA", "SAD"][usize::from(code >> 7 & 3)];
        match count(code) {
            right @ ..0 => format!("{register} ROT SHR {:o}", -right),
            left => format!("{register} ROT {left:o}"),
        }
    }

    /// The rule of the page for whoever adds in octal, on the words themselves.
    fn by_digits(first: u16, second: u16) -> Option<u16> {
        let register = first & !0o77;
        let [i, j] = [first & 0o77, second & 0o77];
        let last = if j == 0 { i } else { j };
        let wide = width(first) == 32;
        let r = (i + j) % if wide { 0o40 } else { 0o20 };
        let digits = match (last, wide) {
            (0, _) => 0,
            (1..0o40, true) if r == 0 => return None,
            (1..0o40, false) if r == 0 => 0o20,
            (1..0o40, _) => r,
            (_, true) => 0o40 + r,
            (_, false) => 0o60 + r,
        };
        Some(register + digits)
    }

    /// The rule over whole numbers, by ruling D11.
    fn by_counts(first: u16, second: u16) -> Option<u16> {
        let (i, j, width) = (count(first), count(second), width(first));
        let r = (i + j).rem_euclid(width);
        let last = if j == 0 { i } else { j };
        let joined = match last {
            0 => 0,
            1.. if r == 0 => width,
            1.. => r,
            _ => r - width,
        };
        let in_field = (-32..32).contains(&joined);
        in_field.then_some(first & !0o77 | joined as u16 & 0o77)
    }

    #[test]
    fn both_rules_are_one() {
        for register in [0o155000, 0o155200, 0o155400, 0o155600] {
            for first in register..register + 0o100 {
                for second in register..register + 0o100 {
                    let same = by_digits(first, second) == by_counts(first, second);
                    assert!(same, "{first:06o} {second:06o}");
                }
            }
        }
    }

    /// Value and M after one rotation of a register, or of A and D.
    fn rotated(code: u16, before: &str) -> (u32, u16) {
        let (count, m) = (count(code), get(before, "M"));
        let places = count.unsigned_abs();
        let [left, right] = if width(code) == 32 {
            let value = u32::from(get(before, "A")) << 16 | u32::from(get(before, "D"));
            [value.rotate_left(places), value.rotate_right(places)]
        } else {
            let value = ["T", "D", "A"].map(|name| get(before, name));
            let value = value[usize::from(code >> 7 & 3)];
            [value.rotate_left(places), value.rotate_right(places)].map(u32::from)
        };
        match count {
            0 => (left, m),
            1.. => (left, (left & 1) as u16),
            _ => (right, (right >> (width(code) - 1)) as u16),
        }
    }

    fn cell(code: u16, (value, m): (u32, u16)) -> String {
        match code >> 7 & 3 {
            3 => format!("A {:06o}, D {:06o}, M {m}", value >> 16, value & 0o177777),
            register => format!(
                "{} {value:06o}, M {m}",
                ["T", "D", "A"][usize::from(register)]
            ),
        }
    }

    #[test]
    fn every_line_is_right() {
        for line in worked() {
            let [first, code, second, next, joined, one, before, after] = line;
            let [code, next] = [code, next].map(octal);
            assert_eq!([first, second], [text(code), text(next)], "{line:?}");
            let between = cell(code, rotated(code, before));
            assert_eq!(after, cell(next, rotated(next, &between)), "{line:?}");
            let must = by_counts(code, next);
            assert_eq!(
                one,
                must.map_or(NONE.into(), |word| format!("{word:06o}")),
                "{line:?}"
            );
            assert_eq!(joined, must.map_or(NONE.into(), text), "{line:?}");
            if let Some(word) = must {
                assert_eq!(after, cell(word, rotated(word, before)), "{line:?}");
            }
        }
    }

    /// Both widths, each with the second count positive, negative and 0, and for each of these a sum of whole widths; a
    /// pair that has no joined word.
    #[test]
    fn every_case_is_worked() {
        for wide in [16, 32] {
            let of_width = |[_, code, ..]: &Line| width(octal(code)) == wide;
            let counts = |[_, code, _, next, ..]: Line| [code, next].map(|code| count(octal(code)));
            for sign in [-1, 0, 1] {
                let pairs = || worked().filter(of_width).map(counts);
                assert!(
                    pairs().any(|[_, second]| second.signum() == sign),
                    "{wide} {sign}"
                );
                let whole = |[i, j]: [i32; 2]| j.signum() == sign && (i + j) % wide == 0;
                assert!(pairs().any(whole), "{wide} {sign}, whole widths");
            }
        }
        assert!(worked().any(|line| line[5] == NONE));
    }

    #[test]
    fn no_line_is_left_out() {
        let lines = PAGE.lines().filter(|line| line.starts_with("| S"));
        assert_eq!(lines.count(), worked().count());
    }
}
