//! The worked additions of docs/ARITHMETIC.md.

use crate::page::{lines, octal, words};
use crate::{Example, Source};
use std::sync::LazyLock;

const PAGE: &str = include_str!("../../../docs/ARITHMETIC.md");

pub static EXAMPLES: LazyLock<Vec<Example>> = LazyLock::new(|| worked().map(example).collect());

/// Instruction, code, before, what is added, signs, after.
type Line = [&'static str; 6];

fn worked() -> impl Iterator<Item = Line> {
    lines(PAGE).filter(|[_, code, ..]: &Line| code.starts_with(|c: char| c.is_ascii_digit()))
}

fn example([text, code, before, _, _, after]: Line) -> Example {
    Example::one(
        Source::Arithmetic,
        text,
        octal(code),
        words(before),
        words(after),
    )
}

#[cfg(test)]
mod tests {
    use super::*;
    use crate::page::{get, named};

    /// The three signs, C and O.
    type Row = [&'static str; 5];

    fn table() -> Vec<Row> {
        let signs = |[first, ..]: &Row| ["+", "-"].contains(first);
        lines(PAGE).filter(signs).collect()
    }

    fn sign(word: u16) -> &'static str {
        if word < 0o100000 { "+" } else { "-" }
    }

    /// Operands and carry in of an addition, by document 002 and ruling D3.
    fn operands(code: u16, before: &str) -> [u16; 3] {
        const REGISTERS: [&str; 8] = ["", "D", "P", "B", "L", "A", "T", "X"];
        let register = |number: u16| get(before, REGISTERS[usize::from(number & 7)]);
        let has = |bit: u16| code & bit != 0;
        match code >> 11 {
            0o14 => [get(before, "A"), get(before, "word"), 0],
            0o15 => [get(before, "A"), !get(before, "word"), 1],
            0o36 => {
                let name = ["B", "A", "T", "X"][usize::from(code >> 8 & 3)];
                [get(before, name), code as u8 as i8 as u16, 0]
            }
            _ => {
                let (source, destination) = (register(code >> 3), register(code));
                [
                    if has(0o100) { 0 } else { destination },
                    if has(0o200) { !source } else { source },
                    u16::from(has(0o400)) + u16::from(has(0o1000)) * get(before, "C"),
                ]
            }
        }
    }

    #[test]
    fn table_has_each_row_once() {
        let rows: Vec<String> = table().iter().map(|row| row[..3].concat()).collect();
        let all = ["+++", "++-", "+-+", "+--", "-++", "-+-", "--+", "---"];
        assert_eq!(rows, all);
    }

    /// By whole numbers, and by the page's own table.
    #[test]
    fn every_line_is_right() {
        for line in worked() {
            let [_, code, before, adds, signs, after] = line;
            let [a, b, c] = operands(octal(code), before);
            assert_eq!(adds, format!("{a:06o} + {b:06o} + {c}"), "{line:?}");
            let whole = u32::from(a) + u32::from(b) + u32::from(c);
            let signed = i32::from(a as i16) + i32::from(b as i16) + i32::from(c);
            let value = whole as u16;
            let overflow = u16::from(!(-32_768..=32_767).contains(&signed));
            let must = [
                value,
                u16::from(whole > 65_535),
                overflow,
                get(before, "Q") | overflow,
            ];
            let result = named(after).next().expect("a result").1;
            let is = ["C", "O", "Q"].map(|name| get(after, name));
            assert_eq!([result, is[0], is[1], is[2]], must, "{line:?}");

            assert_eq!(signs, [sign(a), sign(b), sign(value)].join(" "), "{line:?}");
            let row = table().into_iter().find(|row| row[..3].join(" ") == signs);
            let [.., carry, overflow] = row.expect("a row of these signs");
            assert_eq!([octal(carry), octal(overflow)], [is[0], is[1]], "{line:?}");
        }
    }

    /// With and without a carry in.
    #[test]
    fn every_row_is_worked() {
        for row in table() {
            for carry in ["0", "1"] {
                let signs = row[..3].join(" ");
                let has = |line: Line| line[4] == signs && line[3].ends_with(carry);
                assert!(worked().any(has), "{signs} with a carry in of {carry}");
            }
        }
    }
}
