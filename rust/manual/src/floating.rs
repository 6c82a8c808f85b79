//! The worked numbers of docs/FLOATING.md, in both forms, and the words that must be refused.

use crate::page::lines;
use Conversion::{ToLong, ToShort};

const PAGE: &str = include_str!("../../../docs/FLOATING.md");

/// Converted words, or a refusal's number.
pub type Answer<const N: usize> = Result<[u16; N], u16>;

/// The words of a number and the answer that they must get.
#[derive(Clone, Copy, Debug)]
pub enum Conversion {
    ToLong([u16; 2], Answer<3>),
    ToShort([u16; 3], Answer<2>),
}

/// Every number that has both forms, each way, and all that is refused.
pub fn conversions() -> impl Iterator<Item = Conversion> {
    let each_way = |(_, short, long)| [ToLong(short, Ok(long)), ToShort(long, Ok(short))];
    converted().flat_map(each_way).chain(refused())
}

/// Number, short, long.
fn converted() -> impl Iterator<Item = (&'static str, [u16; 2], [u16; 3])> {
    lines(PAGE).filter_map(|[number, short, long]| Some((number, words(short)?, words(long)?)))
}

fn refused() -> impl Iterator<Item = Conversion> {
    lines(PAGE).filter_map(|[cell, answer, _why]| {
        let number = answer.parse().ok()?;
        let short = words(cell).map(|short| ToLong(short, Err(number)));
        short.or_else(|| Some(ToShort(words(cell)?, Err(number))))
    })
}

/// Those of a cell of so many octal words.
fn words<const N: usize>(cell: &str) -> Option<[u16; N]> {
    let words = cell.split(' ').map(|word| u16::from_str_radix(word, 8));
    let words: Vec<u16> = words.collect::<Result<_, _>>().ok()?;
    words.try_into().ok()
}

/// A line for each answer of an engine's two conversions that is not the page's.
pub fn differences(
    to_long: impl Fn([u16; 2]) -> Answer<3>,
    to_short: impl Fn([u16; 3]) -> Answer<2>,
) -> Vec<String> {
    let differing = |conversion| match conversion {
        ToLong(short, must) => difference(short, to_long(short), must),
        ToShort(long, must) => difference(long, to_short(long), must),
    };
    conversions().filter_map(differing).collect()
}

fn difference<const N: usize, const M: usize>(
    words: [u16; N],
    is: Answer<M>,
    must: Answer<M>,
) -> Option<String> {
    (is != must).then(|| {
        let [words, is, must] = [shown(Ok(words)), shown(is), shown(must)];
        format!("docs/FLOATING.md, {words}: {is}, not {must}")
    })
}

/// An answer for readers.
pub fn shown<const N: usize>(answer: Answer<N>) -> String {
    match answer {
        Ok(words) => cli::octal::text(&words),
        Err(number) => format!("refused {number}"),
    }
}

#[cfg(test)]
mod tests {
    use super::*;

    /// Rows of the page's two tables.
    const CONVERTED: usize = 10;
    const REFUSED: usize = 10;

    #[test]
    fn page_is_read_whole() {
        let rows = [converted().count(), refused().count()];
        let message = "rows converted and refused: some are not read, or the page has others now";
        assert_eq!(rows, [CONVERTED, REFUSED], "{message}");
    }

    #[test]
    fn differences_name_their_words() {
        let lines = differences(|_| Err(9), |_| Ok([1, 2]));
        assert_eq!(lines.len(), 2 * CONVERTED + REFUSED);
        for line in [
            "docs/FLOATING.md, 040240 000000: refused 9, not 040002 140000 000000",
            "docs/FLOATING.md, 040002 140000 000000: 000001 000002, not 040240 000000",
            "docs/FLOATING.md, 100000 000000: refused 9, not refused 15",
            "docs/FLOATING.md, 040400 100000 000000: 000001 000002, not refused 16",
        ] {
            assert!(lines.iter().any(|other| other == line), "{line}");
        }
    }

    /// Factor x 2^power.
    type Value = (i128, i32);

    /// The same value with an odd factor, or zero as (0, 0).
    fn lowest((factor, power): Value) -> Value {
        match factor.trailing_zeros() {
            i128::BITS => (0, 0),
            zeros => (factor >> zeros, power + zeros as i32),
        }
    }

    fn sum((a, i): Value, (b, j): Value) -> Value {
        let power = i.min(j);
        let scaled = |factor: i128, from: i32| factor * 2_i128.pow(from.abs_diff(power));
        (scaled(a, i) + scaled(b, j), power)
    }

    /// A number such as `+3`, `-1/2` or `2^255 - 2^232`.
    fn number(cell: &str) -> Value {
        let terms = cell.replace("+ ", "+").replace("- ", "-");
        lowest(terms.split(' ').map(term).reduce(sum).expect("a term"))
    }

    fn term(text: &str) -> Value {
        let whole = |digits: &str| digits.parse::<i32>().expect("a whole number");
        let size = text.trim_start_matches(['+', '-']);
        let sign = if text.starts_with('-') { -1 } else { 1 };
        if let Some(power) = size.strip_prefix("2^") {
            return (sign, whole(power));
        }
        let (over, under) = size.split_once('/').unwrap_or((size, "1"));
        let under = whole(under);
        assert_eq!(under.count_ones(), 1, "{text}");
        (sign * i128::from(whole(over)), -under.ilog2().cast_signed())
    }

    /// By the page's table of the forms.
    fn short_value([a, d]: [u16; 2]) -> Value {
        if [a, d] == [0, 0] {
            return (0, 0);
        }
        let mantissa = i128::from(a & 0o77) << 16 | i128::from(d);
        let field = i32::from(a >> 6 & 0o777);
        signed(a, (1 << 22) + mantissa, field - 256 - 23)
    }

    fn long_value([t, a, d]: [u16; 3]) -> Value {
        let mantissa = i128::from(a) << 16 | i128::from(d);
        let field = i32::from(t & 0o77777);
        signed(t, mantissa, field - 16_384 - 32)
    }

    fn signed(first: u16, factor: i128, power: i32) -> Value {
        let sign = if first < 0o100000 { 1 } else { -1 };
        lowest((sign * factor, power))
    }

    #[test]
    fn both_forms_are_of_the_number() {
        for (cell, short, long) in converted() {
            let values = [short_value(short), long_value(long)];
            assert_eq!(values, [number(cell); 2], "{cell}");
        }
    }
}
