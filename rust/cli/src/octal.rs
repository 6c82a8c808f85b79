//! Octal text, as images are written by hand.

use std::error::Error;
use std::fmt;

/// What is no octal number of 16 bits, and its line.
#[derive(Debug, PartialEq, Eq)]
pub struct Wrong {
    pub line: usize,
    pub word: String,
}

impl fmt::Display for Wrong {
    fn fmt(&self, f: &mut fmt::Formatter<'_>) -> fmt::Result {
        let Wrong { line, word } = self;
        write!(
            f,
            "line {line}: '{word}' is no octal number of at most 177777"
        )
    }
}

impl Error for Wrong {}

/// An octal number of 16 bits: digits alone, at most 177777.
pub fn number(text: &str) -> Option<u16> {
    let value = u16::from_str_radix(text, 8).ok()?;
    (!text.starts_with('+')).then_some(value)
}

/// Words in six octal digits each, parted by blanks.
pub fn text(words: &[u16]) -> String {
    let words: Vec<String> = words.iter().map(|word| format!("{word:06o}")).collect();
    words.join(" ")
}

/// The words of octal text: numbers from 0 to 177777, parted by blanks or lines. `#` begins a comment.
pub fn words(text: &str) -> Result<Vec<u16>, Wrong> {
    let mut words = Vec::new();
    for (line, text) in (1..).zip(text.lines()) {
        let numbers = text.split('#').next().unwrap_or_default();
        for word in numbers.split_whitespace() {
            let wrong = || Wrong {
                line,
                word: word.to_string(),
            };
            words.push(number(word).ok_or_else(wrong)?);
        }
    }
    Ok(words)
}

#[cfg(test)]
mod tests {
    use super::*;

    #[test]
    fn numbers_comments_and_lines() {
        let text = "1 177777 # 99 is no number here\n\n#8\n  000000007\t10\r\n";
        assert_eq!(words(text).unwrap(), [1, 65535, 7, 8]);
        assert_eq!(words("").unwrap(), []);
    }

    #[test]
    fn text_of_words() {
        assert_eq!(text(&[0, 8, 0o177777]), "000000 000010 177777");
        assert_eq!(text(&[]), "");
    }

    #[test]
    fn the_line_of_what_is_wrong() {
        for word in [
            "200000",
            "8",
            "x",
            "-1",
            "+1",
            "1.",
            "777777777777777777777",
        ] {
            let wrong = Wrong {
                line: 3,
                word: word.to_string(),
            };
            assert_eq!(words(&format!("1 2\n# 9\n3 {word} 4\n")), Err(wrong));
        }
    }
}
