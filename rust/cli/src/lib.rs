//! What the programs of this workspace share: command lines and octal text.

pub mod octal;

use std::error::Error;
use std::ffi::OsString;
use std::fmt;
use std::io::{self, ErrorKind};
use std::ops::RangeInclusive;
use std::process::ExitCode;
use std::vec::IntoIter;

/// What ends a program early, to be told on standard error.
pub type Trouble = Box<dyn Error>;

/// Trouble with an exit status of its own.
#[derive(Debug)]
pub struct WithStatus {
    pub status: u8,
    pub trouble: Trouble,
}

impl fmt::Display for WithStatus {
    fn fmt(&self, f: &mut fmt::Formatter<'_>) -> fmt::Result {
        self.trouble.fmt(f)
    }
}

impl Error for WithStatus {}

/// Runs a program on its command line. `usage` begins with `usage: NAME`; it is printed for `--help`. Trouble is a
/// message on standard error and exit status 1, or the one that it has. Output that nobody reads any more is no
/// trouble.
pub fn run(usage: &str, program: impl FnOnce(Args) -> Result<(), Trouble>) -> ExitCode {
    let words: Vec<OsString> = std::env::args_os().skip(1).collect();
    if words.iter().any(|word| word == "--help") {
        println!("{usage}");
        return ExitCode::SUCCESS;
    }
    match program(Args(words.into_iter())) {
        Err(trouble) if !unread(&trouble) => {
            let name = usage.split_whitespace().nth(1).unwrap_or_default();
            eprintln!("{name}: {trouble}");
            let with: Option<&WithStatus> = trouble.downcast_ref();
            with.map_or(ExitCode::FAILURE, |with| ExitCode::from(with.status))
        }
        _ => ExitCode::SUCCESS,
    }
}

fn unread(trouble: &Trouble) -> bool {
    let error: Option<&io::Error> = trouble.downcast_ref();
    error.is_some_and(|e| e.kind() == ErrorKind::BrokenPipe)
}

/// The words of a command line that are not yet taken.
pub struct Args(IntoIter<OsString>);

impl Args {
    /// Takes the next word if it is this one.
    pub fn next_is(&mut self, word: &str) -> bool {
        let is = self.0.as_slice().first().is_some_and(|next| next == word);
        if is {
            self.0.next();
        }
        is
    }

    /// The next word, which `name` stands for in the usage.
    pub fn word(&mut self, name: &str) -> Result<OsString, Trouble> {
        self.0
            .next()
            .ok_or_else(|| format!("no {name}; see --help").into())
    }

    /// The next word as a number, if there is one.
    pub fn optional_number(
        &mut self,
        name: &str,
        range: RangeInclusive<u64>,
    ) -> Result<Option<u64>, Trouble> {
        self.0
            .next()
            .map(|word| number(name, &word.to_string_lossy(), range))
            .transpose()
    }

    /// The next word as a number.
    pub fn number(&mut self, name: &str, range: RangeInclusive<u64>) -> Result<u64, Trouble> {
        let word = self.word(name)?;
        number(name, &word.to_string_lossy(), range)
    }

    /// The words that are left as octal numbers of 16 bits, each in one to six digits.
    pub fn octal_words(self, name: &str) -> Result<Vec<u16>, Trouble> {
        self.0
            .map(|word| octal_number(name, &word.to_string_lossy()))
            .collect()
    }

    /// No word is left.
    pub fn end(mut self) -> Result<(), Trouble> {
        match self.0.next() {
            None => Ok(()),
            Some(word) => {
                let word = word.to_string_lossy();
                Err(format!("'{word}' is one word too many; see --help").into())
            }
        }
    }
}

/// Decimal digits alone, in the range.
fn number(name: &str, text: &str, range: RangeInclusive<u64>) -> Result<u64, Trouble> {
    let digits = text.bytes().all(|byte| byte.is_ascii_digit());
    match text.parse() {
        Ok(value) if digits && range.contains(&value) => Ok(value),
        _ => Err(format!(
            "{name} is a number from {} to {}, not '{text}'; see --help",
            range.start(),
            range.end()
        )
        .into()),
    }
}

fn octal_number(name: &str, text: &str) -> Result<u16, Trouble> {
    let short = text.len() <= 6;
    octal::number(text).filter(|_| short).ok_or_else(|| {
        format!("{name} is octal, one to six digits, at most 177777, not '{text}'; see --help")
            .into()
    })
}

#[cfg(test)]
mod tests {
    use super::*;

    fn args(words: &[&str]) -> Args {
        let words: Vec<OsString> = words.iter().map(OsString::from).collect();
        Args(words.into_iter())
    }

    #[test]
    fn numbers_are_strict() {
        for text in [
            "",
            "x",
            "+5",
            "-1",
            "5 ",
            "0x5",
            "1e3",
            "5.0",
            "16385",
            "18446744073709551616",
        ] {
            assert!(args(&[text]).number("PAGES", 1..=16_384).is_err(), "{text}");
        }
        let mut two = args(&["1", "16384"]);
        assert_eq!(two.number("PAGES", 1..=16_384).unwrap(), 1);
        assert_eq!(
            two.optional_number("PAGES", 1..=16_384).unwrap(),
            Some(16_384)
        );
        assert_eq!(two.optional_number("PAGES", 1..=16_384).unwrap(), None);
        assert!(two.number("PAGES", 1..=16_384).is_err());
        let most = args(&["18446744073709551615"]).number("STEPS", 0..=u64::MAX);
        assert_eq!(most.unwrap(), u64::MAX);
    }

    #[test]
    fn octal_numbers_are_strict() {
        for text in ["", "8", "x", "+5", "-1", "5 ", "0o5", "200000", "0000005"] {
            assert!(args(&["0", text]).octal_words("WORD").is_err(), "{text}");
        }
        let words = args(&["0", "10", "000377", "177777"]).octal_words("WORD");
        assert_eq!(words.unwrap(), [0, 8, 255, 65535]);
        assert_eq!(args(&[]).octal_words("WORD").unwrap(), []);
    }

    #[test]
    fn no_word_is_dropped() {
        assert!(args(&["a"]).end().is_err());
        let mut one = args(&["a"]);
        assert!(!one.next_is("b"));
        assert_eq!(one.word("FILE").unwrap(), "a");
        assert!(one.end().is_ok());
    }
}
