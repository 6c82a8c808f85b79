//! The vector format read back.

use second::random::Random;
use second::vectors::{Start, case_text, start};
use second::*;
use std::process::Command;

/// The fields of a line after its name.
fn fields<'a>(lines: &mut std::str::Lines<'a>, name: &str) -> Vec<&'a str> {
    let mut parts = lines.next().expect("a line").split(' ');
    assert_eq!(parts.next(), Some(name));
    parts.collect()
}

fn octal(text: &str) -> u16 {
    u16::from_str_radix(text, 8).expect("octal")
}

/// Puts index:word pairs.
fn put(words: &mut [u16], pairs: &[&str]) {
    for pair in pairs {
        let (index, word) = pair.split_once(':').expect("a pair");
        words[usize::from(octal(index))] = octal(word);
    }
}

#[test]
fn vectors_read_back() {
    let mut random = Random::new(11);
    for number in 0..500 {
        let begin = start(&mut random);
        let text = case_text(number, &begin);
        let mut lines = text.lines();
        let head = fields(&mut lines, "case");
        assert_eq!(head[..2], [number.to_string().as_str(), "pages"]);
        let pages: usize = head[2].parse().expect("pages");
        let mut words = [0; STATE_WORDS];
        put(&mut words[..128], &fields(&mut lines, "reg"));
        put(&mut words[128..156], &fields(&mut lines, "ctl"));
        put(&mut words[156..], &fields(&mut lines, "dev"));
        let mut read = Start {
            state: State::from_words(&words),
            memory: vec![0; pages * PAGE],
            tables: vec![0; TABLE_WORDS],
        };
        put(&mut read.memory, &fields(&mut lines, "mem"));
        put(&mut read.tables, &fields(&mut lines, "tab"));
        assert_eq!(read, begin);

        let mut after = begin;
        let given = step(&mut after.state, &mut after.memory, &mut after.tables);
        let given = given.expect("in range").map_or(0, Interrupt::number);
        assert_eq!(fields(&mut lines, "int"), [given.to_string()]);
        let mut all: Vec<u16> = fields(&mut lines, "reg=").into_iter().map(octal).collect();
        all.extend(fields(&mut lines, "ctl=").into_iter().map(octal));
        assert_eq!(all.len(), 128 + 28);
        all.extend(fields(&mut lines, "dev=").into_iter().map(octal));
        assert_eq!(all, after.state.to_words());
        put(&mut read.memory, &fields(&mut lines, "mem+"));
        put(&mut read.tables, &fields(&mut lines, "tab+"));
        assert_eq!((read.memory, read.tables), (after.memory, after.tables));
        assert_eq!((lines.next(), lines.next()), (Some("end"), None));
    }
}

#[test]
fn vectors_program_is_deterministic() {
    let run = |seed: &str| {
        Command::new(env!("CARGO_BIN_EXE_vectors"))
            .args([seed, "20"])
            .output()
            .expect("runs")
            .stdout
    };
    assert_eq!(run("4"), run("4"));
    assert_ne!(run("4"), run("5"));
    assert_eq!(
        run("4").iter().filter(|&&byte| byte == b'\n').count(),
        20 * 13
    );
}
