//! The starts of `second::rotations`, and what this engine makes of each, held
//! to card 9 with rulings D9 to D11.

use second::rotations::{Pair, all, joined, start};
use second::vectors::Start;
use second::{PAGE, Reg, disassemble, flag, step};
use std::collections::{BTreeSet, HashSet};

/// Where a pair stands.
const HERE: usize = 0o100;

/// The counts of the field.
const FIELD: usize = 64;

/// The pairs of words that no single count stands for, counted by hand: of SAD,
/// with a sum of whole widths and the last count that is not 0 positive. Were
/// the second count 0, the first would be 32 or more, which the field has not.
/// So the second is one of 1 to 31, and the first has the residue of its
/// negative modulo 32, which two of the 64 counts have.
const NOT_JOINED: usize = 31 * 2;

/// What a word rotates, the upper register first: ROT is 001000, on top of
/// SHT 154000, SHD 154200, SHA 154400 and SAD 154600.
fn registers(word: u16) -> &'static [Reg] {
    match word / 64 {
        0o1550 => &[Reg::T],
        0o1552 => &[Reg::D],
        0o1554 => &[Reg::A],
        0o1556 => &[Reg::A, Reg::D],
        _ => panic!("{word:06o}"),
    }
}

fn width(pair: &Pair) -> u32 {
    16 * registers(pair.first).len() as u32
}

/// Count of a word: bits 5-0, signed.
fn count(word: u16) -> i64 {
    let field = i64::from(word % 64);
    if field < 32 { field } else { field - 64 }
}

/// The sum of the counts modulo the width.
fn residue(pair: &Pair) -> u32 {
    let sum = count(pair.first) + count(pair.second);
    sum.rem_euclid(width(pair).into()) as u32
}

/// The last count that is not 0; 0 if both are.
fn last(pair: &Pair) -> i64 {
    match (count(pair.first), count(pair.second)) {
        (first, 0) => first,
        (_, second) => second,
    }
}

/// The value after a pair, by card 9.
fn value_after(pair: &Pair) -> u32 {
    match width(pair) {
        16 => (pair.value as u16).rotate_left(residue(pair)).into(),
        _ => pair.value.rotate_left(residue(pair)),
    }
}

/// M after a pair, by card 9.
fn m_after(pair: &Pair) -> bool {
    let value = value_after(pair);
    match last(pair) {
        0 => pair.m,
        1.. => value % 2 == 1,
        _ => value >> (width(pair) - 1) == 1,
    }
}

/// Turns a start into what its pair must leave.
fn rotate(start: &mut Start, pair: &Pair) {
    let value = value_after(pair);
    for (part, &register) in registers(pair.first).iter().rev().enumerate() {
        start.state.set_reg(register, (value >> (16 * part)) as u16);
    }
    let others = start.state.reg(Reg::Sts) & !flag::M;
    let m = if m_after(pair) { flag::M } else { 0 };
    start.state.set_reg(Reg::Sts, others | m);
    start.state.set_reg(Reg::P, HERE as u16 + 2);
}

/// What steps of a start leave.
fn stepped(start: &Start, steps: usize) -> Start {
    let mut end = start.clone();
    for _ in 0..steps {
        let answer = step(&mut end.state, &mut end.memory, &mut end.tables);
        assert_eq!(answer, Ok(None));
    }
    end
}

/// What two steps of a pair leave.
fn after_pair(pair: &Pair, start: &mut Start) -> Start {
    pair.put(start);
    stepped(start, 2)
}

/// What one step of a start with a single rotation leaves, but with P and the
/// instructions of the pair.
fn after_single(pair: &Pair, start: &Start) -> Start {
    let mut end = stepped(start, 1);
    assert_eq!(end.state.reg(Reg::P), HERE as u16 + 1);
    end.state.set_reg(Reg::P, HERE as u16 + 2);
    end.memory[HERE..HERE + 2].copy_from_slice(&[pair.first, pair.second]);
    end
}

/// Whether a single rotation does what a pair does.
fn stands_for(word: u16, pair: &Pair, start: &mut Start) -> bool {
    let end = after_pair(pair, start);
    pair.put_single(start, word);
    after_single(pair, start) == end
}

/// Hands on the pairs of the same two words together.
fn for_each_two_words(test: impl FnMut(&[Pair])) {
    let pairs: Vec<Pair> = all().collect();
    let same = |one: &Pair, other: &Pair| (one.first, one.second) == (other.first, other.second);
    pairs.chunk_by(same).for_each(test);
}

#[test]
fn all_are_every_two_words_with_every_value_and_m() {
    let key = |pair: Pair| (pair.first, pair.second, pair.value, pair.m);
    let different: HashSet<_> = all().map(key).collect();
    assert_eq!(different.len(), 4 * FIELD * FIELD * 6 * 2);
    assert_eq!(all().count(), different.len());

    let mut start = start();
    let mut words = HashSet::new();
    for_each_two_words(|pairs| {
        let (first, second) = (pairs[0].first, pairs[0].second);
        assert_eq!(registers(first), registers(second));
        words.insert((first, second));
        let mut flags = BTreeSet::new();
        for pair in pairs {
            pair.put(&mut start);
            flags.insert(start.state.reg(Reg::Sts));
        }
        // The other flags all set and all clear, each with M 0 and M 1.
        assert!(flags.iter().eq(&[0, 0o177, 0o200, 0o377]), "{flags:?}");
    });
    assert_eq!(words.len(), 4 * FIELD * FIELD);
}

/// Pairs, and the rotation that stands for both.
const JOINED: [(u16, u16, Option<&str>); 14] = [
    (0o155403, 0o155404, Some("SHA ROT 7")),      // 3, 4
    (0o155003, 0o155076, Some("SHT ROT SHR 17")), // 3, SHR 2
    (0o155275, 0o155202, Some("SHD ROT 17")),     // SHR 3, 2
    (0o155403, 0o155475, Some("SHA ROT SHR 20")), // 3, SHR 3
    (0o155475, 0o155403, Some("SHA ROT 20")),     // SHR 3, 3
    (0o155437, 0o155400, Some("SHA ROT 17")),     // 37, 0
    (0o155400, 0o155440, Some("SHA ROT SHR 20")), // 0, SHR 40
    (0o155000, 0o155000, Some("SHT ROT 0")),      // 0, 0
    (0o155637, 0o155637, Some("SAD ROT 36")),     // 37, 37
    (0o155603, 0o155676, Some("SAD ROT SHR 37")), // 3, SHR 2
    (0o155603, 0o155675, Some("SAD ROT SHR 40")), // 3, SHR 3
    (0o155675, 0o155603, None),                   // SHR 3, 3
    (0o155637, 0o155601, None),                   // 37, 1
    (0o155600, 0o155600, Some("SAD ROT 0")),      // 0, 0
];

#[test]
fn each_pair_is_its_instructions() {
    let mut used = start();
    for (first, second, one) in JOINED {
        let word = joined(first, second);
        assert_eq!(word.map(disassemble).as_deref(), one);

        let both = |pair: &Pair| (pair.first, pair.second) == (first, second);
        let pair = all().filter(both).last().expect("in the field");
        let text = format!("{}, {}", disassemble(first), disassemble(second));
        let held = match width(&pair) {
            16 => "123456",
            _ => "123456 054321",
        };
        assert_eq!(pair.to_string(), format!("{text}: {held}, M 1"));

        let mut put = start();
        pair.put(&mut put);
        assert_eq!(put.memory[HERE..HERE + 2], [first, second], "{text}");
        assert_eq!(put.state.reg(Reg::P), HERE as u16);
        let value = registers(first).iter().fold(0, |value, &register| {
            value << 16 | u32::from(put.state.reg(register))
        });
        assert_eq!(value, pair.value, "{text}");
        let state = &put.state;
        assert_eq!([state.level, state.paging_on, state.interrupts_on], [0; 3]);
        assert_eq!(put.memory.len(), PAGE);

        // Nothing is left of what was put before, and no joined word puts nothing.
        pair.put(&mut used);
        assert_eq!(used, put, "{text}");
        assert_eq!(pair.put_joined(&mut used), word.is_some());
        if let Some(word) = word {
            put = start();
            pair.put_single(&mut put, word);
            assert_eq!(put.memory[HERE], word);
        }
        assert_eq!(used, put, "{text}");
    }
}

#[test]
#[should_panic(expected = "two registers")]
fn rotations_of_two_registers_are_no_pair() {
    joined(0o155401, 0o155201);
}

#[test]
#[should_panic(expected = "154401 is no rotation")]
fn other_shifts_are_no_pair() {
    joined(0o155401, 0o154401);
}

#[test]
fn value_and_m_are_those_of_card_9() {
    let mut start = start();
    for pair in all() {
        let end = after_pair(&pair, &mut start);
        rotate(&mut start, &pair);
        assert_eq!(end, start, "{pair}");
    }
}

#[test]
fn a_joined_word_does_what_its_pair_does() {
    let mut start = start();
    for pair in all() {
        let end = after_pair(&pair, &mut start);
        if pair.put_joined(&mut start) {
            assert_eq!(after_single(&pair, &start), end, "{pair}");
        }
    }
}

#[test]
fn without_a_joined_word_no_count_does() {
    let mut start = start();
    let mut found = 0;
    for_each_two_words(|pairs| {
        let pair = &pairs[0];
        let whole = width(pair) == 32 && residue(pair) == 0 && last(pair) > 0;
        assert_eq!(joined(pair.first, pair.second).is_none(), whole, "{pair}");
        if !whole {
            return;
        }
        found += 1;
        let words: BTreeSet<u16> = pair.counts().collect();
        assert_eq!(words.len(), FIELD);
        for word in words {
            assert_eq!(registers(word), registers(pair.first), "{pair}");
            let does = pairs.iter().all(|pair| stands_for(word, pair, &mut start));
            assert!(!does, "{pair}: {}", disassemble(word));
        }
    });
    assert_eq!(found, NOT_JOINED);
}

/// The residue alone, as a count, is a wrong rule: M is wrong if the last count
/// is negative, and stays for whole widths. The comparison tells exactly these.
#[test]
fn a_wrong_count_is_caught() {
    let mut start = start();
    let mut caught = 0;
    for_each_two_words(|pairs| {
        let pair = &pairs[0];
        let word = pair.first / 64 * 64 + residue(pair) as u16;
        let does = pairs.iter().all(|pair| stands_for(word, pair, &mut start));
        let wrong = last(pair) < 0 || last(pair) > 0 && residue(pair) == 0;
        assert_eq!(does, !wrong, "{pair}: {}", disassemble(word));
        caught += usize::from(wrong);
    });
    // Last count negative: 32 second counts with any first, 32 first ones with
    // second 0. Whole widths: 31 second counts with those first ones of their
    // residue, four or two; of 16 bits also 16 with 0.
    let negative = 32 * FIELD + 32;
    assert_eq!(caught, 3 * (negative + 31 * 4 + 1) + negative + 31 * 2);
}
