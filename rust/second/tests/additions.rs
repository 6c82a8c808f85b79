//! The starts of `second::additions`, and what this engine makes of each, held
//! to whole numbers.

use second::additions::{WAYS, all, start, values};
use second::vectors::Start;
use second::{PAGE, Reg, disassemble, flag, step};
use std::collections::{BTreeMap, BTreeSet, HashSet};

/// Each way with 177770 for its second operand: its instruction as document 002
/// writes it, the register that changes, the carry in.
const WRITTEN: [(&str, Reg, i64); 16] = [
    ("ADD *1", Reg::A, 0),
    ("SUB *1", Reg::A, 1),
    ("RADD SA DX", Reg::X, 0),
    ("RADD AD1 SA DX", Reg::X, 1),
    ("RADD ADC SA DX", Reg::X, 0),
    ("RADD ADC SA DX", Reg::X, 1),
    ("RADD CM1 SA DX", Reg::X, 0),
    ("RADD CM1 ADC SA DX", Reg::X, 0),
    ("RADD CM1 ADC SA DX", Reg::X, 1),
    ("RADD CM1 AD1 ST DB", Reg::B, 1), // RSUB
    ("COPY SA DX", Reg::X, 0),
    ("COPY ADC SA DX", Reg::X, 1),
    ("AAA -10", Reg::A, 0),
    ("AAB -10", Reg::B, 0),
    ("AAT -10", Reg::T, 0),
    ("AAX -10", Reg::X, 0),
];

/// Whether the first operand is 0: COPY is RADD CLD.
fn copies(text: &str) -> bool {
    text.starts_with("COPY")
}

#[test]
fn each_way_is_its_instruction() {
    let mut used = start();
    for (way, (text, _, carry)) in WAYS.iter().zip(WRITTEN) {
        let addition = way.additions(&[0, 0o177770]).last().expect("an argument");
        let first = if copies(text) { 0 } else { 0o177770 };
        let told = format!("{text}: {first:06o} + 177770 + {carry}");
        assert_eq!(addition.to_string(), told);

        let mut start = start();
        addition.put(&mut start);
        let at = usize::from(start.state.reg(Reg::P));
        assert_eq!(disassemble(start.memory[at]), text);
        let state = &start.state;
        assert_eq!([state.level, state.paging_on, state.interrupts_on], [0; 3]);
        assert_eq!(start.memory.len(), PAGE);

        // Nothing is left of the additions before.
        addition.put(&mut used);
        assert_eq!(used, start);
    }
}

/// Whether bit 15 of a sum is set.
fn negative(sum: i64) -> bool {
    sum % 65_536 > 32_767
}

fn signed(word: i64) -> i64 {
    if negative(word) { word - 65_536 } else { word }
}

/// Turns a start into what its addition must leave.
fn add(start: &mut Start, register: Reg, a: i64, b: i64, carry: i64) {
    let sum = a + b + carry;
    let overflow = !(-32_768..=32_767).contains(&(signed(a) + signed(b) + carry));
    let mut sts = start.state.reg(Reg::Sts) & !(flag::C | flag::O);
    if sum > 65_535 {
        sts |= flag::C;
    }
    if overflow {
        sts |= flag::O | flag::Q;
    }
    start.state.set_reg(Reg::Sts, sts);
    start.state.set_reg(register, (sum % 65_536) as u16);
    start.state.set_reg(Reg::P, start.state.reg(Reg::P) + 1);
}

#[test]
fn sums_carries_and_overflows_are_those_of_whole_numbers() {
    let values = values();
    let mut start = start();
    for (way, (_, register, carry)) in WAYS.iter().zip(WRITTEN) {
        for addition in way.additions(&values) {
            addition.put(&mut start);
            let mut end = start.clone();
            let answer = step(&mut end.state, &mut end.memory, &mut end.tables);
            assert_eq!(answer, Ok(None), "{addition}");
            let (a, b) = (i64::from(addition.first), i64::from(addition.second));
            add(&mut start, register, a, b, carry);
            assert_eq!(end, start, "{addition}");
        }
    }
}

/// Signs of the first operand, the second operand and the sum.
const ROWS: [&str; 8] = ["+++", "++-", "+-+", "+--", "-++", "-+-", "--+", "---"];

/// The rows that a way meets, and of these the ones that a carry in decides:
/// where the sum without it is 077777, 177777 or 277777. The sum of 0 and a
/// word has the word's sign unless the carry in decides.
fn expected(copies: bool, carry: i64) -> (&'static [&'static str], &'static [&'static str]) {
    match (copies, carry) {
        (false, 0) => (&ROWS, &[]),
        (false, _) => (&ROWS, &["++-", "+-+", "-++", "---"]),
        (true, 0) => (&["+++", "+--"], &[]),
        (true, _) => (&["+++", "++-", "+-+", "+--"], &["++-", "+-+"]),
    }
}

#[test]
fn every_way_meets_its_rows_of_signs() {
    let values = values();
    let mut start = start();
    let sign = |sum| if negative(sum) { '-' } else { '+' };
    for (way, (text, register, carry)) in WAYS.iter().zip(WRITTEN) {
        let mut rows = BTreeMap::<String, HashSet<u16>>::new();
        let mut decided = BTreeSet::new();
        for addition in way.additions(&values) {
            addition.put(&mut start);
            let (a, b) = (i64::from(addition.first), i64::from(addition.second));
            // With the register's sign for that of the 0, COPY would be in another row.
            let held = i64::from(start.state.reg(register));
            assert_eq!(sign(held) != sign(a), copies(text), "{addition}");

            let row: String = [a, b, a + b + carry].map(sign).iter().collect();
            if sign(a + b) != sign(a + b + carry) {
                decided.insert(row.clone());
            }
            let flags = start.state.reg(Reg::Sts) & !flag::C;
            rows.entry(row).or_default().insert(flags);
        }
        let (all, by_carry) = expected(copies(text), carry);
        assert!(rows.keys().eq(all), "{text}: {rows:?}");
        assert!(decided.iter().eq(by_carry), "{text}: {decided:?}");
        for (row, flags) in rows {
            // Flags before: all, and none. But only 0 and 077777, or 0 and 177777,
            // make a row of COPY that the carry in decides.
            let one_pair = copies(text) && decided.contains(&row);
            assert_eq!(flags.len(), if one_pair { 1 } else { 2 }, "{text}: {row}");
        }
    }
}

#[test]
fn all_are_every_pair_by_every_way() {
    let values = [0o177577, 0o177600, 0, 0o177, 0o200];
    let texts: HashSet<String> = all(&values).map(|addition| addition.to_string()).collect();
    // Three of the five are arguments, one is what CLD gives; ADC with C 0 and 1
    // tell themselves apart.
    assert_eq!(texts.len(), 10 * 25 + 4 * 15 + 2 * 5);
    assert_eq!(all(&values).count(), texts.len());
}
