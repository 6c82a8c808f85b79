//! Worked examples of the manuals, of docs/ARITHMETIC.md, of docs/ROTATIONS.md and of docs/FLOATING.md, by crate
//! `manual`.

use manual::Machine;
use second::floating::{long_to_short, short_to_long};
use second::{Interrupt, Refusal, State, disassemble, step};

fn second_step(machine: &mut Machine) {
    let mut state = State::from_words(&machine.state);
    let interrupt = step(&mut state, &mut machine.memory, &mut machine.tables).expect("in range");
    machine.interrupt = interrupt.map_or(0, Interrupt::number);
    machine.state = state.to_words();
}

#[test]
fn examples() {
    let lines = manual::differences(second_step);
    assert!(lines.is_empty(), "{}", lines.join("\n"));
}

#[test]
fn floating() {
    let lines = manual::floating::differences(
        |short| short_to_long(short).map_err(Refusal::number),
        |long| long_to_short(long).map_err(Refusal::number),
    );
    assert!(lines.is_empty(), "{}", lines.join("\n"));
}

/// The disassembler's text where a manual writes the instruction otherwise, or
/// slips.
const OTHERWISE: [(u16, &str); 32] = [
    (0o044774, "LDA ,B -4"),
    (0o143320, "LDATX 20"),
    (0o135403, "JPL I ,B 3"),
    (0o006002, "STA ,X 2"),
    (0o046401, "LDA ,X ,B 1"),
    (0o047401, "LDA ,X I ,B 1"),
    (0o146655, "RADD CM1 AD1 SA DA"),
    (0o146755, "COPY CM1 AD1 SA DA"),
    (0o146751, "COPY CM1 AD1 SA DD"),
    (0o146173, "COPY SX DB"),
    (0o146773, "COPY CM1 AD1 SX DB"),
    (0o146102, "COPY DP"),
    (0o146203, "RADD CM1 DB"),
    (0o146405, "RADD AD1 DA"),
    (0o146663, "RADD CM1 AD1 ST DB"),
    (0o154475, "SHA SHR 3"),
    (0o014020, "STX *20"),
    (0o150306, "MST PID"),
    (0o004001, "STA *1"),
    (0o004002, "STA *2"),
    (0o005002, "STA I *2"),
    (0o004402, "STA ,B 2"),
    (0o005402, "STA I ,B 2"),
    (0o006402, "STA ,X ,B 2"),
    (0o007002, "STA ,X I *2"),
    (0o007402, "STA ,X I ,B 2"),
    (0o044002, "LDA *2"),
    (0o047402, "LDA ,X I ,B 2"),
    (0o044400, "LDA ,B 0"),
    (0o004400, "STA ,B 0"),
    (0o124376, "JMP *-2"),
    (0o153510, "IRW 110 STS"),
];

#[test]
fn texts() {
    for example in manual::examples() {
        let otherwise = OTHERWISE.iter().find(|(word, _)| *word == example.word);
        let first = match otherwise {
            Some((_, text)) => text.to_string(),
            None if example.end().interrupt == 4 => format!("??? {:06o}", example.word),
            None => example
                .text
                .split("; ")
                .next()
                .unwrap_or_default()
                .to_string(),
        };
        assert_eq!(disassemble(example.word), first, "{}", example.source);
        let next: Vec<String> = example.next.iter().copied().map(disassemble).collect();
        let texts: Vec<&str> = example.text.split("; ").skip(1).collect();
        assert_eq!(next, texts, "{}", example.source);
    }
}
