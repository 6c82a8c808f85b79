//! Operations one after the other: each is a case, from the machine that those
//! before it left.

use super::*;
use Operation::{ReadOut, Through, Tick, Typed};

/// Levels with programs of their own, paging off. Level 0 or 3 runs.
pub fn stories() -> Vec<Case> {
    let mut cases = Vec::new();
    ticks(&mut cases);
    kept_pid(&mut cases);
    cleared_pid(&mut cases);
    console(&mut cases);
    stopped(&mut cases);
    all_at_once(&mut cases);
    vector(&mut cases);
    driver(&mut cases);
    cases
}

fn tell(cases: &mut Vec<Case>, mut case: Case, operations: &[Operation]) {
    for operation in operations {
        case.operation = operation.clone();
        cases.push(case.clone());
        case.act();
    }
}

/// Runs through of one step each.
fn steps(count: usize) -> Vec<Operation> {
    vec![Operation::Through(1); count]
}

/// Level 3 counts at `AT`: AAX 1, JMP *-1.
fn counting(label: &'static str) -> Case {
    let case = of(false, label)
        .paging(false)
        .code(AT, &[0o173401, 0o124377]);
    case.quiet()
}

/// A program of another level, at an address of its own.
fn with_level(case: Case, level: usize, at: u16, words: &[u16]) -> Case {
    case.for_level(level, |case| case.reg(Reg::P, at).code(at, words))
}

/// The clock's handler: IDENT, LDA *4, IOX 13, WAIT, JMP *-4, and the word for 13.
fn clocked(word: u16) -> Case {
    let handler = [
        PL13,
        0o044004,
        IOX | device::CLOCK_CONTROL,
        WAIT,
        0o124374,
        word,
    ];
    with_level(counting("clock"), 13, 0o700, &handler)
}

/// Ticks while disabled and enabled, before and after IDENT.
fn ticks(cases: &mut Vec<Case>) {
    for word in [0o20001, 0o20000, 1] {
        for enabled in [0, 1] {
            let case = clocked(word).with(|state| state.devices.clock_enabled = enabled);
            // Twice before IDENT, then with IDENT between.
            let mut told = vec![Tick, Tick, Through(1), Through(1), Tick];
            told.extend(steps(5));
            told.extend([
                Tick,
                Through(1),
                Through(2),
                Tick,
                Through(4),
                Tick,
                Through(9),
            ]);
            tell(cases, case, &told);
        }
    }
}

/// WAIT takes the level's PID bit while the clock still asks: it is set again by
/// the next tick alone.
fn kept_pid(cases: &mut Vec<Case>) {
    // WAIT, JMP *-1 on level 13. Level 3: AAX 1, IDENT, JMP *-2.
    let case = with_level(counting("latch"), 13, 0o700, &[WAIT, 0o124377]);
    let case = case.code(AT, &[0o173401, PL13, 0o124376]);
    let case = case.with(|state| state.devices.clock_enabled = 1);
    let mut told = vec![Tick];
    told.extend(steps(4));
    told.extend([Tick, Through(1), Through(2), Through(1), Through(3)]);
    told.extend([Tick, Through(2)]);
    tell(cases, case, &told);
}

/// MCL and TRR of PID: the bit comes again by a control word while ready.
fn cleared_pid(cases: &mut Vec<Case>) {
    for word in [0o150206, 0o150106] {
        // With interrupts off: the transfer, SAA 1, IOX 13, IDENT, IDENT.
        let words = [
            word,
            0o170401,
            IOX | device::CLOCK_CONTROL,
            PL13,
            PL13,
            0o124000,
        ];
        let case = counting("clear").alone().code(AT, &words);
        let case = case.with(|state| state.devices.clock_enabled = 1);
        let a = if word == 0o150206 { 0o20000 } else { 0o10 };
        let mut told = vec![Tick];
        told.extend(steps(6));
        tell(cases, case.reg(Reg::A, a), &told);
    }
}

/// Input and output by interrupts: each character typed is sent.
fn console(cases: &mut Vec<Case>) {
    // Level 12: IDENT, IOX 302, IOX 300, IOX 305, WAIT, JMP *-5.
    let input = [
        PL12,
        IOX | device::INPUT_STATUS,
        IOX | device::INPUT_DATA,
        IOX | device::OUTPUT_DATA,
        WAIT,
        0o124373,
    ];
    // Level 10: IDENT, IOX 306, WAIT, JMP *-3.
    let output = [PL10, IOX | device::OUTPUT_STATUS, WAIT, 0o124375];
    let case = with_level(counting("console"), 12, 0o1000, &input);
    let case = with_level(case, 10, 0o1100, &output);
    for length in [0, 1] {
        let case = case.clone().with(|state| {
            state.devices.input_enabled = 1;
            state.devices.output_enabled = 1;
            state.devices.length = length;
        });
        let mut told = vec![Typed(0o301), Typed(0o302)];
        told.extend(steps(4));
        // WAIT clears the bit that this one sets again: it stays unread, and asks.
        told.extend([Typed(0o303), ReadOut, Through(2), ReadOut, Through(1)]);
        // Level 10, and back to level 3.
        told.extend([Through(3), Through(1), Typed(0o15), ReadOut, Through(4)]);
        tell(cases, case, &told);
    }
}

/// A stopped machine takes what is handed in between steps.
fn stopped(cases: &mut Vec<Case>) {
    for enabled in [0, 1] {
        let case = counting("stop").with(|state| {
            state.stopped = 1;
            state.devices.clock_enabled = enabled;
            state.devices.input_enabled = enabled;
            state.devices.output_enabled = enabled;
            state.devices.output_waits = 1;
            state.devices.output_character = 0o132;
        });
        let told = [
            Typed(0o101),
            Typed(0o102),
            Tick,
            ReadOut,
            ReadOut,
            Tick,
            Operation::Raise(13),
            Through(2),
            Operation::WithInput(2, vec![(0, runs::TICK)]),
        ];
        tell(cases, case, &told);
    }
}

/// All three ask: the highest level first, and each its own by IDENT.
fn all_at_once(cases: &mut Vec<Case>) {
    let mut case = counting("three");
    for (level, at, word) in [(13, 0o700, PL13), (12, 0o1000, PL12), (10, 0o1100, PL10)] {
        case = with_level(case, level, at, &[word, WAIT, 0o124376]);
    }
    let case = case.with(|state| {
        state.devices.clock_enabled = 1;
        state.devices.input_enabled = 1;
        state.devices.output_enabled = 1;
        state.devices.output_waits = 1;
    });
    let mut told = vec![ReadOut, Typed(7), Tick];
    told.extend(steps(12));
    tell(cases, case, &told);
}

/// Document 000, section 2.9.2.3.1: a jump by the identification code.
fn vector(cases: &mut Vec<Case>) {
    // IDENT PL13, RADD SA DP, JMP ERR13, JMP DRIV1, JMP DRIV2; there SAX 1, SAX 2,
    // SAX 3, each with WAIT and a jump back.
    let words = [PL13, 0o146052, 0o124010, 0o124020, 0o124030];
    for a in [0, 1, 2] {
        let mut case = with_level(counting("vector"), 13, 0o700, &words);
        for (further, number) in [(0o12, 1), (0o23, 2), (0o34, 3)] {
            let back = 0o124000 | (0o400 - (further + 2));
            case = case.code(0o700 + further, &[0o171400 | number, WAIT, back]);
        }
        let case = case.of_level(13, Reg::A, a);
        let case = case.with(|state| state.devices.clock_enabled = 1);
        let mut told = vec![Tick, Through(1)];
        told.extend(steps(5));
        // Raised, with nothing to identify: 7, and A as it was.
        told.push(Operation::Raise(13));
        told.extend(steps(6));
        tell(cases, case, &told);
    }
}

/// Words that levels of the driver share, and their end after an error.
const BUFF: u16 = 0o1374;
const ERROR: u16 = 0o1375;

/// JMP from one address to another.
const fn jump(at: u16, to: u16) -> u16 {
    0o124000 | to.wrapping_sub(at) & 0o377
}

/// Document 000, section 6.7.5. SAA 2, MST PID, JMP *0.
const LEVEL_0: [u16; 3] = [0o170402, 0o150306, 0o124000];
/// SAA 7, IOX 303, WAIT, SAA 7, IOX 307, WAIT, JMP *-6.
const LEVEL_1: [u16; 7] = [
    0o170407,
    IOX | device::INPUT_CONTROL,
    WAIT,
    0o170407,
    IOX | device::OUTPUT_CONTROL,
    WAIT,
    0o124372,
];
/// At 1300: IDENT PL10, the check that is left open as SAT 1, SKP DA EQL ST and JMP
/// ERROR; LDA BUFF, IOX 305, IOX 306, BSKP ZRO 40 DA, JMP ERROR; SAA 2, MST PID,
/// WAIT, JMP LEV10.
const LEVEL_10: [u16; 13] = [
    PL10,
    0o171001,
    0o140065,
    jump(0o1303, ERROR),
    0o044000 | (BUFF - 0o1304),
    IOX | device::OUTPUT_DATA,
    IOX | device::OUTPUT_STATUS,
    0o175045,
    jump(0o1310, ERROR),
    0o170402,
    0o150306,
    WAIT,
    jump(0o1314, 0o1300),
];
/// At 1320: IDENT PL12, the check; IOX 302, BSKP ZRO 40 DA, JMP ERROR; IOX 300, STA
/// BUFF; SAA 2, MST PID, WAIT, JMP LEV12.
const LEVEL_12: [u16; 13] = [
    PL12,
    0o171001,
    0o140065,
    jump(0o1323, ERROR),
    IOX | device::INPUT_STATUS,
    0o175045,
    jump(0o1326, ERROR),
    IOX | device::INPUT_DATA,
    0o004000 | (BUFF - 0o1330),
    0o170402,
    0o150306,
    WAIT,
    jump(0o1334, 0o1320),
];

/// A character typed comes back, and is sent again when it was read out.
fn driver(cases: &mut Vec<Case>) {
    let case = Case::step("driver").paging(false).quiet();
    let case = case.word(BUFF.into(), 0).word(ERROR.into(), 0o124000);
    let case = case.on_level(0).with(|state| {
        state.pid = 0;
        state.pie = 0o12003;
    });
    let case = with_level(case, 0, 0o1200, &LEVEL_0);
    let case = with_level(case, 1, 0o1220, &LEVEL_1);
    let case = with_level(case, 10, 0o1300, &LEVEL_10);
    let case = with_level(case, 12, 0o1320, &LEVEL_12);
    // To level 1, which enables the input and gives up.
    let mut told = steps(3);
    told.extend([Through(3), Through(2), Typed(0o101)]);
    // Level 12 reads; level 1 enables the output, which asks at once; level 10
    // sends; level 1 goes round.
    told.extend(steps(14));
    told.extend([Through(4), Through(1), Through(6), Through(8), Through(6)]);
    // Read out, it asks and the character is sent again.
    told.extend([ReadOut, Through(1), Through(7), ReadOut, Through(30)]);
    told.extend([Typed(0o102), Through(40), ReadOut]);
    tell(cases, case, &told);
}
