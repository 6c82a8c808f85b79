//! Runs with device input.

use super::*;
use crate::input::FIRST_TYPED_WORD;
pub use crate::input::{READ_OUT_WORD as READ_OUT, TICK_WORD as TICK};

/// A character as an input; a raise is its level.
pub const fn typed(character: u8) -> u16 {
    FIRST_TYPED_WORD + character as u16
}

const A: u16 = typed(b'A');
const B: u16 = typed(b'B');

/// AAX 1, JMP *-1.
const COUNT: [u16; 2] = [0o173401, 0o124377];
/// BSKP ONE 30 DA, JMP *-2.
const UNTIL_READY: [u16; 2] = [0o175235, 0o124376];

type Inputs = [(u64, u16)];

pub fn runs() -> Vec<Case> {
    let mut cases = Vec::new();
    times(&mut cases);
    lists(&mut cases);
    told(&mut cases);
    endings(&mut cases);
    beginnings(&mut cases);
    long(&mut cases);
    lengths(&mut cases);
    sent(&mut cases);
    polls(&mut cases);
    echo(&mut cases);
    cases
}

/// Level 3 with a program, run for so many steps with this input.
fn session(label: &'static str, words: &[u16], steps: u64, inputs: &Inputs) -> Case {
    let operation = Operation::WithInput(steps, inputs.to_vec());
    of(false, label).running(operation).code(AT, words)
}

/// One input at every step about the ends, of every kind. The output waits, and
/// nothing is enabled.
fn times(cases: &mut Vec<Case>) {
    let mut words = [0; DEVICE_WORDS];
    words[OUTPUT_WAITS] = 1;
    words[OUTPUT_CHARACTER] = 0o132;
    for steps in [0, 1, 2, 5, 9] {
        let mut at = vec![0, 1, steps, steps + 1, steps + 5, u64::MAX];
        at.extend(steps.checked_sub(1));
        at.sort_unstable();
        at.dedup();
        for at in at {
            for input in [TICK, A, READ_OUT, 12, 3] {
                let case = session("time", &COUNT, steps, &[(at, input)]);
                cases.push(case.devices(words));
            }
        }
    }
}

/// Equal steps, decreasing ones, some beyond the end with others behind them.
fn lists(cases: &mut Vec<Case>) {
    let lists: [&Inputs; 24] = [
        &[],
        &[(3, A), (3, TICK)],
        &[(3, TICK), (3, A)],
        &[(3, A), (3, B)],
        &[(3, A), (4, B)],
        &[(4, A), (3, B), (5, A)],
        &[(5, A), (2, TICK), (0, READ_OUT)],
        &[(5, READ_OUT), (2, READ_OUT)],
        &[(7, A), (0, B)],
        &[(0, A), (7, TICK), (1, READ_OUT)],
        &[(7, A), (6, B), (5, TICK)],
        &[(6, TICK), (7, A), (6, READ_OUT)],
        &[(6, A), (6, READ_OUT), (6, TICK)],
        &[(6, READ_OUT), (6, READ_OUT), (6, 3)],
        &[(0, A), (0, B), (0, TICK), (0, READ_OUT)],
        &[(0, 3), (1, 14), (2, 300), (3, A)],
        &[(1, A), (2, 3), (2, B), (3, TICK), (6, READ_OUT)],
        &[(u64::MAX, A), (0, TICK)],
        &[(2, TICK), (u64::MAX, A), (3, READ_OUT)],
        &[(6, A), (0, TICK), (6, READ_OUT), (5, B)],
        &[(1, TICK), (1, TICK), (1, TICK)],
        &[(4, 12), (4, A), (5, TICK)],
        &[(6, 13), (6, A)],
        &[(0, 15), (0, A)],
    ];
    // Counts; reads each time round; sends each time round.
    let programs: [&[u16]; 3] = [
        &COUNT,
        &[IOX | device::INPUT_DATA, 0o173401, 0o124376],
        &[IOX | device::OUTPUT_DATA, 0o173401, 0o124376],
    ];
    for inputs in lists {
        for (turn, words) in programs.into_iter().enumerate() {
            let case = session("list", words, 6, inputs);
            cases.push(case.clone());
            // Enabled, with a level due and with none.
            let case = case.devices(ENABLED);
            cases.push(match turn {
                0 => case.alone(),
                1 => case.with(|state| state.pie = 0o101777),
                _ => case,
            });
        }
    }
}

/// Every word as an input: raises and what is refused. No level is due.
fn told(cases: &mut Vec<Case>) {
    let raises = (0..20).chain([255, 258, 300, 511, 768, 769, 1023, 1024, 0o100000, 0o177777]);
    for word in raises.clone() {
        let case = session("told", &COUNT, 3, &[(1, word), (1, TICK)]);
        cases.push(case.alone());
    }
    let all: Vec<_> = raises.map(|word| (2, word)).collect();
    for inputs in all.chunks(20) {
        cases.push(session("told", &COUNT, 4, inputs).alone());
    }
    for character in [0, 1, 0o12, 0o15, 0o40, 0o101, 0o177, 0o200, 0o377] {
        let inputs = [
            (1, typed(character)),
            (2, typed(character)),
            (4, typed(character)),
        ];
        // IOX 305 sends what A has; IOX 300 reads it.
        let words = [
            IOX | device::OUTPUT_DATA,
            0o173401,
            IOX | device::INPUT_DATA,
            0o124375,
        ];
        let case = session("told", &words, 9, &inputs).reg(Reg::A, character.into());
        cases.push(case.clone());
        let read = [(0, READ_OUT), (1, READ_OUT), (1, READ_OUT), (9, READ_OUT)];
        cases.push(case.running(Operation::WithInput(9, read.to_vec())));
    }
}

/// Inputs for runs of two or three steps.
const FEW: [&Inputs; 8] = [
    &[(0, TICK), (0, A)],
    &[(1, TICK), (2, A)],
    &[(2, TICK), (2, A), (3, READ_OUT)],
    &[(3, TICK), (3, A), (3, READ_OUT)],
    &[(2, 10), (2, TICK)],
    &[(3, 15), (3, TICK)],
    &[(4, A), (2, TICK)],
    &[(0, READ_OUT), (1, READ_OUT), (2, READ_OUT), (3, READ_OUT)],
];

/// An illegal word, and ION.
const ILLEGAL: u16 = 0o140700;
const ION: u16 = 0o150402;

/// Runs that the second step may end: AAX 1, then WAIT; an illegal word; IOX of no
/// device; MON; IDENT; ION; a word that asks at the input's, the output's and the
/// clock's control register.
fn endings(cases: &mut Vec<Case>) {
    let seconds = [
        WAIT,
        ILLEGAL,
        IOX | 0o14,
        0o153001,
        PL12,
        ION,
        IOX | device::INPUT_CONTROL,
        IOX | device::OUTPUT_CONTROL,
        IOX | device::CLOCK_CONTROL,
    ];
    for (turn, second) in seconds.into_iter().enumerate() {
        for (more, inputs) in FEW.into_iter().enumerate() {
            let steps = 2 + (turn + more) as u64 % 2;
            let words = [0o173401, second, 0o124376];
            let case = session("ending", &words, steps, inputs).reg(Reg::A, 1);
            let case = case.devices(SOME).quiet();
            cases.push(match second {
                WAIT | ION => case.alone(),
                _ => case,
            });
        }
    }
    // The last step stops, or gives an interrupt: what comes then is not taken.
    for (second, steps) in [(WAIT, 2), (ILLEGAL, 2), (WAIT, 3)] {
        for at in [1, 2, 3] {
            let case = session("ending", &[0o173401, second], steps, &[(at, TICK)]);
            cases.push(case.alone());
        }
    }
}

/// Stopped from the start, a level due; devices that make one due, or do not.
fn beginnings(cases: &mut Vec<Case>) {
    for (turn, inputs) in FEW.into_iter().enumerate() {
        let steps = if turn < 2 { 0 } else { 3 };
        let case = session("beginning", &COUNT, steps, inputs).devices(TYPED);
        cases.push(case.clone().with(|state| state.stopped = 1));
        cases.push(case.clone().with(|state| state.pid |= 0o2000));
        cases.push(case.clone().with(|state| state.pid = 0));
        let case = case.devices(ENABLED);
        cases.push(case.clone());
        cases.push(case.clone().alone());
        // The level is shut, or a higher one runs.
        cases.push(case.clone().with(|state| state.pie = 0o10));
        let on_level = case.on_level(13).reg(Reg::P, AT);
        cases.push(on_level.code(AT, &COUNT));
    }
}

/// More steps and more input than others have.
fn long(cases: &mut Vec<Case>) {
    for steps in [u64::MAX, 1 << 63, 1 << 32] {
        // AAX 1, WAIT.
        let inputs = [(0, TICK), (1, A), (steps, TICK)];
        let case = session("long", &[0o173401, WAIT], steps, &inputs).alone();
        cases.push(case.clone());
        cases.push(case.with(|state| state.stopped = 1));
    }
    // Twenty inputs, at steps that rise, fall and stay.
    let mut random = Random::new(20);
    for turn in 0..24 {
        let steps = 40 + turn;
        let mut inputs = Vec::new();
        for number in 0..20 {
            let at = match turn % 4 {
                0 => 2 * number,
                1 => 40 - 2 * number,
                2 => 7,
                _ => random.below(steps + 2),
            };
            inputs.push((at, any_input(&mut random)));
        }
        if turn % 4 == 3 && random.one_in(2) {
            inputs.sort_unstable();
        }
        // Reads, sends, counts.
        let words = [
            IOX | device::INPUT_DATA,
            IOX | device::OUTPUT_DATA,
            0o173401,
            0o124375,
        ];
        cases.push(session("long", &words, steps, &inputs).alone());
    }
}

/// A character typed or sent with one length and read or read out with another.
fn lengths(cases: &mut Vec<Case>) {
    for first in 0..4 {
        for second in 0..4 {
            // LDA *10, IOX 303, LDA *7, IOX 303, IOX 300, JMP *0: the words for 303
            // at 10 and 11.
            let control = IOX | device::INPUT_CONTROL;
            let mut words = [
                0o044010,
                control,
                0o044007,
                control,
                IOX | device::INPUT_DATA,
                0o124000,
                0,
                0,
                first << 11,
                second << 11,
            ];
            let case = session("length", &words, 6, &[(2, typed(0o377))]);
            cases.push(case);
            // SAA -1, IOX 305 instead, between the two; read out at the end.
            words = [
                0o044010,
                control,
                0o170777,
                IOX | device::OUTPUT_DATA,
                0o044005,
                control,
                0o124000,
                0,
                first << 11,
                second << 11,
            ];
            cases.push(session("length", &words, 7, &[(7, READ_OUT)]));
        }
    }
}

/// Characters sent one over the other, and read out once.
fn sent(cases: &mut Vec<Case>) {
    // SAA 101, IOX 305, SAA 102, IOX 305, IOX 306, JMP *0.
    let words = [
        0o170501,
        IOX | device::OUTPUT_DATA,
        0o170502,
        IOX | device::OUTPUT_DATA,
        IOX | device::OUTPUT_STATUS,
        0o124000,
    ];
    let lists: [&[u64]; 9] = [
        &[1],
        &[2],
        &[2, 2],
        &[2, 4],
        &[4],
        &[4, 4],
        &[2, 3, 4, 5, 6],
        &[5],
        &[1, 2, 6],
    ];
    for at in lists {
        let inputs: Vec<_> = at.iter().map(|&at| (at, READ_OUT)).collect();
        for steps in [4, 6] {
            for enabled in [0, 1] {
                let case = session("sent", &words, steps, &inputs).alone();
                let mut flags = [0; DEVICE_WORDS];
                flags[FLAGS[2][0]] = enabled;
                cases.push(case.clone().devices(flags));
            }
        }
    }
}

/// A program that waits for the clock.
fn polls(cases: &mut Vec<Case>) {
    // IOX 12, until ready, LDA *4, IOX 13, AAX 1, JMP *-6; the word for 13.
    for word in [0o20000, 0o20001, 0, 1] {
        let [ready, back] = UNTIL_READY;
        let words = [
            IOX | device::CLOCK_STATUS,
            ready,
            back,
            0o044004,
            IOX | device::CLOCK_CONTROL,
            0o173401,
            0o124372,
            word,
        ];
        let ticks: [&[u64]; 5] = [&[0], &[5, 6], &[3, 3, 20], &[1, 9, 17, 25, 33], &[30]];
        for at in ticks {
            let inputs: Vec<_> = at.iter().map(|&at| (at, TICK)).collect();
            let case = session("poll", &words, 40, &inputs);
            cases.push(case.clone());
            cases.push(case.alone());
        }
    }
}

/// Document 000, section 6.5.2, where "300" is a slip for 30: reads a character
/// and sends it again, when the one before it was read out.
const ECHO: [u16; 18] = [
    0o170404, // START, SAA 4
    IOX | device::INPUT_CONTROL,
    IOX | device::INPUT_STATUS,
    UNTIL_READY[0],
    UNTIL_READY[1],
    IOX | device::INPUT_DATA,
    0o146157, // COPY SA DX
    IOX | device::OUTPUT_STATUS,
    UNTIL_READY[0],
    UNTIL_READY[1],
    0o146175, // COPY SX DA
    IOX | device::OUTPUT_DATA,
    0o170404, // SAA 4
    IOX | device::OUTPUT_CONTROL,
    IOX | device::OUTPUT_STATUS,
    UNTIL_READY[0],
    UNTIL_READY[1],
    0o124357, // JMP START
];

fn echo(cases: &mut Vec<Case>) {
    let line = |text: &[u8], first: u64, every: u64, later: u64| -> Vec<(u64, u16)> {
        let pair = |(number, &character): (u64, &u8)| {
            let at = first + every * number;
            [(at, typed(character)), (at + later, READ_OUT)]
        };
        (0..).zip(text).flat_map(pair).collect()
    };
    for extended in MODES {
        for (every, later) in [(40, 25), (30, 14), (24, 20), (60, 3), (10, 9), (34, 34)] {
            let inputs = line(b"PARK 7.\r\n", 5, every, later);
            for steps in [60, 400] {
                let case = of(extended, "echo").code(AT, &ECHO);
                cases.push(case.running(Operation::WithInput(steps, inputs.clone())));
            }
        }
    }
    // Seven bits, and a machine that another program left enabled and full.
    let inputs = line(&[0o301, 0o377, 0o200], 3, 50, 30);
    let case = of(false, "echo").code(AT, &ECHO).devices(FULL).alone();
    cases.push(case.running(Operation::WithInput(160, inputs)));
}

/// An input of any kind.
fn any_input(random: &mut Random) -> u16 {
    match random.below(8) {
        0 | 1 => TICK,
        2 | 3 => READ_OUT,
        4..=6 => typed(random.word() as u8),
        _ => random.pick(&[10, 11, 12, 13, 15, 3, 14, 300]),
    }
}

/// Random programs with device input.
pub fn random_runs() -> Vec<Case> {
    let mut random = Random::new(39);
    (0..280).map(|turn| any_run(&mut random, turn)).collect()
}

fn any_run(random: &mut Random, turn: u64) -> Case {
    let steps = random.below(30);
    let mut inputs: Vec<(u64, u16)> = Vec::new();
    for _ in 0..random.below(9) {
        inputs.push((random.below(steps + 3), any_input(random)));
    }
    if !random.one_in(4) {
        inputs.sort_unstable_by_key(|input| input.0);
    }
    let operation = match turn % 7 {
        0 => Operation::Through(steps),
        _ => Operation::WithInput(steps, inputs),
    };
    let mut case = of(turn % 3 == 2, "wander").running(operation);
    if random.one_in(4) {
        let level = random.pick(&[0, 1, 10, 12, 13, 15]);
        case = case.on_level(level).reg(Reg::P, AT);
    }
    case = case
        .paging(!random.one_in(4))
        .on_ring(random.pick(&[2, 2, 2, 3]));
    // A loop of a few words, mostly of the devices.
    let length = 2 + random.below(6) as u16;
    let mut words: Vec<u16> = (0..length).map(|_| loop_word(random)).collect();
    words.push(0o124000 | (0o400 - length));
    case = case.code(AT, &words);
    let words = devices(random).to_words();
    case = case.devices(words).reg(Reg::A, random.pick(&GIVEN));
    case = case.reg(Reg::T, any_register(random));
    if !random.one_in(4) {
        // No device's level is due: interrupts off, or only level 3's in PIE.
        let alone = random.one_in(2);
        case = case.with(|state| match alone {
            true => state.interrupts_on = 0,
            false => state.pie = 1 << state.level,
        });
    }
    case
}

/// A word of a loop: of a device, of A and X, or anything.
fn loop_word(random: &mut Random) -> u16 {
    match random.below(10) {
        0..=4 => IOX | random.pick(&device::ALL),
        5 => IOXT,
        6 => random.pick(&[PL10, PL12, PL13]),
        // SAA, COPY SA DX, COPY SX DA, SHA, AAA.
        7 | 8 => match random.below(5) {
            0 => 0o170400 | random.word() & 0o377,
            1 => 0o146157,
            2 => 0o146175,
            3 => 0o154400 | random.pick(&[1, 0o13, 0o15, 0o73]),
            _ => 0o172400 | random.word() & 0o377,
        },
        _ => any_word(random),
    }
}
