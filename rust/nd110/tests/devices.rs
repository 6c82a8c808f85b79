//! Console and clock (document 02, card 1; document 000, section 6.9) through the archive: the twelve registers, IDENT,
//! ticks, characters typed and read out, runs with device input, images of kind 5. What must come is written by hand
//! from the documents; docs/DEVICES.md has it as tables.

#[allow(dead_code)]
mod common;

use common::*;
use nd110::{Device, IMAGE_EXTRA, Input, InputRun, PAGE_WORDS, Reason, Refusal, Told, load, write};
use std::array::from_fn;

// The devices' words in a state.
const CLOCK_ENABLED: usize = 156;
const CLOCK_READY: usize = 157;
const CLOCK_ASKS: usize = 158;
const INPUT_ENABLED: usize = 159;
const UNREAD: usize = 160;
const INPUT_ASKS: usize = 161;
const TYPED: usize = 162;
const LENGTH: usize = 163;
const OUTPUT_ENABLED: usize = 164;
const WAITS: usize = 165;
const OUTPUT_ASKS: usize = 166;
const SENT: usize = 167;

const PID_10: u16 = 0o002000;
const PID_12: u16 = 0o010000;
const PID_13: u16 = 0o020000;

const IOX: u16 = 0o164000;
const IOXT: u16 = 0o150415;
const IDENT: u16 = 0o143600;
const JMP_HERE: u16 = 0o124000;

/// The most that each of the devices' words may be.
const MOST: [u16; 12] = [1, 1, 1, 1, 1, 1, 255, 3, 1, 1, 1, 255];

/// One page with this word at 0, A of all ones but bit 2, these words of the state.
fn before(word: u16, state: &Named) -> Machine {
    Machine::new(1)
        .with(&[(A_0, 0o177773)], &[(0, word)], &[])
        .with(state, &[], &[])
}

/// One step of this word, which gives no interrupt and changes these words.
fn does(word: u16, state: &Named, change: &Named) {
    let what = format!("{word:06o} with {state:?}");
    let mut want = vec![(P_0, 1)];
    want.extend(change);
    before(word, state).gives(0, &want, &[], &[], &what);
}

/// One step of this word, which gives interrupt 7 and changes nothing but P and IID.
fn no_device(word: u16, state: &Named) {
    let what = format!("{word:06o} with {state:?}");
    before(word, state).gives(7, &[(P_0, 1)], &[], &[], &what);
}

/// All of the devices' words, as words of the state.
fn all(words: [u16; 12]) -> Vec<(usize, u16)> {
    (CLOCK_ENABLED..).zip(words).collect()
}

/// Exactly the registers 10 to 13 and 300 to 307 answer, by eleven bits of IOX and by all of T, whatever the devices
/// are.
#[test]
fn addresses() {
    let fitted = |address: u16| matches!(address, 0o10..=0o13 | 0o300..=0o307);
    for words in [[0; 12], MOST] {
        let devices = all(words);
        let (mut by_iox, mut by_ioxt) = (0, 0);
        for address in 0..2048 {
            let mut m = before(IOX + address, &devices);
            let interrupt = if fitted(address) { 0 } else { 7 };
            assert_eq!(m.step(), Ok(interrupt), "IOX {address:o}");
            by_iox += u32::from(interrupt == 0);
        }
        let mut m = before(IOXT, &devices);
        let start = m.state;
        for address in 0..=u16::MAX {
            m.state = start;
            m.state.0[T_0] = address;
            let interrupt = if fitted(address) { 0 } else { 7 };
            assert_eq!(m.step(), Ok(interrupt), "IOXT {address:o}");
            assert_eq!(m.state.0[T_0], address);
            by_ioxt += u32::from(interrupt == 0);
        }
        assert_eq!((by_iox, by_ioxt), (12, 12));
        for address in [0, 7, 0o14, 0o277, 0o310, 0o2010, 0o2300, 0o3777] {
            no_device(IOX + address, &devices);
        }
        for address in [0o4010, 0o4300, 0o100010, 0o100300, 0o177777] {
            let with_t = [&devices[..], &[(T_0, address)]].concat();
            no_device(IOXT, &with_t);
        }
    }
}

/// IOX and IOXT of one register do the same.
#[test]
fn by_t() {
    for register in (0o10..=0o13).chain(0o300..=0o307) {
        for words in [[0; 12], MOST] {
            let mut by_iox = before(IOX + register, &all(words)).with(&[(T_0, register)], &[], &[]);
            let mut by_ioxt = by_iox.with(&[], &[(0, IOXT)], &[]);
            assert_eq!((by_iox.step(), by_ioxt.step()), (Ok(0), Ok(0)));
            assert_eq!(by_iox.state, by_ioxt.state, "{register:o}");
        }
    }
}

/// The registers that do nothing, and those that give 0.
#[test]
fn registers_without_effect() {
    for words in [[0; 12], MOST] {
        let devices = all(words);
        for register in [0o10, 0o304] {
            does(IOX + register, &devices, &[(A_0, 0)]);
        }
        for register in [0o11, 0o301] {
            does(IOX + register, &devices, &[]);
        }
    }
}

/// The clock: its status, and every way to write its control word.
#[test]
fn clock() {
    for enabled in [0, 1] {
        for ready in [0, 1] {
            for asks in [0, 1] {
                let state = [
                    (CLOCK_ENABLED, enabled),
                    (CLOCK_READY, ready),
                    (CLOCK_ASKS, asks),
                ];
                does(IOX + 0o12, &state, &[(A_0, enabled + 8 * ready)]);
                // bit 0 enables, bit 13 clears ready first; the other bits do nothing
                for (a, on, clears) in [
                    (0, 0, false),
                    (1, 1, false),
                    (0o20000, 0, true),
                    (0o20001, 1, true),
                    (0o157776, 0, false),
                    (0o157777, 1, false),
                    (0o177776, 0, true),
                    (0o177777, 1, true),
                ] {
                    let left = if clears { 0 } else { ready };
                    let mut change = vec![(CLOCK_ENABLED, on), (CLOCK_READY, left)];
                    if on == 1 && left == 1 {
                        change.extend([(CLOCK_ASKS, 1), (PID, PID_13)]);
                    }
                    does(IOX + 0o13, &[&state[..], &[(A_0, a)]].concat(), &change);
                }
            }
        }
    }
}

/// The input: its status, and every way to write its control word. Bits 12-11 are the length.
#[test]
fn input() {
    for enabled in [0, 1] {
        for unread in [0, 1] {
            for asks in [0, 1] {
                let state = [
                    (INPUT_ENABLED, enabled),
                    (UNREAD, unread),
                    (INPUT_ASKS, asks),
                    (TYPED, 0o333),
                    (LENGTH, 1),
                ];
                does(IOX + 0o302, &state, &[(A_0, enabled + 8 * unread)]);
                for (a, on, length) in [
                    (0, 0, 0),
                    (1, 1, 0),
                    (0o4000, 0, 1),
                    (0o4001, 1, 1),
                    (0o10000, 0, 2),
                    (0o14001, 1, 3),
                    (0o163776, 0, 0),
                    (0o163777, 1, 0),
                    (0o177776, 0, 3),
                ] {
                    let mut change = vec![(INPUT_ENABLED, on), (LENGTH, length)];
                    if on == 1 && unread == 1 {
                        change.extend([(INPUT_ASKS, 1), (PID, PID_12)]);
                    }
                    does(IOX + 0o303, &[&state[..], &[(A_0, a)]].concat(), &change);
                }
            }
        }
    }
}

/// The output: its status, and every way to write its control word. It is ready while none waits.
#[test]
fn output() {
    for enabled in [0, 1] {
        for waits in [0, 1] {
            for asks in [0, 1] {
                let state = [
                    (OUTPUT_ENABLED, enabled),
                    (WAITS, waits),
                    (OUTPUT_ASKS, asks),
                    (SENT, 0o222),
                ];
                does(IOX + 0o306, &state, &[(A_0, enabled + 8 * (1 - waits))]);
                for (a, on) in [(0, 0), (1, 1), (0o177776, 0), (0o177777, 1)] {
                    let mut change = vec![(OUTPUT_ENABLED, on)];
                    if on == 1 && waits == 0 {
                        change.extend([(OUTPUT_ASKS, 1), (PID, PID_10)]);
                    }
                    does(IOX + 0o307, &[&state[..], &[(A_0, a)]].concat(), &change);
                }
            }
        }
    }
}

/// Characters have 8, 7, 6 or 5 bits, read and sent alike. One that is read stays, and is read again; one that waits is
/// replaced.
#[test]
fn lengths() {
    for (length, bits) in [(0, 0o377), (1, 0o177), (2, 0o77), (3, 0o37)] {
        for character in 0..256 {
            for unread in [0, 1] {
                let state = [(LENGTH, length), (TYPED, character), (UNREAD, unread)];
                does(IOX + 0o300, &state, &[(A_0, character & bits), (UNREAD, 0)]);
            }
            let waits = character % 2;
            let a = character | 0o123000;
            let state = [(LENGTH, length), (A_0, a), (WAITS, waits), (SENT, 0o111)];
            does(IOX + 0o305, &state, &[(WAITS, 1), (SENT, character & bits)]);
        }
    }
}

/// Every code of IDENT, with each device asking or not: 4, 22 and 43 are answered with 1 by the one that asks, and its
/// flip-flop alone is cleared; all else is 7.
#[test]
fn idents() {
    for asking in 0..8 {
        let asks: [u16; 3] = from_fn(|at| asking >> at & 1);
        let state = [
            (OUTPUT_ASKS, asks[0]),
            (INPUT_ASKS, asks[1]),
            (CLOCK_ASKS, asks[2]),
            (CLOCK_ENABLED, 1),
            (CLOCK_READY, 1),
            (INPUT_ENABLED, 1),
            (UNREAD, 1),
            (OUTPUT_ENABLED, 1),
            (PID, 0o32000),
        ];
        for code in 0..64 {
            let line = match code {
                0o04 => Some(0),
                0o22 => Some(1),
                0o43 => Some(2),
                _ => None,
            };
            match line.filter(|line| asks[*line] == 1) {
                Some(line) => {
                    let flip_flop = (state[line].0, 0);
                    does(IDENT + code, &state, &[(A_0, 1), flip_flop]);
                }
                None => no_device(IDENT + code, &state),
            }
        }
    }
}

/// A raise sets no flip-flop, so that IDENT gives 7; IDENT may be executed on any level.
#[test]
fn idents_on_levels() {
    for (level, code) in [(10, 0o04), (11, 0o11), (12, 0o22), (13, 0o43)] {
        let mut m = before(IDENT + code, &[]);
        assert_eq!(
            nd110::raise(&mut m.state, level, &m.memory, &m.tables),
            Ok(())
        );
        m.gives(7, &[(P_0, 1)], &[], &[], "IDENT after a raise");
    }
    for level in 0..16 {
        let at = 8 * usize::from(level);
        let m = before(IDENT + 0o43, &[(LEVEL, level), (CLOCK_ASKS, 1)]);
        let change = [(at + P_0, 1), (at + A_0, 1), (CLOCK_ASKS, 0)];
        m.gives(0, &change, &[], &[], "IDENT on a level");
    }
}

/// On rings 0 and 1 with paging on, 6 comes before 7 and before any effect.
#[test]
fn privileged() {
    let devices = all(MOST);
    for ring in 0..4 {
        for (word, t, gives) in [
            (IOX + 0o300, 0, 0),
            (IOX + 0o277, 0, 7),
            (IOXT, 0o306, 0),
            (IOXT, 0o100306, 7),
            (IDENT + 0o22, 0, 0),
            (IDENT + 0o11, 0, 7),
        ] {
            let paged = [(PAGING, 1), (PCR_0, ring), (T_0, t)];
            let entry = 0o160000 | ring << 9;
            let mut m =
                before(word, &[&devices[..], &paged].concat()).with(&[], &[], &[(0, entry)]);
            let was = m.state.0;
            let want = if ring < 2 { 6 } else { gives };
            assert_eq!(m.step(), Ok(want), "{word:06o} on ring {ring}");
            if want != 0 {
                assert_eq!(m.state.0[CLOCK_ENABLED..], was[CLOCK_ENABLED..]);
                assert_eq!(m.state.0[A_0], was[A_0]);
            }
        }
    }
}

/// A tick: ready, and asks again each time that it comes while the clock is enabled. Allowed on a stopped machine.
#[test]
fn ticks() {
    for stopped in [0, 1] {
        for (enabled, ready, asks) in [
            (0, 0, 0),
            (0, 1, 0),
            (0, 0, 1),
            (1, 0, 0),
            (1, 1, 0),
            (1, 1, 1),
        ] {
            let start = before(JMP_HERE, &all(MOST)).with(
                &[
                    (STOPPED, stopped),
                    (PID, 0o100001),
                    (CLOCK_ENABLED, enabled),
                    (CLOCK_READY, ready),
                    (CLOCK_ASKS, asks),
                ],
                &[],
                &[],
            );
            let mut m = start.clone();
            assert_eq!(m.tick(), Ok(()));
            let asks = asks.max(enabled);
            let pid = 0o100001 | if enabled == 1 { PID_13 } else { 0 };
            let change = [(CLOCK_READY, 1), (CLOCK_ASKS, asks), (PID, pid)];
            m.is(&start.with(&change, &[], &[]), "a tick");
        }
    }
}

/// A character: refused 11 while the last is unread, whichever it is; else it is the last, unread, and asks if the input
/// is enabled. Its eight bits stay whatever the length is.
#[test]
fn characters() {
    for stopped in [0, 1] {
        for character in 0..=255 {
            for (enabled, unread, asks) in [(0, 0, 0), (0, 0, 1), (1, 0, 0), (1, 0, 1), (1, 1, 0)] {
                let start = before(JMP_HERE, &[]).with(
                    &[
                        (STOPPED, stopped),
                        (INPUT_ENABLED, enabled),
                        (UNREAD, unread),
                        (INPUT_ASKS, asks),
                        (TYPED, 0o125),
                        (LENGTH, 3),
                    ],
                    &[],
                    &[],
                );
                let mut m = start.clone();
                if unread == 1 {
                    assert_eq!(m.type_character(character), Err(Refusal::Unread));
                    m.is(&start, "a refused character");
                    continue;
                }
                assert_eq!(m.type_character(character), Ok(()));
                let change = [
                    (UNREAD, 1),
                    (TYPED, character.into()),
                    (INPUT_ASKS, asks.max(enabled)),
                    (PID, if enabled == 1 { PID_12 } else { 0 }),
                ];
                m.is(&start.with(&change, &[], &[]), "a character");
            }
        }
    }
}

/// A read out: the character once, and output asks if it is enabled; then none, and nothing changes.
#[test]
fn read_outs() {
    for stopped in [0, 1] {
        for character in 0..=255 {
            for (enabled, asks) in [(0, 0), (0, 1), (1, 0), (1, 1)] {
                let start = before(JMP_HERE, &[]).with(
                    &[
                        (STOPPED, stopped),
                        (LENGTH, 3),
                        (OUTPUT_ENABLED, enabled),
                        (WAITS, 1),
                        (OUTPUT_ASKS, asks),
                        (SENT, character.into()),
                    ],
                    &[],
                    &[],
                );
                let mut m = start.clone();
                assert_eq!(m.read_out(), Ok(Some(character)));
                let change = [
                    (WAITS, 0),
                    (OUTPUT_ASKS, asks.max(enabled)),
                    (PID, if enabled == 1 { PID_10 } else { 0 }),
                ];
                let want = start.with(&change, &[], &[]);
                m.is(&want, "a read out");
                m.state.0[PID] = 0;
                assert_eq!(m.read_out(), Ok(None));
                m.is(&want.with(&[(PID, 0)], &[], &[]), "none");
            }
        }
    }
}

/// Each word one more than it may be, and the highest, is refused by every function that tests the state, and by load.
#[test]
fn out_of_range() {
    let mut out = vec![FILLED; PAGE_WORDS + IMAGE_EXTRA];
    for (at, most) in MOST.into_iter().enumerate() {
        for word in [most + 1, 0o400, 0o100000, 0o177777] {
            let mut m = before(JMP_HERE, &all(MOST));
            m.state.0[CLOCK_ENABLED + at] = word;
            m.refuses(Refusal::State, &mut out);
            let was = m.clone();
            let image = [1, 5, 0, at as u16, 0, 1, word];
            let loaded = load(&image, &mut m.memory, &mut m.tables);
            assert_eq!(loaded, Err(Refusal::State));
            assert!(m == was, "a refused load changed a word");
        }
        let mut m = before(JMP_HERE, &[(CLOCK_ENABLED + at, most)]);
        assert_eq!(m.state.device(Device::ALL[at]), most);
        assert_eq!(m.step(), Ok(0));
        assert_eq!(m.state.device(Device::ALL[at]), most);
    }
    assert!(out.iter().all(|word| *word == FILLED));
}

/// An image of these entries of kind 5, each a start and its words.
fn image_of(entries: &[(u16, &[u16])]) -> Vec<u16> {
    let mut image = vec![entries.len() as u16];
    for (start, words) in entries {
        image.extend([5, 0, *start, 0, words.len() as u16]);
    }
    for (_, words) in entries {
        image.extend(*words);
    }
    image
}

/// Kind 5 has twelve words; what an image does not name is 0, whatever the machine had. The writer makes it the fifth
/// entry.
#[test]
fn images() {
    let words = [1, 0, 1, 0, 1, 1, 0o303, 2, 1, 1, 0, 0o144];
    let mut start = before(JMP_HERE, &all(words));
    start.tables[511] = 0o111111;
    let mut image = vec![FILLED; PAGE_WORDS + IMAGE_EXTRA];
    let written = write(&start.state, &start.memory, &start.tables, &mut image);
    assert_eq!(written, Ok(()));
    let contents = [
        5, 1, 0, 0, 0, 1024, 2, 0, 0, 0, 128, 3, 0, 0, 0, 28, 4, 0, 0, 0, 512, 5, 0, 0, 0, 12,
    ];
    assert_eq!(image[..26], contents);
    assert_eq!(image[26 + 1024 + 128 + 28 + 511], 0o111111);
    assert_eq!(image[26 + 1024 + 128 + 28 + 512..], words);
    assert_eq!(image.len(), 1024 + 706);
    let mut m = before(0, &all(MOST));
    let mut loaded = |image: &[u16]| {
        m.memory.fill(FILLED);
        m.tables.fill(FILLED);
        m.state = load(image, &mut m.memory, &mut m.tables)?;
        Ok::<Machine, Refusal>(m.clone())
    };
    loaded(&image).unwrap().is(&start, "the machine again");
    let cleared = Machine::new(1);
    loaded(&[0]).unwrap().is(&cleared, "no kind 5");
    let m = loaded(&image_of(&[(0, &words)])).unwrap();
    m.is(&cleared.with(&all(words), &[], &[]), "twelve words");
    let m = loaded(&image_of(&[(11, &[0o377]), (6, &[0o1, 3])])).unwrap();
    let some = [(SENT, 0o377), (TYPED, 1), (LENGTH, 3)];
    m.is(&cleared.with(&some, &[], &[]), "three words");
    assert!(loaded(&image_of(&[(12, &[])])).is_ok());
    for (start, len) in [(0, 13), (1, 12), (11, 2), (12, 1), (13, 0)] {
        let image = image_of(&[(start, &[0; 13][..len])]);
        assert_eq!(loaded(&image).err(), Some(Refusal::Target));
    }
    let twice = image_of(&[(0, &[0, 0]), (1, &[0])]);
    assert_eq!(loaded(&twice).err(), Some(Refusal::Overlap));
    assert_eq!(loaded(&[1, 6, 0, 0, 0, 0]).err(), Some(Refusal::Kind));
}

/// IOX 302, BSKP ONE 30 DA, JMP *-2, IOX 300, IOX 305, JMP *-5: an echo that waits for a character.
const ECHO: [u16; 6] = [0o164302, 0o175235, 0o124376, 0o164300, 0o164305, 0o124373];

fn echo() -> Machine {
    let mut m = Machine::new(1);
    m.memory[..6].copy_from_slice(&ECHO);
    m
}

/// Steps 1 to 3 find no character, nor does 4; 7 finds it, 9 reads it, 10 sends it, 11 jumps back.
#[test]
fn with_input() {
    let mut m = echo();
    let inputs = [
        (0, Input::ReadOut),
        (4, Input::Typed(b'A')),
        (4, Input::Typed(b'B')),
        (1, Input::Tick),
        (9, Input::ReadOut),
        (10, Input::ReadOut),
        (10, Input::Raise(15)),
        (12, Input::Typed(0)),
        (13, Input::Tick),
        (0, Input::Tick),
    ];
    let ran = m.run_with_input(12, &inputs).unwrap();
    let told = vec![
        Told::None,
        Told::Done,
        Told::Refused(Refusal::Unread),
        Told::Done,
        Told::None,
        Told::Character(b'A'),
        Told::Done,
        Told::Done,
    ];
    let want = InputRun {
        steps: 12,
        reason: Reason::Spent,
        references: 12,
        told,
    };
    assert_eq!(ran, want);
    let change = [
        (P_0, 1),
        (PID, 0o100000),
        (CLOCK_READY, 1),
        (UNREAD, 1),
        (SENT, b'A'.into()),
    ];
    m.is(&echo().with(&change, &[], &[]), "the echo");
}

/// A level that means another input as a word is a raise all the same, and refused.
#[test]
fn levels_that_are_no_input() {
    let mut m = echo();
    let inputs: Vec<(u64, Input)> = (0..=u16::MAX)
        .map(|level| (0, Input::Raise(level)))
        .collect();
    let ran = m.run_with_input(0, &inputs).unwrap();
    assert_eq!(
        (ran.steps, ran.reason, ran.references),
        (0, Reason::Spent, 0)
    );
    assert_eq!(ran.told.len(), 65536);
    for (level, told) in ran.told.into_iter().enumerate() {
        let want = match level {
            10..=13 | 15 => Told::Done,
            _ => Told::Refused(Refusal::RaiseLevel),
        };
        assert_eq!(told, want, "{level}");
    }
    m.is(&echo().with(&[(PID, 0o136000)], &[], &[]), "the raises");
}

/// Stopped and a due level are tested before every input, also between two of one step, and after the last; an interrupt
/// ends the run before the inputs of its step.
#[test]
fn ends_of_a_run() {
    let on: &Named = &[(ION, 1), (PIE, PID_13 | 1), (CLOCK_ENABLED, 1)];
    let two = [(1, Input::Tick), (1, Input::Tick)];
    let run = |word: u16, state: &Named, steps: u64, inputs: &[(u64, Input)]| {
        let mut m = before(word, state);
        let ran = m.run_with_input(steps, inputs).unwrap();
        let device = m.state.device(Device::ClockReady);
        let ends = (ran.steps, ran.reason, ran.references);
        (ends, ran.told.len(), device)
    };
    assert_eq!(run(WAIT, &[], 9, &two), ((1, Reason::Stopped, 1), 0, 0));
    assert_eq!(
        run(WAIT, &[(STOPPED, 1)], 9, &[(0, Input::Tick)]),
        ((0, Reason::Stopped, 0), 0, 0)
    );
    assert_eq!(run(IDENT, &[], 9, &two), ((1, Reason::Interrupt, 1), 0, 0));
    assert_eq!(run(SAA_5, on, 9, &two), ((1, Reason::Level, 1), 1, 1));
    assert_eq!(run(SAA_5, on, 1, &two), ((1, Reason::Level, 1), 1, 1));
    assert_eq!(
        run(SAA_5, on, 0, &[(0, Input::Tick)]),
        ((0, Reason::Level, 0), 1, 1)
    );
    assert_eq!(run(SAA_5, &[], 1, &two), ((1, Reason::Spent, 1), 2, 1));
    assert_eq!(
        run(SAA_5, &[], 1, &[(2, Input::Tick), (0, Input::Tick)]),
        ((1, Reason::Spent, 1), 0, 0)
    );
    // SAA 5, and two words that are 0, STZ *0
    assert_eq!(run(SAA_5, &[], 3, &[]), ((3, Reason::Spent, 5), 0, 0));
}

/// A run with input is the run to each input's step and the operation there, whatever is typed and read out.
#[test]
fn as_the_operations() {
    let mut inputs = Vec::new();
    for round in 0..200u64 {
        let at = 3 * round + round % 7;
        inputs.push((at, Input::Typed(round as u8)));
        inputs.push((at + 1, Input::ReadOut));
        inputs.push((at, Input::Tick));
    }
    let (mut whole, mut pieces) = (echo(), echo());
    let all = whole.run_with_input(1000, &inputs).unwrap();
    let mut taken = 0;
    let mut told = Vec::new();
    for (at, input) in inputs {
        let further = at.saturating_sub(taken);
        assert_eq!(
            pieces.run_to_interrupt(further),
            Ok(ran(further, Reason::Spent, further))
        );
        taken += further;
        let refused =
            |answer: Result<(), Refusal>| answer.map_or_else(Told::Refused, |()| Told::Done);
        told.push(match input {
            Input::Typed(character) => refused(pieces.type_character(character)),
            Input::Tick => refused(pieces.tick()),
            _ => pieces
                .read_out()
                .unwrap()
                .map_or(Told::None, Told::Character),
        });
    }
    assert_eq!(
        pieces.run_to_interrupt(1000 - taken),
        Ok(ran(1000 - taken, Reason::Spent, 1000 - taken))
    );
    let characters = told
        .iter()
        .filter(|told| matches!(told, Told::Character(_)));
    assert!(characters.count() > 50);
    assert!(told.contains(&Told::Refused(Refusal::Unread)));
    let want = InputRun {
        steps: 1000,
        reason: Reason::Spent,
        references: 1000,
        told,
    };
    assert_eq!(all, want);
    whole.is(&pieces, "both");
}

/// The clock's interrupt: a tick is due on level 13 at once, the level's program clears ready and gives up priority, and
/// a tick after that comes again. Level 0 is JMP *0; level 13 at 100: IDENT PL13, LDA *4, IOX 13, WAIT, JMP *-4, and the
/// control word with bits 13 and 0.
#[test]
fn clock_on_level_13() {
    const P_13: usize = 8 * 13 + P_0;
    let program = [IDENT + 0o43, 0o044004, IOX + 0o13, WAIT, 0o124374, 0o020001];
    let mut m = before(JMP_HERE, &[]).with(
        &[
            (ION, 1),
            (PIE, PID_13 | 1),
            (PID, 1),
            (P_13, 0o100),
            (CLOCK_ENABLED, 1),
        ],
        &[],
        &[],
    );
    m.memory[0o100..0o106].copy_from_slice(&program);
    assert_eq!(m.run(10), Ok(ran(10, Reason::Spent, 10)));
    assert_eq!(m.state.0[LEVEL], 0);
    for _ in 0..3 {
        assert_eq!(m.tick(), Ok(()));
        assert_eq!((m.state.0[PID], m.state.0[CLOCK_ASKS]), (PID_13 | 1, 1));
        // a change of level, the four, a change back; from the second time on also JMP *-4
        let steps = if m.state.0[P_13] == 0o100 { 6 } else { 7 };
        assert_eq!(m.run_to_interrupt(100), Ok(ran(0, Reason::Level, 0)));
        // none for a change, two for LDA, one for each of the others
        assert_eq!(m.run(steps), Ok(ran(steps, Reason::Spent, steps - 1)));
        assert_eq!((m.state.0[LEVEL], m.state.0[PID]), (0, 1));
        assert_eq!(m.state.0[P_13], 0o104);
        let clock = &m.state.0[CLOCK_ENABLED..INPUT_ENABLED];
        assert_eq!(clock, [1, 0, 0]);
    }
    assert_eq!(m.state.0[IID], 0);
}
