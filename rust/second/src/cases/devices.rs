//! Console and clock: IOX, IOXT and IDENT, device input between steps and in
//! runs, and the devices' words in images and states.
//!
//! Level 3 runs on ring 2, as in every base machine, and PIE has all levels: a
//! device that asks makes a change of level due.

mod operations;
mod runs;
mod stories;

use super::{Case, MEMORY, Operation};
use crate::TABLE_WORDS;
use crate::decode::Reg;
use crate::devices::{DEVICE_WORDS, Devices, MOST_DEVICE_WORDS as MOST, device};
use crate::random::Random;
use crate::vectors::{devices, instruction};

pub use operations::operations;
pub use runs::{random_runs, runs};
pub use stories::stories;

#[cfg(test)]
mod tests;

/// 19-bit mode, extended mode.
const MODES: [bool; 2] = [false, true];

const IOX: u16 = 0o164000;
const IOXT: u16 = 0o150415;
const WAIT: u16 = 0o151000;
/// EXR SL.
const EXR: u16 = 0o140640;
/// IDENT, and of the output's level, of level 11, of the input's and the clock's.
const IDENT: u16 = 0o143600;
const PL10: u16 = 0o143604;
const PL11: u16 = 0o143611;
const PL12: u16 = 0o143622;
const PL13: u16 = 0o143643;

/// Where the words under test stand.
const AT: u16 = 0o600;

/// Devices' words by number.
const INPUT_UNREAD: usize = 4;
const INPUT_CHARACTER: usize = 6;
const LENGTH: usize = 7;
const OUTPUT_WAITS: usize = 9;
const OUTPUT_ASKS: usize = 10;
const OUTPUT_CHARACTER: usize = 11;

/// The flags of the clock, the input and the output: enabled, ready (of the
/// output: waits), asks.
const FLAGS: [[usize; 3]; 3] = [[0, 1, 2], [3, 4, 5], [8, 9, 10]];

/// Every flag on, and characters of seven bits.
const FULL: [u16; DEVICE_WORDS] = [1, 1, 1, 1, 1, 1, 0o345, 1, 1, 1, 1, 0o123];
/// The clock and the input are ready, the output is enabled.
const SOME: [u16; DEVICE_WORDS] = [0, 1, 0, 0, 1, 0, 0o345, 1, 1, 0, 0, 0];
/// Every device is enabled.
const ENABLED: [u16; DEVICE_WORDS] = [1, 0, 0, 1, 0, 0, 0, 0, 1, 0, 0, 0];
/// A character is unread.
const TYPED: [u16; DEVICE_WORDS] = [0, 0, 0, 0, 1, 0, 0o345, 0, 0, 0, 0, 0];
/// Every device asks.
const ASKING: [u16; DEVICE_WORDS] = [0, 0, 1, 0, 0, 1, 0, 0, 0, 0, 1, 0];

/// Words for control registers and data.
const GIVEN: [u16; 7] = [
    0, 0o177777, 0o034001, 0o020000, 0o000001, 0o014001, 0o123456,
];

impl Case {
    fn devices(self, words: [u16; DEVICE_WORDS]) -> Case {
        self.with(|state| state.devices = Devices::from_words(&words))
    }

    /// No level is due, whoever asks.
    fn alone(self) -> Case {
        self.with(|state| state.interrupts_on = 0)
    }
}

/// A step of the base machine of a mode, at `AT`.
fn of(extended: bool, label: &'static str) -> Case {
    let case = Case::in_mode(extended, label, Operation::Step, MEMORY, TABLE_WORDS);
    case.reg(Reg::P, AT)
}

/// The case with a device register reached: by IOX, by IOXT, and by an EXR of each.
fn reach(case: Case, way: usize, address: u16) -> Case {
    let (word, case) = match way % 2 {
        0 => (IOX | address, case),
        _ => (IOXT, case.reg(Reg::T, address)),
    };
    match way / 2 {
        0 => case.at_p(word),
        _ => case.reg(Reg::L, word).at_p(EXR),
    }
}

/// The words with a device's flags in one of their eight states.
fn in_state(mut words: [u16; DEVICE_WORDS], flags: [usize; 3], state: u16) -> [u16; DEVICE_WORDS] {
    for (bit, index) in flags.into_iter().enumerate() {
        words[index] = state >> bit & 1;
    }
    words
}

/// Steps of IOX and IOXT.
pub fn registers() -> Vec<Case> {
    let mut cases = Vec::new();
    rings(&mut cases);
    order(&mut cases);
    addresses(&mut cases);
    long_addresses(&mut cases);
    controls(&mut cases);
    reads(&mut cases);
    lengths(&mut cases);
    cases
}

/// Each register in every way on the rings that may, and in one on the others.
fn rings(cases: &mut Vec<Case>) {
    for (turn, address) in device::ALL.into_iter().enumerate() {
        let mut push = |extended, way, paging, ring| {
            let given = GIVEN[cases.len() % GIVEN.len()];
            let case = of(extended, "ring").paging(paging).on_ring(ring);
            let case = case.devices(SOME).reg(Reg::A, given);
            cases.push(reach(case.reg(Reg::Sts, 0o377), way, address));
        };
        for extended in MODES {
            for way in 0..4 {
                for (paging, ring) in [(true, 2), (true, 3), (false, way as u16)] {
                    push(extended, way, paging, ring);
                }
            }
            for ring in 0..2 {
                push(extended, (turn + usize::from(ring)) % 4, true, ring);
            }
        }
    }
}

/// The fetch, 4, 6, then 7; and the ring that the fetch leaves.
fn order(cases: &mut Vec<Case>) {
    for extended in MODES {
        for (turn, address) in [device::INPUT_CONTROL, device::OUTPUT_DATA, 0o014, 0o310]
            .into_iter()
            .enumerate()
        {
            for way in [turn, (turn + 1) % 4] {
                let case = of(extended, "order").devices(TYPED).reg(Reg::A, 0o14001);
                let case = reach(case, way, address);
                cases.push(case.clone().on_ring(1));
                // Lowered to ring 1, and to ring 2.
                cases.push(case.clone().on_ring(1).ring(3));
                cases.push(case.clone().on_ring(2).ring(3));
                // No permit to fetch.
                cases.push(case.clone().paged(AT, 0o142000, 3));
                // IIE with 7 and without.
                cases.push(case.clone().with(|state| state.iie = 1 << 7));
                cases.push(case.quiet());
            }
        }
        // An EXR of an EXR; EXR of the register that has the data or the address.
        let case = of(extended, "order").devices(TYPED).reg(Reg::L, 0o140650);
        cases.push(case.reg(Reg::A, IOX | device::INPUT_DATA).at_p(EXR));
        for address in device::ALL {
            let case = of(extended, "order").devices(TYPED);
            let case = case.reg(Reg::A, IOX | address);
            cases.push(case.at_p(0o140650)); // EXR SA
        }
        let case = of(extended, "order").devices(TYPED).reg(Reg::T, IOXT);
        cases.push(case.at_p(0o140660)); // EXR ST
    }
}

/// Addresses of IOX: all about the twelve, all that differ from one of them in a
/// bit, and some everywhere.
fn addresses(cases: &mut Vec<Case>) {
    let near = (0..0o40).chain(0o260..0o330);
    let flipped = device::ALL.into_iter().flat_map(|address| {
        let bits = 0..11;
        bits.map(move |bit| address ^ 1 << bit)
    });
    let spread = (0..0o4000).step_by(61);
    let mut all: Vec<u16> = near.chain(flipped).chain(spread).collect();
    all.extend([0o277, 0o310, 0o3776, 0o3777, 0o2010, 0o2300]);
    all.sort_unstable();
    all.dedup();
    for address in all {
        let case = of(false, "address").devices(TYPED).reg(Reg::A, 0o20001);
        cases.push(case.at_p(IOX | address));
    }
}

/// T with each bit of a register's address the other way round, and more.
fn long_addresses(cases: &mut Vec<Case>) {
    for (turn, address) in device::ALL.into_iter().enumerate() {
        let flipped = (0..16).map(|bit| address ^ 1 << bit);
        let high = [0o004000, 0o100000, 0o174000, 0o177400].map(|bits| address | bits);
        for (more, t) in flipped.chain(high).enumerate() {
            let way = 1 + 2 * ((turn + more) % 8 / 7);
            let case = of(more % 2 == 1, "address").devices(TYPED);
            cases.push(reach(case.reg(Reg::A, 0o20001), way, t));
        }
    }
}

/// Every state of a device by every word for its control register, of which bits
/// 0, 11, 12 and 13 differ. The others' words are on or off.
fn controls(cases: &mut Vec<Case>) {
    let control = [
        device::CLOCK_CONTROL,
        device::INPUT_CONTROL,
        device::OUTPUT_CONTROL,
    ];
    for (flags, address) in FLAGS.into_iter().zip(control) {
        for state in 0..8 {
            for bits in 0..16 {
                let turn = state + bits;
                let others = [SOME, [0; DEVICE_WORDS], FULL][usize::from(turn) % 3];
                let words = in_state(others, flags, state);
                // Bits 1 to 10, 14 and 15 mean nothing.
                let unused = [0, 0o143776][usize::from(turn) % 2];
                let given = bits >> 1 << 11 | bits & 1 | unused;
                let case = of(false, "control").devices(words).reg(Reg::A, given);
                let pid = [8, 0o32010, 0][usize::from(turn) % 3];
                let case = case.alone().with(|state| state.pid = pid);
                let by_t = turn % 5 == 4;
                cases.push(reach(case, by_t.into(), address));
            }
        }
    }
}

/// Every register that is read, and those that take no word, in every state of
/// their device.
fn reads(cases: &mut Vec<Case>) {
    let registers = [
        [
            device::CLOCK_DATA,
            device::CLOCK_COUNTER,
            device::CLOCK_STATUS,
        ],
        [device::INPUT_DATA, device::INPUT_RATE, device::INPUT_STATUS],
        [
            device::OUTPUT_TEST,
            device::OUTPUT_DATA,
            device::OUTPUT_STATUS,
        ],
    ];
    for (flags, addresses) in FLAGS.into_iter().zip(registers) {
        for address in addresses {
            for state in 0..8 {
                for others in [[0; DEVICE_WORDS], FULL] {
                    let words = in_state(others, flags, state);
                    let case = of(state % 2 == 1, "state").devices(words);
                    cases.push(case.reg(Reg::A, 0o177777).at_p(IOX | address));
                }
            }
        }
    }
}

/// Characters of every length, in and out.
fn lengths(cases: &mut Vec<Case>) {
    for length in 0..4 {
        for character in [0o377, 0o252, 0o125, 0o340, 0o037] {
            let mut words = [0; DEVICE_WORDS];
            words[LENGTH] = length;
            words[INPUT_UNREAD] = character & 1;
            words[INPUT_CHARACTER] = character;
            words[OUTPUT_CHARACTER] = 0o147;
            let case = of(false, "length").devices(words);
            cases.push(case.clone().at_p(IOX | device::INPUT_DATA));
            for high in [0, 0o177400] {
                let case = case.clone().reg(Reg::A, high | character);
                cases.push(case.at_p(IOX | device::OUTPUT_DATA));
            }
        }
    }
}

/// Steps of IDENT.
pub fn ident() -> Vec<Case> {
    let mut cases = Vec::new();
    codes(&mut cases);
    askers(&mut cases);
    places(&mut cases);
    again(&mut cases);
    cases
}

/// All codes, with every device asking and with none.
fn codes(cases: &mut Vec<Case>) {
    for code in 0..0o100 {
        for (extended, words) in [(code % 2 == 1, ASKING), (false, TYPED)] {
            let case = of(extended, "code").alone().devices(words);
            cases.push(case.at_p(IDENT | code));
        }
    }
}

/// The four codes by each set of devices that ask; nothing else plays a part.
fn askers(cases: &mut Vec<Case>) {
    for word in [PL10, PL11, PL12, PL13] {
        for asking in 0..8 {
            for rest in [0, 1] {
                let mut words = FULL.map(|word| word * rest);
                for (bit, [_, _, flip_flop]) in FLAGS.into_iter().enumerate() {
                    words[flip_flop] = asking >> bit & 1;
                }
                let case = of(asking % 2 == 1, "asking").alone().devices(words);
                let pid = [0, 0o36000, 0o10][usize::from(asking) % 3];
                cases.push(case.with(|state| state.pid = pid).at_p(word));
            }
        }
    }
}

/// On every ring and on many levels; after a mere raise.
fn places(cases: &mut Vec<Case>) {
    for (turn, word) in [PL10, PL11, PL12, PL13, IDENT, IDENT | 0o77]
        .into_iter()
        .enumerate()
    {
        for (paging, ring) in [(true, 0), (true, 1), (true, 3), (false, 1)] {
            let case = of(turn % 2 == 1, "place").paging(paging).on_ring(ring);
            let case = case.alone().devices(ASKING).reg(Reg::L, word);
            cases.push(case.clone().at_p(word));
            cases.push(case.at_p(EXR));
        }
        for level in [0, 1, 9, 10, 11, 12, 13, 14, 15] {
            let case = Case::step("place").on_level(level).reg(Reg::P, AT);
            cases.push(case.devices(ASKING).alone().at_p(word));
        }
        let raised = of(false, "place").with(|state| state.pid |= 0o136000);
        cases.push(raised.alone().at_p(word));
    }
}

/// Twice, with IIE and without; and with the other devices between.
fn again(cases: &mut Vec<Case>) {
    let programs: [&[u16]; 6] = [
        &[PL13, PL13],
        &[PL12, PL12],
        &[PL10, PL10],
        &[PL13, PL12, PL10, PL13, PL12, PL10],
        &[PL11, PL10, PL11, PL12],
        &[PL12, IOX | device::INPUT_DATA, PL12, PL10],
    ];
    for words in programs {
        for steps in 1..=words.len() as u64 {
            let case = of(false, "again").alone().devices(FULL).code(AT, words);
            let case = case.running(Operation::Through(steps));
            cases.push(case.clone());
            cases.push(case.running(Operation::ToInterrupt(steps)));
        }
    }
}

/// A device register's address: mostly one of the twelve, sometimes near them.
fn any_register(random: &mut Random) -> u16 {
    let address = random.pick(&device::ALL);
    match random.below(12) {
        0 => address ^ 1 << random.below(16),
        1 => random.word(),
        _ => address,
    }
}

/// A word that reaches a device, or one of any kind.
fn any_word(random: &mut Random) -> u16 {
    match random.below(8) {
        0..=3 => IOX | any_register(random) & 0o3777,
        4 => IOXT,
        5 | 6 => match random.below(8) {
            0 => IDENT | random.word() & 0o77,
            _ => random.pick(&[PL10, PL12, PL13, PL11]),
        },
        _ => instruction(random),
    }
}

/// Steps from random machines.
pub fn random() -> Vec<Case> {
    let mut random = Random::new(1_000);
    (0..270).map(|_| any(&mut random)).collect()
}

fn any(random: &mut Random) -> Case {
    let mut case = of(random.one_in(3), "any");
    if random.one_in(3) {
        case = case.on_level(random.below(16) as usize).reg(Reg::P, AT);
    }
    let ring = random.pick(&[2, 2, 2, 3, 1, 0]);
    case = case.paging(!random.one_in(4)).on_ring(ring);
    let words = devices(random).to_words();
    let given = match random.below(2) {
        0 => random.word(),
        _ => random.pick(&GIVEN),
    };
    let address = any_register(random);
    case = case.devices(words).reg(Reg::A, given).reg(Reg::T, address);
    if random.one_in(2) {
        let pid = random.word();
        case = case.alone().with(|state| {
            state.pid |= pid & 0o36000;
            state.iie &= pid;
        });
    }
    let word = any_word(random);
    match random.below(6) {
        0 => case.reg(Reg::L, word).at_p(EXR),
        _ => case.at_p(word),
    }
}
