//! Console and clock: answers worked out from card 1 and its rulings 30 to 39.

mod common;
use common::*;
use second::*;

const PGU: u16 = 0o004000;
const WAIT: u16 = 0o151000;
const IOXT: u16 = 0o150415;
/// COPY SA DT.
const TO_T: u16 = 0o146156;

fn iox(address: u16) -> u16 {
    0o164000 + address
}

const PL10: u16 = 0o143604;
const PL11: u16 = 0o143611;
const PL12: u16 = 0o143622;
const PL13: u16 = 0o143643;

/// PID bits of the output, the input and the clock.
const OUTPUT_BIT: u16 = 1 << 10;
const INPUT_BIT: u16 = 1 << 12;
const CLOCK_BIT: u16 = 1 << 13;

impl Case {
    /// Device words, each by its number.
    fn dev(mut self, words: &[(usize, u16)]) -> Case {
        let mut all = self.s.to_words();
        for &(number, word) in words {
            all[156 + number] = word;
        }
        self.s = State::from_words(&all);
        self
    }

    /// Expects device words and PID as they were, but for these.
    fn only(self, before: &Case, pid: u16, words: &[(usize, u16)]) -> Case {
        let expected = before.clone().dev(words);
        assert_eq!(self.s.devices, expected.s.devices);
        assert_eq!(self.s.pid, before.s.pid | pid);
        self
    }

    fn tick(&mut self) {
        assert_eq!(tick(&mut self.s, &self.m, &self.t), Ok(()));
    }

    fn typed(&mut self, character: u8) -> Result<(), Refusal> {
        type_character(&mut self.s, &self.m, &self.t, character)
    }

    fn read_out(&mut self) -> Option<u8> {
        read_out(&mut self.s, &self.m, &self.t).expect("in range")
    }

    fn session(&mut self, steps: u64, inputs: &[(u64, Input)]) -> Session {
        run_with_input(&mut self.s, &mut self.m, &mut self.t, steps, inputs).expect("in range")
    }
}

/// A case with a program from 000100 on.
fn program(words: &[u16]) -> Case {
    let mut case = Case::of(0);
    case.m[0o100..0o100 + words.len()].copy_from_slice(words);
    case
}

/// Every device word another than 0.
const ALL: [(usize, u16); 12] = [
    (0, 1),
    (1, 1),
    (2, 1),
    (3, 1),
    (4, 1),
    (5, 1),
    (6, 0o325),
    (7, 2),
    (8, 1),
    (9, 1),
    (10, 1),
    (11, 0o173),
];

/// Steps one instruction and expects A; no flag, no register but A and P changes.
fn reads(case: Case, a: u16) -> Case {
    let before = case.clone();
    let case = case.ok().has(&[(A, a), (P, 0o101)]);
    let mut expected = before.with(A, a).with(P, 0o101);
    expected.s.devices = case.s.devices.clone();
    expected.s.pid = case.s.pid;
    assert_eq!(case, expected);
    case
}

// Rulings 30 and 37.

#[test]
fn the_devices_words() {
    assert_eq!((STATE_WORDS, DEVICE_WORDS, IMAGE_EXTRA), (168, 12, 706));
    let state = Case::of(0).dev(&ALL).s;
    assert_eq!(
        state.devices,
        Devices {
            clock_enabled: 1,
            clock_ready: 1,
            clock_asks: 1,
            input_enabled: 1,
            input_unread: 1,
            input_asks: 1,
            input_character: 0o325,
            length: 2,
            output_enabled: 1,
            output_waits: 1,
            output_asks: 1,
            output_character: 0o173,
        }
    );
    assert_eq!(
        state.to_words()[156..],
        [1, 1, 1, 1, 1, 1, 0o325, 2, 1, 1, 1, 0o173]
    );
    assert_eq!(State::new().to_words()[156..], [0; 12]);
    assert_eq!(DEVICE_NAMES[0], "CLOCK-ENABLED");
    assert_eq!(DEVICE_NAMES[11], "OUTPUT");
}

// Ruling 31.

#[test]
fn twelve_addresses_answer() {
    let answers = |address| matches!(address, 0o10..=0o13 | 0o300..=0o307);
    for address in 0..0o4000 {
        let mut case = Case::of(iox(address)).dev(&ALL);
        assert_eq!(case.step() == 0, answers(address), "{address:o}");
    }
    for address in 0..=0o177777 {
        let mut case = Case::of(IOXT).with(T, address).dev(&ALL);
        assert_eq!(case.step() == 0, answers(address), "{address:o}");
    }
}

#[test]
fn an_address_without_a_device() {
    for address in [7, 0o14, 0o277, 0o310, 0o3777] {
        for iie in [0, 1 << 7] {
            let mut case = Case::of(iox(address)).with(A, 0o20001).dev(&ALL);
            case.s.iie = iie;
            let mut expected = case.clone().with(P, 0o101);
            expected.s.iid = 1 << 7;
            expected.s.pid = if iie == 0 { 0 } else { 1 << 14 };
            assert_eq!(case.gives(7), expected);
        }
    }
    for t in [0o004010, 0o100300, 0o177777, 0o100013] {
        let case = Case::of(IOXT).with(T, t).with(A, 5);
        case.gives(7).has(&[(T, t), (A, 5)]);
    }
}

#[test]
fn the_order_is_illegal_privileged_device() {
    for word in [iox(0o303), iox(0o14), PL12, PL11, IOXT] {
        for ring in 0..4 {
            // By EXR SL too.
            let plain = Case::paged(word, ring);
            let executed = Case::paged(0o140640, ring).with(L, word);
            for case in [plain, executed] {
                let case = case.with(A, 1).with(T, 0o306).dev(&[(4, 1), (5, 1)]);
                let missing = word == iox(0o14) || word == PL11;
                let number = match ring {
                    0 | 1 => 6,
                    _ if missing => 7,
                    _ => 0,
                };
                let before = case.clone();
                let mut case = case;
                assert_eq!(case.step(), number, "{word:o}");
                case = case.has(&[(P, 0o101)]).entry(0, before.t[0] | PGU);
                if number != 0 {
                    case.only(&before, 0, &[]).has(&[(A, 1), (T, 0o306)]);
                }
            }
        }
        // Lowered by the fetch.
        let case = Case::paged(word, 3).table(0, 0o161000);
        assert_eq!(case.gives(6).s.pcr[0], 1);
    }
    // An EXR of an EXR: 4. Paging off: every ring may.
    let case = Case::of(0o140640).with(L, 0o140650).with(A, iox(0o300));
    case.gives(4);
    for ring in 0..4 {
        let mut case = Case::of(iox(0o306));
        case.s.pcr[0] = ring;
        case.ok().has(&[(A, 0o10)]);
    }
}

#[test]
fn exr_of_the_register_that_is_given() {
    // EXR SA of IOX 305: the character is that of the word itself, 305.
    let case = Case::of(0o140650).with(A, iox(0o305)).ok();
    assert_eq!(case.s.devices.output_character, 0o305);
    case.has(&[(A, iox(0o305))]);
    // EXR ST of IOXT: no device has the address 150415.
    Case::of(0o140660).with(T, IOXT).gives(7);
}

// Ruling 32, register by register.

#[test]
fn registers_that_read_zero_or_take_nothing() {
    for address in [0o010, 0o304] {
        let case = Case::of(iox(address)).with(A, 0o177777).with(STS, 0o377);
        let case = case.dev(&ALL);
        let before = case.clone();
        reads(case, 0).only(&before, 0, &[]);
    }
    for address in [0o011, 0o301] {
        for a in [0, 0o177777] {
            let case = Case::of(iox(address)).with(A, a).dev(&ALL);
            let before = case.clone();
            reads(case, a).only(&before, 0, &[]);
        }
    }
}

#[test]
fn status_words() {
    // Register, the words that are bits 0 and 3; the output's bit 3 is that none waits.
    for (address, enabled, ready, set) in [(0o012, 0, 1, 1), (0o302, 3, 4, 1), (0o306, 8, 9, 0)] {
        for bits in 0..4 {
            let (on, is_ready) = (bits & 1, bits >> 1);
            let ready_word = if is_ready == set { 1 } else { 0 };
            let words = [(enabled, on), (ready, ready_word)];
            for others in [&[][..], &ALL] {
                let case = Case::of(iox(address)).with(A, 0o177777).with(STS, 0o377);
                let case = case.dev(others).dev(&words);
                let before = case.clone();
                reads(case, on + 8 * is_ready).only(&before, 0, &[]);
            }
        }
    }
}

#[test]
fn the_clocks_control() {
    for bits in 0..8 {
        let [enabled, ready, asks] = [bits & 1, bits >> 1 & 1, bits >> 2];
        let start = [(0, enabled), (1, ready), (2, asks)];
        let write = |a: u16| {
            let case = Case::of(iox(0o13)).with(A, a).dev(&start);
            let before = case.clone();
            (reads(case, a), before)
        };
        // Nothing set: disabled. Bit 13: ready is cleared too; it asks no more, but
        // the flip-flop stays.
        for a in [0, 0o157776] {
            let (case, before) = write(a);
            case.only(&before, 0, &[(0, 0)]);
        }
        for (a, on) in [(0o020000, 0), (0o020001, 1), (0o177777, 1)] {
            let (case, before) = write(a);
            case.only(&before, 0, &[(0, on), (1, 0)]);
        }
        // Bit 0: it asks if it is ready, also if it asked already.
        for a in [1, 0o157777] {
            let (case, before) = write(a);
            if ready == 1 {
                case.only(&before, CLOCK_BIT, &[(0, 1), (2, 1)]);
            } else {
                case.only(&before, 0, &[(0, 1)]);
            }
        }
    }
}

#[test]
fn the_inputs_control() {
    for bits in 0..8 {
        let [enabled, unread, asks] = [bits & 1, bits >> 1 & 1, bits >> 2];
        for length in 0..4 {
            for (more, on) in [(0, 0), (1, 1), (0o163776, 0), (0o163777, 1)] {
                let a = length << 11 | more;
                let case = Case::of(iox(0o303)).with(A, a);
                let case = case.dev(&[(3, enabled), (4, unread), (5, asks), (7, 1)]);
                let before = case.clone();
                let case = reads(case, a);
                if on == 1 && unread == 1 {
                    case.only(&before, INPUT_BIT, &[(3, 1), (5, 1), (7, length)]);
                } else {
                    case.only(&before, 0, &[(3, on), (7, length)]);
                }
            }
        }
    }
}

#[test]
fn the_outputs_control() {
    for bits in 0..8 {
        let [enabled, waits, asks] = [bits & 1, bits >> 1 & 1, bits >> 2];
        for a in [0, 1, 0o177776, 0o177777] {
            let case = Case::of(iox(0o307)).with(A, a);
            let case = case.dev(&[(8, enabled), (9, waits), (10, asks), (7, 2)]);
            let before = case.clone();
            let case = reads(case, a);
            if a & 1 == 1 && waits == 0 {
                case.only(&before, OUTPUT_BIT, &[(8, 1), (10, 1)]);
            } else {
                case.only(&before, 0, &[(8, a & 1)]);
            }
        }
    }
}

#[test]
fn characters_are_read_by_their_length() {
    // Of 377 and of 252: 8, 7, 6 and 5 bits.
    for (length, all, some) in [
        (0, 0o377, 0o252),
        (1, 0o177, 0o052),
        (2, 0o077, 0o052),
        (3, 0o037, 0o012),
    ] {
        for unread in [0, 1] {
            for (character, a) in [(0o377, all), (0o252, some)] {
                let case = Case::of(iox(0o300)).with(A, 0o123456).with(STS, 0o377);
                let words = [(4, unread), (5, 1), (6, character), (7, length)];
                let case = case.dev(&words);
                let before = case.clone();
                // It is read; the word keeps its value, the flip-flop stays.
                reads(case, a).only(&before, 0, &[(4, 0)]);
            }
        }
        // Sent by their length, whatever waits.
        for (a, character) in [(0o377, all), (0o177652, some)] {
            for waits in [0, 1] {
                let case = Case::of(iox(0o305)).with(A, a);
                let case = case.dev(&[(7, length), (8, 1), (9, waits), (11, 0o101)]);
                let before = case.clone();
                // Enabled and not ready: nothing is asked.
                reads(case, a).only(&before, 0, &[(9, 1), (11, character)]);
            }
        }
    }
    // None since cleared: 0.
    reads(Case::of(iox(0o300)).with(A, 5), 0);
}

// Ruling 33.

#[test]
fn ready_that_occurs() {
    for enabled in [0, 1] {
        for ready in [0, 1] {
            let mut case = Case::of(0).dev(&[(0, enabled), (1, ready)]);
            let before = case.clone();
            case.tick();
            match enabled {
                0 => case.only(&before, 0, &[(1, 1)]),
                _ => case.only(&before, CLOCK_BIT, &[(1, 1), (2, 1)]),
            };
        }
        let mut case = Case::of(0).dev(&[(3, enabled), (6, 0o102), (7, 3)]);
        let before = case.clone();
        assert_eq!(case.typed(0o301), Ok(()));
        // Kept whole, whatever the length.
        match enabled {
            0 => case.only(&before, 0, &[(4, 1), (6, 0o301)]),
            _ => case.only(&before, INPUT_BIT, &[(4, 1), (5, 1), (6, 0o301)]),
        };
        let mut case = Case::of(0).dev(&[(8, enabled), (9, 1), (11, 0o301)]);
        let before = case.clone();
        assert_eq!(case.read_out(), Some(0o301));
        match enabled {
            0 => case.only(&before, 0, &[(9, 0)]),
            _ => case.only(&before, OUTPUT_BIT, &[(9, 0), (10, 1)]),
        };
    }
}

#[test]
fn only_ident_takes_the_flip_flop_back() {
    // Disabled, read and cleared, sent over: all three still ask.
    let words = [iox(0o13), iox(0o303), iox(0o307), iox(0o300), iox(0o305)];
    let mut case = program(&words).with(A, 0o20000).dev(&ALL);
    for _ in words {
        assert_eq!(case.step(), 0);
    }
    let devices = &case.s.devices;
    assert_eq!(
        [devices.clock_asks, devices.input_asks, devices.output_asks],
        [1, 1, 1]
    );
    assert_eq!(
        [
            devices.clock_enabled,
            devices.input_enabled,
            devices.output_enabled
        ],
        [0, 0, 0]
    );
    assert_eq!((devices.clock_ready, devices.input_unread), (0, 0));
    assert_eq!(case.s.pid, 0);
}

// Ruling 34.

#[test]
fn ident_codes() {
    for code in 0..0o100 {
        let flip_flop = match code {
            0o04 => Some(10),
            0o22 => Some(5),
            0o43 => Some(2),
            _ => None,
        };
        for level in [0, 3, 10, 12, 13, 15] {
            let mut case = Case::of(0o143600 | code).dev(&ALL);
            case.s.level = level;
            case.s.pid = 0o36000;
            let case = case.with(P, HERE).with(A, 0o123456).with(STS, 0o377);
            let before = case.clone();
            match flip_flop {
                Some(word) => {
                    // Nothing but A and the flip-flop: enabled, ready, PID stay.
                    let case = reads(case, 1).only(&before, 0, &[(word, 0)]);
                    // Again: 7, and A stays.
                    let case = case.with(P, HERE).with(A, 7).gives(7);
                    case.has(&[(A, 7)]).only(&before, 0, &[(word, 0)]);
                }
                None => {
                    let case = case.gives(7).only(&before, 0, &[]);
                    case.has(&[(A, 0o123456), (P, 0o101), (STS, 0o377)]);
                }
            }
        }
    }
}

#[test]
fn ident_takes_its_own_alone() {
    for (word, number) in [(PL10, 10), (PL12, 5), (PL13, 2)] {
        // The other two ask, this one is enabled and ready, its PID bit is set.
        let case = Case::of(word).dev(&ALL).dev(&[(number, 0), (9, 0)]);
        let mut case = case.with(A, 9);
        case.s.pid = 0o36000;
        let before = case.clone();
        case.gives(7).only(&before, 0, &[]).has(&[(A, 9)]);
    }
}

#[test]
fn ident_on_rings() {
    for ring in 0..4 {
        let mut case = Case::paged(PL13, ring).dev(&[(2, 1)]);
        let number = if ring < 2 { 6 } else { 0 };
        assert_eq!(case.step(), number);
        assert_eq!(case.s.devices.clock_asks, u16::from(ring < 2));
    }
}

// Ruling 35.

#[test]
fn pid_is_a_word_and_no_line() {
    // Level 13 gives up without IDENT: WAIT; then JMP *-1.
    let mut case = Case::of(0o124000).dev(&[(0, 1)]);
    case.s.interrupts_on = 1;
    case.s.pie = CLOCK_BIT;
    case.s.files[13][2] = 0o200;
    case.m[0o200..0o202].copy_from_slice(&[WAIT, 0o124377]);
    case.tick();
    assert_eq!((case.s.pid, case.s.devices.clock_asks), (CLOCK_BIT, 1));
    assert_eq!(case.step(), 0);
    assert_eq!((case.s.level, case.s.pvl), (13, 0));
    assert_eq!(case.step(), 0);
    assert_eq!((case.s.pid, case.s.devices.clock_asks), (0, 1));
    // Back to level 0, for good.
    for _ in 0..5 {
        assert_eq!(case.step(), 0);
    }
    assert_eq!((case.s.level, case.s.pvl, case.s.pid), (0, 13, 0));
    // A tick asks again, though it asked already.
    case.tick();
    assert_eq!((case.s.pid, case.s.devices.clock_asks), (CLOCK_BIT, 1));
    assert_eq!(case.step(), 0);
    assert_eq!(case.s.level, 13);
}

#[test]
fn pid_that_is_cleared_comes_by_asking() {
    // MCL PID, TRR PID; SAA 1, IOX 13: it asks as it is ready.
    for (word, a) in [(0o150206, CLOCK_BIT), (0o150106, 0)] {
        let mut case = program(&[word, 0o170401, iox(0o13)]).with(A, a);
        case = case.dev(&[(0, 1)]);
        case.tick();
        case = case.ok();
        assert_eq!((case.s.pid, case.s.devices.clock_asks), (0, 1));
        case = case.ok().ok();
        assert_eq!((case.s.pid, case.s.devices.clock_asks), (CLOCK_BIT, 1));
    }
}

#[test]
fn a_raise_is_no_device() {
    for (level, word) in [(10, PL10), (11, PL11), (12, PL12), (13, PL13)] {
        let mut case = Case::of(word).with(A, 9);
        assert_eq!(raise(&mut case.s, &case.m, &case.t, level), Ok(()));
        assert_eq!(case.s.pid, 1 << level);
        assert_eq!(case.s.devices, Devices::default());
        case.gives(7).has(&[(A, 9)]);
    }
}

#[test]
fn the_clocks_level() {
    // Level 13: IDENT, LDA *3, IOX 13, WAIT, JMP *-4; 020001 for the clock.
    let mut case = Case::of(0o124000).dev(&[(0, 1)]);
    case.s.interrupts_on = 1;
    case.s.pie = CLOCK_BIT;
    case.s.files[13][2] = 0o200;
    case.m[0o200..0o206].copy_from_slice(&[PL13, 0o044004, iox(0o13), WAIT, 0o124374, 0o020001]);
    for round in 0..3 {
        case.tick();
        // Two ticks before it is served are one.
        if round == 1 {
            case.tick();
        }
        assert_eq!(case.step(), 0);
        assert_eq!((case.s.level, case.s.pvl), (13, 0));
        // The first time round JMP is not yet executed.
        let steps = if round == 0 { 4 } else { 5 };
        for _ in 0..steps {
            assert_eq!(case.step(), 0);
        }
        assert_eq!((case.s.level, case.s.pid), (13, 0));
        assert_eq!(case.s.devices.to_words()[..3], [1, 0, 0]);
        assert_eq!(case.step(), 0);
        assert_eq!((case.s.level, case.s.pvl), (0, 13));
        assert_eq!(case.step(), 0);
        assert_eq!(case.s.level, 0);
    }
}

// Ruling 36.

#[test]
fn one_character_at_a_time() {
    for stopped in [0, 1] {
        let mut case = program(&[iox(0o300)]);
        case.s.stopped = stopped;
        assert_eq!(case.typed(0), Ok(()));
        let before = case.clone();
        for character in [0, 1, 0o377] {
            assert_eq!(case.typed(character), Err(Refusal::Unread));
            assert_eq!(case, before);
        }
        case.s.stopped = 0;
        let mut case = case.ok().has(&[(A, 0)]);
        assert_eq!(case.typed(0o377), Ok(()));
        assert_eq!(case.s.devices.input_character, 0o377);
    }
}

#[test]
fn sent_characters_are_read_out_once() {
    // SAA 101, IOX 305, SAA 102, IOX 305.
    let words = [0o170501, iox(0o305), 0o170502, iox(0o305)];
    let mut case = program(&words).ok().ok();
    assert_eq!(case.read_out(), Some(0o101));
    assert_eq!(case.s.devices.output_character, 0o101);
    for _ in 0..2 {
        let before = case.clone();
        assert_eq!(case.read_out(), None);
        assert_eq!(case, before);
    }
    case = case.ok().ok();
    assert_eq!(case.read_out(), Some(0o102));
    // The first is gone if it was not read out; stopped makes no difference.
    let mut case = program(&words).ok().ok().ok().ok();
    case.s.stopped = 1;
    assert_eq!((case.read_out(), case.read_out()), (Some(0o102), None));
}

#[test]
fn none_asks_nothing() {
    let mut case = Case::of(0).dev(&[(8, 1)]);
    let before = case.clone();
    assert_eq!(case.read_out(), None);
    assert_eq!(case, before);
}

#[test]
fn input_is_refused_by_size_and_state_first() {
    let mut case = Case::of(0).dev(&[(4, 1), (7, 4)]);
    let before = case.clone();
    assert_eq!(case.typed(5), Err(Refusal::State));
    let short = &case.t[..511];
    assert_eq!(
        type_character(&mut case.s, &case.m, short, 5),
        Err(Refusal::Size)
    );
    assert_eq!(tick(&mut case.s, &case.m, &case.t), Err(Refusal::State));
    assert_eq!(tick(&mut case.s, &case.m[1..], &case.t), Err(Refusal::Size));
    assert_eq!(read_out(&mut case.s, &case.m, &case.t), Err(Refusal::State));
    assert_eq!(read_out(&mut case.s, &[], &case.t), Err(Refusal::Size));
    assert_eq!(case, before);
}

#[test]
fn lengths_are_those_of_the_moment() {
    // Typed with 5 bits and read with 8; the other way round.
    for (typed, read, a) in [(3, 0, 0o377), (0, 3, 0o037), (1, 2, 0o077)] {
        let mut case = program(&[iox(0o300)]).dev(&[(7, typed)]);
        assert_eq!(case.typed(0o377), Ok(()));
        case.dev(&[(7, read)]).ok().has(&[(A, a)]);
        // Sent with one and read out with the other: the first counts.
        let case = Case::of(iox(0o305)).with(A, 0o377).dev(&[(7, read)]);
        let mut case = case.ok().dev(&[(7, typed)]);
        assert_eq!(case.read_out(), Some(a as u8));
    }
}

// Ruling 38; the rest is in images.rs.

#[test]
fn kind_5() {
    let case = Case::of(0o124000).dev(&ALL);
    let mut image = vec![0; 4 * PAGE + 706];
    let length = write(&case.s, &case.m, &case.t, &mut image);
    assert_eq!(length, Ok(4 * PAGE + 706));
    let end = image.len() - 12;
    assert_eq!(image[end..], [1, 1, 1, 1, 1, 1, 0o325, 2, 1, 1, 1, 0o173]);
    let (mut m, mut t) = (vec![0; 4 * PAGE], vec![0; 512]);
    assert_eq!(load(&image, &mut m, &mut t), Ok(case.s.clone()));
    // A part of it; the rest is cleared.
    let part = [1, 5, 0, 6, 0, 2, 0o377, 3];
    let state = load(&part, &mut m, &mut t).expect("loads");
    assert_eq!(state, Case::of(0).dev(&[(6, 0o377), (7, 3)]).with(P, 0).s);
    // Word by word: the most, and one more. 8 comes before 2.
    for (word, most) in [1, 1, 1, 1, 1, 1, 255, 3, 1, 1, 1, 255]
        .into_iter()
        .enumerate()
    {
        let word = word as u16;
        assert!(load(&[1, 5, 0, word, 0, 1, most], &mut m, &mut t).is_ok());
        let above = [1, 5, 0, word, 0, 1, most + 1];
        assert_eq!(load(&above, &mut m, &mut t), Err(Refusal::State));
        assert_eq!(load(&above[..6], &mut m, &mut t), Err(Refusal::Bodies));
    }
    for (image, refusal) in [
        (&[1, 5, 0, 11, 0, 2, 0, 0][..], Refusal::Beyond),
        (&[1, 5, 0, 13, 0, 0], Refusal::Beyond),
        (&[2, 5, 0, 4, 0, 2, 5, 0, 5, 0, 1, 0, 0, 0], Refusal::Twice),
        (&[1, 6, 0, 0, 0, 1, 0], Refusal::Kind),
    ] {
        assert_eq!(load(image, &mut m, &mut t), Err(refusal));
    }
    assert!(load(&[1, 5, 0, 12, 0, 0], &mut m, &mut t).is_ok());
}

// Ruling 39.

/// AAX 1, JMP *-1.
const COUNT: [u16; 2] = [0o173401, 0o124377];

use Input::{Raise, ReadOut, Tick, Typed};
use Told::{Character, Done, Refused};

/// A run of instructions that make no access beside the fetch.
fn ended(steps: u64, reason: Reason, told: &[Told]) -> Session {
    Session {
        steps,
        reason,
        references: steps,
        told: told.to_vec(),
    }
}

#[test]
fn inputs_come_after_their_steps() {
    // Bit 3 in T or in A tells whether the character came before the first or the
    // second IOX 302.
    let words = [iox(0o302), TO_T, iox(0o302), 0o124000];
    for (at, t, a) in [(0, 0o10, 0o10), (1, 0, 0o10), (2, 0, 0o10), (3, 0, 0)] {
        let mut case = program(&words);
        let session = case.session(4, &[(at, Typed(7))]);
        assert_eq!(session, ended(4, Reason::Spent, &[Done]));
        case.has(&[(T, t), (A, a)]);
    }
}

#[test]
fn inputs_at_the_end_and_beyond() {
    for steps in [0, 1, 5] {
        let mut case = program(&COUNT);
        let session = case.session(steps, &[(steps, Tick)]);
        assert_eq!(session, ended(steps, Reason::Spent, &[Done]));
        assert_eq!(case.s.devices.clock_ready, 1);
        // Beyond: neither it nor any behind it.
        for at in [steps + 1, u64::MAX] {
            let mut case = program(&COUNT);
            let session = case.session(steps, &[(0, Typed(1)), (at, Tick), (0, Typed(2))]);
            assert_eq!(session, ended(steps, Reason::Spent, &[Done]));
            assert_eq!(case.s.devices.to_words()[..7], [0, 0, 0, 0, 1, 0, 1]);
        }
        // None at all.
        let session = program(&COUNT).session(steps, &[]);
        assert_eq!(session, ended(steps, Reason::Spent, &[]));
    }
}

#[test]
fn inputs_whose_step_is_passed() {
    // In the order of the list: the second character finds the first unread.
    let inputs = [(4, Typed(1)), (2, Typed(2)), (0, ReadOut), (5, Tick)];
    let mut case = program(&COUNT);
    let session = case.session(6, &inputs);
    let told = [Done, Refused(Refusal::Unread), Told::None, Done];
    assert_eq!(session, ended(6, Reason::Spent, &told));
    assert_eq!(case.s.devices.input_character, 1);
    case.has(&[(X, 3)]);
}

#[test]
fn what_inputs_are_told() {
    let mut case = program(&COUNT).dev(&[(9, 1), (11, 0o101)]);
    let inputs = [
        (1, Raise(9)),
        (1, Raise(10)),
        (1, Raise(14)),
        (1, Raise(15)),
        (1, Raise(0o177777)),
        (2, Typed(0o377)),
        (2, Typed(0)),
        (3, ReadOut),
        (3, ReadOut),
        (3, Tick),
    ];
    let session = case.session(3, &inputs);
    let told = [
        Refused(Refusal::Level),
        Done,
        Refused(Refusal::Level),
        Done,
        Refused(Refusal::Level),
        Done,
        Refused(Refusal::Unread),
        Character(0o101),
        Told::None,
        Done,
    ];
    assert_eq!(session, ended(3, Reason::Spent, &told));
    assert_eq!(case.s.pid, 1 << 15 | 1 << 10);
    let words: Vec<u16> = told.into_iter().map(Told::word).collect();
    assert_eq!(words, [3, 0, 3, 0, 3, 0, 11, 0o101, 256, 0]);
}

#[test]
fn inputs_as_words() {
    for (word, input) in [
        (0, Raise(0)),
        (13, Raise(13)),
        (255, Raise(255)),
        (256, Tick),
        (257, ReadOut),
        (258, Raise(258)),
        (511, Raise(511)),
        (512, Typed(0)),
        (512 + 0o101, Typed(0o101)),
        (767, Typed(255)),
        (768, Raise(768)),
        (0o177777, Raise(0o177777)),
    ] {
        assert_eq!(Input::from_word(word), input);
    }
}

#[test]
fn a_run_that_has_ended_takes_nothing() {
    // Stopped from the start.
    let mut case = program(&COUNT);
    case.s.stopped = 1;
    let before = case.clone();
    let session = case.session(5, &[(0, Tick), (0, Typed(1))]);
    assert_eq!(session, ended(0, Reason::Stopped, &[]));
    assert_eq!(case, before);
    // Stopped after the second step: those of step 2 come too late.
    let mut case = program(&[0o173401, WAIT]);
    let session = case.session(9, &[(1, Tick), (2, Typed(1)), (3, ReadOut)]);
    assert_eq!(session, ended(2, Reason::Stopped, &[Done]));
    assert_eq!(case.s.devices.input_unread, 0);
    // A level due from the start.
    let mut case = program(&COUNT);
    case.s.interrupts_on = 1;
    (case.s.pid, case.s.pie) = (1 << 5, 1 << 5);
    let session = case.session(5, &[(0, Tick)]);
    assert_eq!(session, ended(0, Reason::Level, &[]));
}

#[test]
fn an_interrupt_comes_before_the_inputs_of_its_step() {
    // AAX 1, an illegal word.
    for (at, told) in [(0, &[Done][..]), (1, &[Done]), (2, &[]), (3, &[])] {
        let mut case = program(&[0o173401, 0o100000]);
        let session = case.session(3, &[(at, Tick)]);
        assert_eq!(session, ended(2, Reason::Interrupt, told));
        assert_eq!(case.s.devices.clock_ready, told.len() as u16);
    }
    // The last step gives it.
    let session = program(&[0o173401, 0o100000]).session(2, &[(2, Tick)]);
    assert_eq!(session, ended(2, Reason::Interrupt, &[]));
    // IOX of no device is one.
    let session = program(&[iox(0o14)]).session(2, &[(1, Tick)]);
    assert_eq!(session, ended(1, Reason::Interrupt, &[]));
}

#[test]
fn a_level_due_between_two_inputs() {
    let enabled = || {
        let mut case = program(&COUNT).dev(&[(0, 1), (3, 1), (8, 1), (9, 1), (11, 5)]);
        case.s.interrupts_on = 1;
        case.s.pie = 0o177777;
        case
    };
    for (input, told, bit) in [
        (Tick, Done, CLOCK_BIT),
        (Typed(1), Done, INPUT_BIT),
        (ReadOut, Character(5), OUTPUT_BIT),
        (Raise(11), Done, 1 << 11),
    ] {
        // Of one step, and at the end.
        for (at, steps) in [(2, 5), (2, 2), (0, 0)] {
            let mut case = enabled();
            let session = case.session(steps, &[(at, input), (at, Tick), (at, Raise(15))]);
            assert_eq!(session, ended(at, Reason::Level, &[told]));
            assert_eq!((case.s.pid, case.s.level), (bit, 0));
        }
        // Not with interrupts off, not without PIE.
        for (on, pie) in [(0, 0o177777), (1, !bit)] {
            let mut case = enabled();
            (case.s.interrupts_on, case.s.pie) = (on, pie);
            let session = case.session(5, &[(2, input)]);
            assert_eq!(session, ended(5, Reason::Spent, &[told]));
            assert_eq!(case.s.pid, bit);
        }
        // A refused one makes none due.
        let mut case = enabled();
        let session = case.session(3, &[(1, Raise(14)), (1, input)]);
        assert_eq!(
            session,
            ended(1, Reason::Level, &[Refused(Refusal::Level), told])
        );
    }
}

#[test]
fn an_instruction_makes_a_level_due() {
    // SAA 1, IOX 303 with a character unread: due after two steps.
    let mut case = program(&[0o170401, iox(0o303), 0o124000]);
    case.s.interrupts_on = 1;
    case.s.pie = 0o177777;
    let session = case.session(9, &[(1, Typed(1)), (2, Tick)]);
    assert_eq!(session, ended(2, Reason::Level, &[Done]));
    assert_eq!(case.s.devices.to_words()[..7], [0, 0, 0, 1, 1, 1, 1]);
}

#[test]
fn a_run_without_input_is_the_run_to_the_first_interrupt() {
    let mut random = second::random::Random::new(39);
    for _ in 0..500 {
        let start = second::vectors::start(&mut random);
        let steps = random.below(30);
        let (mut one, mut two) = (start.clone(), start);
        let (s, m, t) = (&mut one.state, &mut one.memory, &mut one.tables);
        let session = run_with_input(s, m, t, steps, &[(u64::MAX, Tick)]);
        let (s, m, t) = (&mut two.state, &mut two.memory, &mut two.tables);
        let ran = run(s, m, t, steps, true);
        let ran = ran.map(|ran| Session {
            steps: ran.steps,
            reason: ran.reason,
            references: ran.references,
            told: Vec::new(),
        });
        assert_eq!(session, ran);
        assert_eq!(one, two);
    }
}

/// Document 000, section 6.5.2, from 000100 on; bit 3 is 30 in all three places.
const ECHO: [u16; 18] = [
    0o170404, 0o164303, 0o164302, 0o175235, 0o124376, 0o164300, 0o146157, 0o164306, 0o175235,
    0o124376, 0o146175, 0o164305, 0o170404, 0o164307, 0o164306, 0o175235, 0o124376, 0o124357,
];

#[test]
fn the_echo_of_a_line() {
    // A character takes less than 40 steps, of which 20 bring it from the keyboard to
    // the printer.
    let mut inputs = Vec::new();
    for (number, &character) in (0..).zip(b"SAW 12\r\n") {
        inputs.push((10 + 40 * number, Typed(character)));
        inputs.push((35 + 40 * number, ReadOut));
    }
    let session = program(&ECHO).session(400, &inputs);
    assert_eq!((session.steps, session.reason), (400, Reason::Spent));
    let told: Vec<Told> = b"SAW 12\r\n"
        .iter()
        .flat_map(|&c| [Done, Character(c)])
        .collect();
    assert_eq!(session.told, told);
}

#[test]
fn the_echo_waits() {
    // Not read out, it sends no second one; typed meanwhile, one is kept and the next
    // refused.
    let inputs = [
        (0, Typed(b'A')),
        (40, Typed(b'B')),
        (80, Typed(b'C')),
        (90, ReadOut),
        (91, ReadOut),
        (130, ReadOut),
    ];
    let session = program(&ECHO).session(200, &inputs);
    let told = [
        Done,
        Done,
        Refused(Refusal::Unread),
        Character(b'A'),
        Told::None,
        Character(b'B'),
    ];
    assert_eq!(session, ended(200, Reason::Spent, &told));
}

#[test]
fn the_vector_jump() {
    // Document 000, section 2.9.2.3.1: IDENT PL13, RADD SA DP, three jumps.
    let words = [PL13, 0o146052, 0o124010, 0o124020, 0o124030];
    let mut case = program(&words).dev(&[(0, 1)]);
    case.tick();
    let case = case.ok().ok().has(&[(A, 1), (P, 0o103)]);
    case.ok().has(&[(P, 0o123)]);
    // Nobody asks: 7, and A decides.
    program(&words).with(A, 2).gives(7).ok().has(&[(P, 0o104)]);
}

#[test]
fn two_machines_get_the_same_input() {
    // Demand 3 with devices: ring 0 or 1, memory that differs in pages not permitted;
    // devices, inputs and what these are told are alike.
    let mut random = second::random::Random::new(40);
    let mut tried = 0;
    while tried < 1_000 {
        let mut one = second::vectors::start(&mut random);
        let level = usize::from(one.state.level);
        (one.state.paging_on, one.state.extended) = (1, 0);
        one.state.pcr[level] &= !2;
        let pcr = one.state.pcr[level];
        let permitted = |page: usize| {
            let tables = [pcr >> 9 & 3, pcr >> 7 & 3];
            tables.iter().any(|&table| {
                let entries = &one.tables[64 * usize::from(table)..][..64];
                entries.iter().any(|entry| {
                    let of_page = usize::from(entry & 0o777) == page;
                    of_page && entry >> 13 != 0 && entry >> 9 & 3 <= pcr & 3
                })
            })
        };
        let foreign: Vec<usize> = (0..one.memory.len() / PAGE)
            .filter(|&page| !permitted(page))
            .collect();
        if foreign.is_empty() {
            continue;
        }
        tried += 1;
        let mut two = one.clone();
        for page in foreign {
            two.memory[page * PAGE..][..PAGE].fill_with(|| random.word());
        }
        let steps = random.below(20);
        let inputs: Vec<(u64, Input)> = (0..random.below(6))
            .map(|_| {
                let input = match random.below(4) {
                    0 => Tick,
                    1 => ReadOut,
                    2 => Typed(random.word() as u8),
                    _ => Raise(random.below(16) as u16),
                };
                (random.below(steps + 1), input)
            })
            .collect();
        let go = |start: &mut second::vectors::Start| {
            let (s, m, t) = (&mut start.state, &mut start.memory, &mut start.tables);
            run_with_input(s, m, t, steps, &inputs)
        };
        assert_eq!(go(&mut one), go(&mut two));
        assert_eq!((&one.state, &one.tables), (&two.state, &two.tables));
    }
}
