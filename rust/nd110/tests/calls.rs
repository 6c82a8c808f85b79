//! Every function of this crate called through the archive, with arguments that cannot be taken for one another. What
//! must come is written by hand from document 01, of the conversions from document 02, card 12. tests/calls.c is the
//! same through the C header. What the devices do is in devices.rs, the references of each instruction in references.rs.

use nd110::{
    IMAGE_EXTRA, Input, InputRun, PAGE_WORDS, Ran, Reason, Refusal, STATE_WORDS, State,
    TABLE_WORDS, Target, Told, image_words, load, long_to_short, raise, raise_lent, read_out, run,
    run_to_interrupt, run_with_input, short_to_long, step, step_lent, tick, type_character, view,
    view_into, write,
};

const MEMORY: usize = 2 * PAGE_WORDS;
const FILLED: u16 = 0o125252;

/// SAA 5; AAA 3; MON 7; a word that is no instruction; WAIT; and a word that is not executed.
const PROGRAM: [u16; 6] = [0o170405, 0o172403, 0o153007, 0o160000, 0o151000, 0o123456];

/// Five entries (kind, start, length), then the bodies: the program; A of level 2; PIE; IIE, which has interrupt 4;
/// two page table words.
const IMAGE: [u16; 37] = [
    5, //
    1, 0, 0, 0, 6, //
    2, 0, 21, 0, 1, //
    3, 0, 5, 0, 1, //
    3, 0, 8, 0, 1, //
    4, 0, 3, 0, 2, //
    0o170405, 0o172403, 0o153007, 0o160000, 0o151000, 0o123456, //
    0o000321, //
    0o010000, //
    0o000020, //
    0o111111, 0o022222,
];

// State words: registers at 8 * level + number, control words from 128 on.
const P_0: usize = 2;
const A_0: usize = 5;
const A_2: usize = 21;
const T_14: usize = 118;
const LEVEL: usize = 128;
const ION: usize = 129;
const STOPPED: usize = 131;
const PID: usize = 132;
const PIE: usize = 133;
const IID: usize = 135;
const IIE: usize = 136;
const HELD: usize = 154;
const EXTENDED: usize = 155;

/// What a run answers.
fn ran(steps: u64, reason: Reason, references: u64) -> Ran {
    Ran {
        steps,
        reason,
        references,
    }
}

#[derive(Clone, Debug, PartialEq)]
struct Machine {
    state: State,
    memory: Vec<u16>,
    tables: Vec<u16>,
}

/// Words that are all 0 but for those named.
fn words(len: usize, named: &[(usize, u16)]) -> Vec<u16> {
    let mut words = vec![0; len];
    for &(at, word) in named {
        words[at] = word;
    }
    words
}

impl Machine {
    fn loaded() -> Machine {
        let (mut memory, mut tables) = (vec![FILLED; MEMORY], vec![FILLED; TABLE_WORDS]);
        let state = load(&IMAGE, &mut memory, &mut tables).unwrap();
        let machine = Machine {
            state,
            memory,
            tables,
        };
        machine.is(&[(A_2, 0o321), (PIE, 0o10000), (IIE, 0o20)]);
        machine
    }

    /// SAA 5, by one step.
    fn stepped() -> Machine {
        let mut m = Machine::loaded();
        assert_eq!(m.step(), Ok(0));
        m.is(&[
            (A_0, 5),
            (P_0, 1),
            (A_2, 0o321),
            (PIE, 0o10000),
            (IIE, 0o20),
        ]);
        m
    }

    /// The state has these words; memory and page tables are the image's.
    fn is(&self, named: &[(usize, u16)]) {
        assert_eq!(self.state.0[..], words(STATE_WORDS, named));
        assert_eq!(self.memory[..6], PROGRAM);
        assert_eq!(self.memory[6..], words(MEMORY - 6, &[]));
        assert_eq!(
            self.tables,
            words(TABLE_WORDS, &[(3, 0o111111), (4, 0o022222)])
        );
    }

    fn step(&mut self) -> Result<u16, Refusal> {
        step(&mut self.state, &mut self.memory, &mut self.tables)
    }

    fn step_lent(&mut self) -> Result<u16, Refusal> {
        step_lent(&mut self.state, &mut self.memory, &mut self.tables)
    }

    fn run(&mut self, steps: u64) -> Result<Ran, Refusal> {
        run(&mut self.state, &mut self.memory, &mut self.tables, steps)
    }

    fn run_to_interrupt(&mut self, steps: u64) -> Result<Ran, Refusal> {
        run_to_interrupt(&mut self.state, &mut self.memory, &mut self.tables, steps)
    }

    fn raise(&mut self, level: u16) -> Result<(), Refusal> {
        raise(&mut self.state, level, &self.memory, &self.tables)
    }

    fn raise_lent(&mut self, level: u16) -> Result<(), Refusal> {
        raise_lent(&mut self.state, level, &self.memory, &self.tables)
    }

    fn tick(&mut self) -> Result<(), Refusal> {
        tick(&mut self.state, &self.memory, &self.tables)
    }

    fn type_character(&mut self, character: u8) -> Result<(), Refusal> {
        type_character(&mut self.state, character, &self.memory, &self.tables)
    }

    fn read_out(&mut self) -> Result<Option<u8>, Refusal> {
        read_out(&mut self.state, &self.memory, &self.tables)
    }

    fn run_with_input(&mut self, steps: u64, inputs: &[(u64, Input)]) -> Result<InputRun, Refusal> {
        let Machine {
            state,
            memory,
            tables,
        } = self;
        run_with_input(state, memory, tables, steps, inputs)
    }

    fn write(&self, out: &mut [u16]) -> Result<(), Refusal> {
        write(&self.state, &self.memory, &self.tables, out)
    }

    fn view(&self, target: Target, start: usize, len: usize) -> Result<&[u16], Refusal> {
        view(target, start, len, &self.memory, &self.tables)
    }

    /// All its operations on it.
    fn refuses_all(&mut self, refusal: Refusal) {
        let was = self.clone();
        assert_eq!(self.step(), Err(refusal));
        assert_eq!(self.step_lent(), Err(refusal));
        assert_eq!(self.run(10), Err(refusal));
        assert_eq!(self.run_to_interrupt(10), Err(refusal));
        assert_eq!(self.raise(10), Err(refusal));
        assert_eq!(self.raise_lent(10), Err(refusal));
        assert_eq!(self.tick(), Err(refusal));
        assert_eq!(self.type_character(0o101), Err(refusal));
        assert_eq!(self.read_out(), Err(refusal));
        for inputs in [&[][..], &[(0, Input::Tick)], &[(0, Input::Raise(9))]] {
            assert_eq!(self.run_with_input(10, inputs), Err(refusal));
        }
        let mut out = vec![FILLED; self.memory.len() + IMAGE_EXTRA];
        assert_eq!(self.write(&mut out), Err(refusal));
        assert!(out.iter().all(|word| *word == FILLED));
        assert_eq!(*self, was);
    }
}

/// AAA 3, MON 7 (its number to T of level 14, interrupt 1 to IID alone), the illegal word (interrupt 4, which IIE
/// has: PID bit 14) and WAIT, which stops with interrupts off.
#[test]
fn through() {
    let mut m = Machine::stepped();
    assert_eq!(m.run(3), Ok(ran(3, Reason::Spent, 3)));
    assert_eq!(m.run(10), Ok(ran(1, Reason::Stopped, 1)));
    m.is(&[
        (A_0, 0o10),
        (P_0, 5),
        (A_2, 0o321),
        (T_14, 7),
        (STOPPED, 1),
        (PID, 0o40000),
        (PIE, 0o10000),
        (IID, 0o22),
        (IIE, 0o20),
    ]);
}

/// AAA 3 and MON 7, which ends it; a device's level 11; the illegal word by a step; a change to level 14, which is due
/// and makes no reference.
#[test]
fn to_interrupt() {
    let mut m = Machine::stepped();
    assert_eq!(m.run_to_interrupt(10), Ok(ran(2, Reason::Interrupt, 2)));
    let (p, iid, ion) = ((P_0, 3), (IID, 2), (ION, 1));
    let (a, a_2, t_14, iie) = ((A_0, 0o10), (A_2, 0o321), (T_14, 7), (IIE, 0o20));
    m.is(&[a, p, a_2, t_14, (PIE, 0o10000), iid, iie]);
    assert_eq!(m.raise(11), Ok(()));
    m.is(&[a, p, a_2, t_14, (PID, 0o4000), (PIE, 0o10000), iid, iie]);
    assert_eq!(m.step(), Ok(4));
    let (p, iid, pid, pie) = ((P_0, 4), (IID, 0o22), (PID, 0o44000), (PIE, 0o50000));
    m.is(&[a, p, a_2, t_14, pid, (PIE, 0o10000), iid, iie]);
    m.state.0[ION] = 1;
    m.state.0[PIE] = 0o50000;
    assert_eq!(m.run_to_interrupt(10), Ok(ran(0, Reason::Level, 0)));
    m.is(&[a, p, a_2, t_14, ion, pid, pie, iid, iie]);
    assert_eq!(m.run(1), Ok(ran(1, Reason::Spent, 0)));
    m.is(&[a, p, a_2, t_14, (LEVEL, 14), ion, pid, pie, iid, iie]);
}

/// The same program by lent steps, and a raise on the way: SAA 5, AAA 3, MON 7, level 11, the illegal word, WAIT, level
/// 15 on the machine that it stopped.
#[test]
fn lent() {
    let mut m = Machine::loaded();
    let (a_2, pie, iie, t_14) = ((A_2, 0o321), (PIE, 0o10000), (IIE, 0o20), (T_14, 7));
    assert_eq!(m.step_lent(), Ok(0));
    m.is(&[(A_0, 5), (P_0, 1), a_2, pie, iie]);
    assert_eq!(m.step_lent(), Ok(0));
    m.is(&[(A_0, 0o10), (P_0, 2), a_2, pie, iie]);
    assert_eq!(m.step_lent(), Ok(1));
    let a = (A_0, 0o10);
    m.is(&[a, (P_0, 3), a_2, t_14, pie, (IID, 2), iie]);
    assert_eq!(m.raise_lent(11), Ok(()));
    m.is(&[a, (P_0, 3), a_2, t_14, (PID, 0o4000), pie, (IID, 2), iie]);
    assert_eq!(m.step_lent(), Ok(4));
    let (pid, iid) = ((PID, 0o44000), (IID, 0o22));
    m.is(&[a, (P_0, 4), a_2, t_14, pid, pie, iid, iie]);
    assert_eq!(m.step_lent(), Ok(0));
    let (p, stopped) = ((P_0, 5), (STOPPED, 1));
    m.is(&[a, p, a_2, t_14, stopped, pid, pie, iid, iie]);
    assert_eq!(m.raise_lent(15), Ok(()));
    let pid = (PID, 0o144000);
    m.is(&[a, p, a_2, t_14, stopped, pid, pie, iid, iie]);
}

/// The loaded program with a raise, a tick and a character: it ends with MON, before the input for that step.
#[test]
fn with_input() {
    let mut m = Machine::loaded();
    let inputs = [
        (0, Input::Raise(12)),
        (1, Input::Raise(14)),
        (1, Input::Tick),
        (2, Input::Typed(0o303)),
        (2, Input::Typed(0o101)),
        (2, Input::ReadOut),
        (3, Input::Tick),
    ];
    let unread = Told::Refused(Refusal::Unread);
    let ran = InputRun {
        steps: 3,
        reason: Reason::Interrupt,
        references: 3,
        told: vec![
            Told::Done,
            Told::Refused(Refusal::RaiseLevel),
            Told::Done,
            Told::Done,
            unread,
            Told::None,
        ],
    };
    assert_eq!(m.run_with_input(10, &inputs), Ok(ran));
    let (a, p, a_2, t_14) = ((A_0, 0o10), (P_0, 3), (A_2, 0o321), (T_14, 7));
    let (pid, pie, iid, iie) = ((PID, 0o10000), (PIE, 0o10000), (IID, 2), (IIE, 0o20));
    let devices = [(157, 1), (160, 1), (162, 0o303)];
    let state = [a, p, a_2, t_14, pid, pie, iid, iie];
    m.is(&[&state[..], &devices].concat());
    assert_eq!(m.tick(), Ok(()));
    assert_eq!(m.type_character(0), Err(Refusal::Unread));
    assert_eq!(m.read_out(), Ok(None));
    m.is(&[&state[..], &devices].concat());
    m.state.0[165..].copy_from_slice(&[1, 0, 0o377]);
    assert_eq!(m.read_out(), Ok(Some(0o377)));
    assert_eq!(m.read_out(), Ok(None));
    m.is(&[&state[..], &devices, &[(167, 0o377)]].concat());
}

#[test]
fn viewed() {
    let m = Machine::loaded();
    assert_eq!(m.view(Target::Memory, 2, 3).unwrap(), &PROGRAM[2..5]);
    assert_eq!(m.view(Target::Tables, 3, 2).unwrap(), [0o111111, 0o022222]);
    assert_eq!(m.view(Target::Tables, 512, 0).unwrap(), []);
    assert_eq!(m.view(Target::Tables, 0, 512).unwrap(), m.tables);
    assert_eq!(m.view(Target::Tables, 1, 512), Err(Refusal::View));
    assert_eq!(m.view(Target::Memory, 1, 512).unwrap().len(), 512);
    assert_eq!(m.view(Target::Memory, usize::MAX, 2), Err(Refusal::View));
    let mut out = [FILLED; 4];
    let mut into = |target, start, len, room: usize| {
        let answer = view_into(target, start, len, &m.memory, &m.tables, &mut out[..room]);
        (answer, out)
    };
    let memory = [0o153007, 0o160000, 0o151000, FILLED];
    let tables = [0o111111, 0o022222, 0o151000, FILLED];
    assert_eq!(into(Target::Memory, 2, 3, 4), (Ok(()), memory));
    assert_eq!(into(Target::Tables, 3, 2, 2), (Ok(()), tables));
    assert_eq!(
        into(Target::Memory, 0, 2, 1),
        (Err(Refusal::BadCall), tables)
    );
    assert_eq!(
        into(Target::Tables, 511, 2, 4),
        (Err(Refusal::View), tables)
    );
    assert_eq!(
        into(Target::Memory, usize::MAX, 1, 4),
        (Err(Refusal::View), tables)
    );
}

/// Five full entries and their bodies; then loaded again, over other contents.
#[test]
fn written() {
    let m = Machine::stepped();
    let mut out = vec![FILLED; MEMORY + IMAGE_EXTRA + 1];
    assert_eq!(m.write(&mut out), Ok(()));
    let contents = [
        5, 1, 0, 0, 0, 2048, 2, 0, 0, 0, 128, 3, 0, 0, 0, 28, 4, 0, 0, 0, 512, 5, 0, 0, 0, 12,
    ];
    assert_eq!(out[..26], contents);
    assert_eq!(out[26..2074], m.memory);
    assert_eq!(out[2074..2230], m.state.0[..156]);
    assert_eq!(out[2230..2742], m.tables);
    assert_eq!(out[2742..2754], m.state.0[156..]);
    assert_eq!(out[2754], FILLED);
    let (mut memory, mut tables) = (vec![FILLED; MEMORY], vec![FILLED; TABLE_WORDS]);
    let state = load(&out[..2754], &mut memory, &mut tables).unwrap();
    let again = Machine {
        state,
        memory,
        tables,
    };
    assert_eq!(again, m);
}

#[test]
fn refused() {
    let loaded = Machine::loaded();
    for (memory, tables) in [
        (0, 512),
        (2047, 512),
        (16_778_240, 512),
        (2048, 511),
        (2048, 256),
    ] {
        let mut m = loaded.clone();
        m.memory = vec![0; memory];
        m.tables = vec![0; tables];
        m.refuses_all(Refusal::Sizes);
        assert_eq!(m.view(Target::Memory, 0, 0), Err(Refusal::Sizes));
        let again = load(&IMAGE, &mut m.memory, &mut m.tables);
        assert_eq!(again, Err(Refusal::Sizes));
    }
    let mut m = loaded.clone();
    m.state.0[0] = 0o400;
    m.refuses_all(Refusal::State);
    for wrong in [2, 3, 0o100000, 0o177777] {
        for at in [HELD, EXTENDED] {
            let mut m = loaded.clone();
            m.state.0[at] = wrong;
            m.refuses_all(Refusal::State);
        }
    }
    let mut m = loaded.clone();
    for level in [0, 9, 14, 16] {
        assert_eq!(m.raise(level), Err(Refusal::RaiseLevel));
        assert_eq!(m.raise_lent(level), Err(Refusal::RaiseLevel));
    }
    let mut out = [FILLED; MEMORY + 705];
    assert_eq!(m.write(&mut out), Err(Refusal::Output));
    assert!(out.iter().all(|word| *word == FILLED));
    let images: [(&[u16], Refusal); 15] = [
        (&[], Refusal::Contents),
        (&IMAGE[..25], Refusal::Contents),
        (&[33], Refusal::Contents),
        (&[1, 6, 0, 0, 0, 0], Refusal::Kind),
        (&[1, 4, 0, 512, 0, 1, 0], Refusal::Target),
        (&[1, 3, 0, 28, 0, 1, 0], Refusal::Target),
        (&[1, 5, 0, 12, 0, 1, 0], Refusal::Target),
        (
            &[2, 1, 0, 0, 0, 2, 1, 0, 1, 0, 1, 0, 0, 0],
            Refusal::Overlap,
        ),
        (&IMAGE[..36], Refusal::Bodies),
        (&[0, 0], Refusal::Bodies),
        (&[1, 2, 0, 0, 0, 1, 0o400], Refusal::State),
        (&[1, 3, 0, 26, 0, 1, 2], Refusal::State),
        (&[1, 3, 0, 27, 0, 1, 2], Refusal::State),
        (&[1, 5, 0, 0, 0, 1, 2], Refusal::State),
        (&[1, 5, 0, 11, 0, 1, 256], Refusal::State),
    ];
    for (image, refusal) in images {
        assert_eq!(load(image, &mut m.memory, &mut m.tables), Err(refusal));
    }
    assert_eq!(m, loaded);
}

/// A floating number in both forms. The first five are document 002's, with +3 as document 02 puts it right and the
/// long row that 002 prints for it, 2 to the 159th. Then ends of the match with either sign, the lowest mantissa bit
/// of the short form, and a mantissa whose parts differ.
const FORMS: [([u16; 2], [u16; 3]); 11] = [
    ([0, 0], [0, 0, 0]),
    ([0o040100, 0], [0o040001, 0o100000, 0]),
    ([0o140100, 0], [0o140001, 0o100000, 0]),
    ([0o040240, 0], [0o040002, 0o140000, 0]),
    ([0o064000, 0], [0o040240, 0o100000, 0]),
    ([0o000100, 0], [0o037401, 0o100000, 0]),
    ([0o100100, 0], [0o137401, 0o100000, 0]),
    ([0o077777, 0o177777], [0o040377, 0o177777, 0o177000]),
    ([0o177777, 0o177777], [0o140377, 0o177777, 0o177000]),
    ([0o040100, 1], [0o040001, 0o100000, 0o001000]),
    ([0o040152, 0o052525], [0o040001, 0o152252, 0o125000]),
];

#[test]
fn converted() {
    for (short, long) in FORMS {
        assert_eq!(short_to_long(short), Ok(long));
        assert_eq!(long_to_short(long), Ok(short));
    }
}

/// Of numbers that fail several tests the first is told; a sign alone is not zero.
#[test]
fn not_converted() {
    use Refusal::{ExponentRange, Malformed, Precision};
    for short in [
        [0o100000, 0],
        [0, 1],
        [0, 0o100000],
        [1, 0],
        [0o77, 0o177777],
        [0o100077, 0o177777],
    ] {
        assert_eq!(short_to_long(short), Err(Malformed), "{short:?}");
    }
    for (long, refusal) in [
        ([0o100000, 0, 0], Malformed),
        ([0, 0, 1], Malformed),
        ([1, 0, 0], Malformed),
        ([0, 0o77777, 0], Malformed),
        ([0o040001, 0, 0], Malformed),
        ([0o140001, 0o77777, 0o177000], Malformed),
        ([0o037400, 0o77777, 0], Malformed),
        ([0o040001, 0o77777, 1], Malformed),
        ([0o040400, 0o77777, 0o177777], Malformed),
        ([0, 0o100000, 0], ExponentRange),
        ([0o037400, 0o100000, 0], ExponentRange),
        ([0o137400, 0o100000, 0], ExponentRange),
        ([0o040400, 0o100000, 0], ExponentRange),
        ([0o140400, 0o177777, 0o177000], ExponentRange),
        ([0o77777, 0o177777, 0o177000], ExponentRange),
        ([0o037400, 0o100000, 1], ExponentRange),
        ([0o040400, 0o100000, 0o400], ExponentRange),
        ([0o037401, 0o100000, 0o777], Precision),
        ([0o140377, 0o177777, 0o177777], Precision),
    ] {
        assert_eq!(long_to_short(long), Err(refusal), "{long:?}");
    }
    for bit in 0..9 {
        let long = [0o040002, 0o140000, 1 << bit];
        assert_eq!(long_to_short(long), Err(Precision), "{long:?}");
    }
    assert_eq!(
        [Malformed, ExponentRange, Precision].map(Refusal::number),
        [15, 16, 17]
    );
}

#[test]
fn refusals_tell_why() {
    let refusal: Box<dyn std::error::Error> = Box::new(Refusal::BadCall);
    assert_eq!(
        refusal.to_string(),
        "refused 255: a call that is no operation"
    );
    for refusal in Refusal::ALL {
        let start = format!("refused {}: ", refusal.number());
        assert!(refusal.to_string().starts_with(&start));
    }
}

#[test]
fn bytes_of_an_image() {
    assert_eq!(image_words(&[1, 2, 0o377, 0]), Ok(vec![0x0102, 0o177400]));
    assert_eq!(image_words(&[]), Ok(vec![]));
    assert_eq!(image_words(&[1, 2, 3]), Err(Refusal::Bodies));
}
