//! The first paging fault stays: PGS, control word 9, keeps it until TRA PGS is executed, and control word 26 tells
//! whether it is held. Through the archive, by every form of the step and by images. What must come is worked out by
//! hand from document 02, card 3, and document 01. tests/calls.c has a part of it through the C header.

use nd110::{
    Control, IMAGE_EXTRA, Machine as Owned, PAGE_WORDS, Ran, Reason, Refusal, Register,
    STATE_WORDS, State, TABLE_WORDS, load, run, run_to_interrupt, step, step_lent, write,
};

const MEMORY: usize = 2 * PAGE_WORDS;

// State words: registers at 8 * level + number, control words from 128 on.
const P_0: usize = 2;
const B_0: usize = 3;
const A_0: usize = 5;
const T_0: usize = 6;
const X_0: usize = 7;
const LEVEL: usize = 128;
const ION: usize = 129;
const PAGING: usize = 130;
const STOPPED: usize = 131;
const PID: usize = 132;
const PIE: usize = 133;
const PVL: usize = 134;
const IID: usize = 135;
const IIE: usize = 136;
const PGS: usize = 137;
const PCR_0: usize = 138;
const HELD: usize = 154;

const LDA_B: u16 = 0o044400; // LDA 0,B
const STA_X: u16 = 0o006000; // STA 0,X
const TRA_PGS: u16 = 0o150003;

#[derive(Clone, Debug, PartialEq)]
struct Machine {
    state: State,
    memory: Vec<u16>,
    tables: Vec<u16>,
}

/// Words that are all 0 but for those named.
fn words(len: usize, named: &[(usize, u16)]) -> Vec<u16> {
    let mut words = vec![0; len];
    for &(at, word) in named {
        words[at] = word;
    }
    words
}

/// So many words as a state.
fn state(words: &[u16]) -> State {
    State(words.try_into().expect("a state's words"))
}

impl Machine {
    fn new(named: &[(usize, u16)], memory: &[(usize, u16)], tables: &[(usize, u16)]) -> Machine {
        Machine {
            state: state(&words(STATE_WORDS, named)),
            memory: words(MEMORY, memory),
            tables: words(TABLE_WORDS, tables),
        }
    }

    fn step(&mut self) -> Result<u16, Refusal> {
        step(&mut self.state, &mut self.memory, &mut self.tables)
    }

    fn step_lent(&mut self) -> Result<u16, Refusal> {
        step_lent(&mut self.state, &mut self.memory, &mut self.tables)
    }

    fn run(&mut self, steps: u64) -> Result<Ran, Refusal> {
        run(&mut self.state, &mut self.memory, &mut self.tables, steps)
    }

    fn run_to_interrupt(&mut self, steps: u64) -> Result<Ran, Refusal> {
        run_to_interrupt(&mut self.state, &mut self.memory, &mut self.tables, steps)
    }

    fn owned(&self) -> Owned {
        let mut owned = Owned::new(2).unwrap();
        *owned.state_mut() = self.state;
        owned.memory_mut().copy_from_slice(&self.memory);
        owned.tables_mut().copy_from_slice(&self.tables);
        owned
    }

    /// The machine after one step, which gives this interrupt whichever form makes it.
    fn stepped(&self, interrupt: u16) -> Machine {
        let (mut plain, mut lent, mut ran) = (self.clone(), self.clone(), self.clone());
        assert_eq!(plain.step(), Ok(interrupt));
        assert_eq!(lent.step_lent(), Ok(interrupt));
        assert_eq!(lent, plain);
        // stopped is told before spent
        let reason = match plain.state.0[STOPPED] {
            0 => Reason::Spent,
            _ => Reason::Stopped,
        };
        let one = ran.run(1).unwrap();
        assert_eq!((one.steps, one.reason), (1, reason));
        assert_eq!(ran, plain);
        plain
    }
}

/// On ring 2, normal table 1, with IIE for interrupt 2 alone: LDA from page 2, whose entry is 0; STA to page 3, whose
/// entry is of ring 3; TRA PGS twice; the same STA; TRA PGS.
const PROGRAM: [u16; 6] = [LDA_B, STA_X, TRA_PGS, TRA_PGS, STA_X, TRA_PGS];
const STARTED: [(usize, u16); 6] = [
    (A_0, 0o321),
    (B_0, 0o004000),
    (X_0, 0o006000),
    (PAGING, 1),
    (IIE, 0o4),
    (PCR_0, 0o1002),
];

fn faulting() -> Machine {
    let program: Vec<(usize, u16)> = PROGRAM.into_iter().enumerate().collect();
    Machine::new(&STARTED, &program, &[(64, 0o162000), (67, 0o163001)])
}

/// References from the start on after so many of its steps: two for each that faults, one for each TRA PGS.
const REFERENCES: [u64; 7] = [0, 2, 4, 5, 6, 8, 9];

/// After so many of its steps: the interrupt; P, A, PID, IID; PGS, and whether it is held. Of the first fault PGS is
/// bit 14, table 1 and page 2; of the second, which finds it held, it would be table 1 and page 3, as it is of the
/// third.
const FAULTING: [(u16, [u16; 4], [u16; 2]); 6] = [
    (3, [1, 0o321, 0, 0o10], [0o040102, 1]),
    (2, [2, 0o321, 0o40000, 0o14], [0o040102, 1]),
    (0, [3, 0o040102, 0o40000, 0o14], [0o040102, 0]),
    (0, [4, 0o040102, 0o40000, 0o14], [0o040102, 0]),
    (2, [5, 0o040102, 0o40000, 0o14], [0o000103, 1]),
    (0, [6, 0o000103, 0o40000, 0o14], [0o000103, 0]),
];

/// Memory is as it was; of the page tables the entry of the program alone is marked, as used.
fn faulting_after(steps: usize) -> Machine {
    let (_, [p, a, pid, iid], [pgs, held]) = FAULTING[steps - 1];
    let mut m = faulting();
    for (at, word) in [(P_0, p), (A_0, a), (PID, pid), (IID, iid)] {
        m.state.0[at] = word;
    }
    m.state.0[PGS] = pgs;
    m.state.0[HELD] = held;
    m.tables[64] = 0o166000;
    m
}

#[test]
fn read_late() {
    let mut m = faulting();
    for (steps, (interrupt, _, [pgs, held])) in (1..).zip(FAULTING) {
        m = m.stepped(interrupt);
        assert_eq!(m, faulting_after(steps), "after {steps} steps");
        assert_eq!(m.state.control(Control::Pgs), pgs);
        assert_eq!(m.state.control(Control::PgsHeld), held);
    }
}

#[test]
fn read_late_by_runs() {
    for (steps, references) in REFERENCES.into_iter().enumerate().skip(1) {
        let mut m = faulting();
        let want = Ran {
            steps: steps as u64,
            reason: Reason::Spent,
            references,
        };
        assert_eq!(m.run(steps as u64), Ok(want));
        assert_eq!(m, faulting_after(steps), "after {steps} steps");
    }
    let mut m = faulting();
    for (asked, taken, reason, steps) in [
        (10, 1, Reason::Interrupt, 1),
        (10, 1, Reason::Interrupt, 2),
        (1, 1, Reason::Spent, 3),
        (10, 2, Reason::Interrupt, 5),
        (1, 1, Reason::Spent, 6),
    ] {
        let want = Ran {
            steps: taken as u64,
            reason,
            references: REFERENCES[steps] - REFERENCES[steps - taken],
        };
        assert_eq!(m.run_to_interrupt(asked), Ok(want));
        assert_eq!(m, faulting_after(steps), "after {steps} steps");
    }
}

#[test]
fn read_late_by_a_machine() {
    let mut machine = faulting().owned();
    for (interrupt, [p, a, ..], [pgs, held]) in FAULTING {
        assert_eq!(machine.step(), Ok(interrupt));
        assert_eq!(machine.register(0, Register::P), p);
        assert_eq!(machine.register(0, Register::A), a);
        assert_eq!(machine.control(Control::Pgs), pgs);
        assert_eq!(machine.control(Control::PgsHeld), held);
    }
}

/// One step, at 002000 on ring 2, with A 123456, B 0 and TRA PGS in T: its word; the entries of pages 0 and 1 of table
/// 0, by which LDA 0,B reads and the fetch is made; PGS and whether it is held. Then what comes: the interrupt; P and
/// A; PGS and whether it is held.
type One = (u16, [u16; 2], [u16; 2], u16, [u16; 2], [u16; 2]);

/// Every permit, ring 2: memory's page 1, from which the word is fetched.
const HERE: u16 = 0o162001;
/// The same for ring 1, to which the fetch lowers the program.
const LOWER: u16 = 0o161001;
/// Every permit, ring 3.
const ABOVE: u16 = 0o163001;
/// Ring 2, and all permits but read, all but fetch.
const UNREAD: u16 = 0o122001;
const UNFETCHED: u16 = 0o142001;
/// Every permit, ring 2: memory's page 511, which is not there.
const BEYOND: u16 = 0o162777;

const EXR_T: u16 = 0o140660;
const TRA_IIC: u16 = 0o150005;
const TRR_PCR: u16 = 0o150103;
const MCL_PID: u16 = 0o150206;
const MST_PID: u16 = 0o150306;
const WAIT: u16 = 0o151000;

/// A as it was, with P as it was or one further.
const FETCHING: [u16; 2] = [0o2000, 0o123456];
const PAST: [u16; 2] = [0o2001, 0o123456];

#[rustfmt::skip]
const ONES: &[One] = &[
    // a fault of a read that PGS takes: it is written whole, also if that is 0
    (LDA_B, [ABOVE, HERE], [0o140377, 0], 2, PAST, [0, 1]),
    (LDA_B, [UNREAD, HERE], [0o140377, 0], 2, PAST, [0o040000, 1]),
    (LDA_B, [0, HERE], [0o140377, 0], 3, PAST, [0o040000, 1]),
    (LDA_B, [0, HERE], [0, 0], 3, PAST, [0o040000, 1]),
    // a fault of a fetch
    (LDA_B, [HERE, ABOVE], [0o040377, 0], 2, FETCHING, [0o100001, 1]),
    (LDA_B, [HERE, UNFETCHED], [0o000377, 0], 2, FETCHING, [0o140001, 1]),
    (LDA_B, [HERE, 0], [0, 0], 3, FETCHING, [0o140001, 1]),
    // a fault that finds it held, also if it is 0
    (LDA_B, [ABOVE, HERE], [0o140377, 1], 2, PAST, [0o140377, 1]),
    (LDA_B, [UNREAD, HERE], [0o000105, 1], 2, PAST, [0o000105, 1]),
    (LDA_B, [0, HERE], [0o000105, 1], 3, PAST, [0o000105, 1]),
    (LDA_B, [0, HERE], [0, 1], 3, PAST, [0, 1]),
    (LDA_B, [HERE, ABOVE], [0o000105, 1], 2, FETCHING, [0o000105, 1]),
    (LDA_B, [HERE, UNFETCHED], [0o000105, 1], 2, FETCHING, [0o000105, 1]),
    (LDA_B, [HERE, 0], [0, 1], 3, FETCHING, [0, 1]),
    // memory out of range
    (LDA_B, [BEYOND, HERE], [0o000105, 0], 9, PAST, [0o000105, 0]),
    (LDA_B, [BEYOND, HERE], [0o000105, 1], 9, PAST, [0o000105, 1]),
    (LDA_B, [HERE, BEYOND], [0o000105, 0], 9, FETCHING, [0o000105, 0]),
    (LDA_B, [HERE, BEYOND], [0o000105, 1], 9, FETCHING, [0o000105, 1]),
    // TRA PGS, by itself and by EXR
    (TRA_PGS, [0, HERE], [0o140377, 1], 0, [0o2001, 0o140377], [0o140377, 0]),
    (TRA_PGS, [0, HERE], [0, 1], 0, [0o2001, 0], [0, 0]),
    (TRA_PGS, [0, HERE], [0o000105, 0], 0, [0o2001, 0o105], [0o000105, 0]),
    (EXR_T, [0, HERE], [0o140377, 1], 0, [0o2001, 0o140377], [0o140377, 0]),
    // the same on ring 1: not executed
    (TRA_PGS, [0, LOWER], [0o000105, 1], 6, PAST, [0o000105, 1]),
    (EXR_T, [0, LOWER], [0o000105, 1], 6, PAST, [0o000105, 1]),
    // what else reads, writes, clears, sets or stops; IID is 0, which TRA IIC gives
    (TRA_IIC, [0, HERE], [0o000105, 1], 0, [0o2001, 0], [0o000105, 1]),
    (TRR_PCR, [0, HERE], [0o000105, 1], 0, PAST, [0o000105, 1]),
    (MCL_PID, [0, HERE], [0o000105, 1], 0, PAST, [0o000105, 1]),
    (MST_PID, [0, HERE], [0o000105, 1], 0, PAST, [0o000105, 1]),
    (WAIT, [0, HERE], [0o000105, 1], 0, PAST, [0o000105, 1]),
    (WAIT, [0, HERE], [0o000105, 0], 0, PAST, [0o000105, 0]),
];

#[test]
fn one_step() {
    for &(word, entries, before, interrupt, [p, a], after) in ONES {
        let start = Machine::new(
            &[
                (P_0, 0o2000),
                (A_0, 0o123456),
                (T_0, TRA_PGS),
                (PAGING, 1),
                (PCR_0, 2),
                (PGS, before[0]),
                (HELD, before[1]),
            ],
            &[(1024, word)],
            &[(0, entries[0]), (1, entries[1])],
        );
        let m = start.stepped(interrupt);
        let left = [P_0, A_0, PGS, HELD].map(|at| m.state.0[at]);
        let row = format!("{word:06o} with {entries:?} from {before:?}");
        assert_eq!(left, [p, a, after[0], after[1]], "{row}");
    }
}

/// To level 14, which is raised and enabled: that is the whole step, and PGS stays held.
#[test]
fn change_of_level() {
    for held in [0, 1] {
        let named = [
            (ION, 1),
            (PID, 0o40000),
            (PIE, 0o40000),
            (PGS, 0o105),
            (HELD, held),
        ];
        let mut want = Machine::new(&named, &[], &[]);
        let m = want.stepped(0);
        want.state.0[LEVEL] = 14;
        assert_eq!(m, want);
        assert_eq!(m.state.0[PVL], 0);
    }
}

/// Written, and loaded again over other contents.
#[test]
fn images() {
    for held in [0, 1] {
        let mut m = faulting_after(2);
        m.state.0[HELD] = held;
        let mut image = vec![0o125252; MEMORY + 706];
        assert_eq!(write(&m.state, &m.memory, &m.tables, &mut image), Ok(()));
        assert_eq!(image[11..16], [3, 0, 0, 0, 28]);
        assert_eq!(image[26 + MEMORY + 128 + 9], 0o040102);
        assert_eq!(image[26 + MEMORY + 128 + 26], held);
        assert_eq!(image[26 + MEMORY + 128 + 28 + 64], 0o166000);
        let mut again = Machine::new(&[], &[], &[]);
        again.memory.fill(0o125252);
        again.tables.fill(0o125252);
        again.state = load(&image, &mut again.memory, &mut again.tables).unwrap();
        assert_eq!(again, m);
        let owned = Owned::load(&image, 2).unwrap();
        assert_eq!(owned.control(Control::PgsHeld), held);
        assert_eq!(owned.write(), Ok(image));
    }
    assert_eq!(IMAGE_EXTRA, 706);
}

/// Entries of kind 3. One of 26 words, as written before there were 27, leaves word 26 as 0; of 27 it is the image's; 2
/// or more in it is refused 2. Word 27 and images of 28 words are in extended.rs.
#[test]
fn control_words_of_images() {
    let mut control = [0; 27];
    control[2] = 1;
    control[9] = 0o040102;
    control[10] = 0o1002;
    control[25] = 0o3603;
    let image_of = |start: u16, control: &[u16]| {
        let mut image = vec![1, 3, 0, start, 0, control.len() as u16];
        image.extend(control);
        image
    };
    let loaded = |image: &[u16]| {
        let (mut memory, mut tables) = (vec![0; MEMORY], vec![0; TABLE_WORDS]);
        load(image, &mut memory, &mut tables)
    };
    let mut want = words(STATE_WORDS, &[]);
    want[128..155].copy_from_slice(&control);
    assert_eq!(loaded(&image_of(0, &control[..26])), Ok(state(&want)));
    assert_eq!(loaded(&image_of(0, &control)), Ok(state(&want)));
    want[HELD] = 1;
    control[26] = 1;
    assert_eq!(loaded(&image_of(0, &control)), Ok(state(&want)));
    let only = words(STATE_WORDS, &[(HELD, 1)]);
    assert_eq!(loaded(&image_of(26, &[1])), Ok(state(&only)));
    for word in [2, 3, 0o100000, 0o177777] {
        assert_eq!(loaded(&image_of(26, &[word])), Err(Refusal::State));
    }
    let both = words(STATE_WORDS, &[(HELD, 1), (HELD + 1, 1)]);
    assert_eq!(loaded(&image_of(26, &[1, 1])), Ok(state(&both)));
}
