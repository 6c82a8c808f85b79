//! A machine in its three pieces, by every form of the step, for the tests of extended mode, of the devices and of
//! references.

use nd110::{
    Input, InputRun, PAGE_WORDS, Ran, Reason, Refusal, State, TABLE_WORDS, Target, load, raise,
    raise_lent, read_out, run, run_to_interrupt, run_with_input, step, step_lent, tick,
    type_character, view, view_into, write,
};

// State words: registers at 8 * level + number, control words from 128 on.
pub const D_0: usize = 1;
pub const P_0: usize = 2;
pub const B_0: usize = 3;
pub const A_0: usize = 5;
pub const T_0: usize = 6;
pub const X_0: usize = 7;
pub const LEVEL: usize = 128;
pub const ION: usize = 129;
pub const PAGING: usize = 130;
pub const STOPPED: usize = 131;
pub const PID: usize = 132;
pub const PIE: usize = 133;
pub const IID: usize = 135;
pub const IIE: usize = 136;
pub const PGS: usize = 137;
pub const PCR_0: usize = 138;
pub const HELD: usize = 154;
pub const EXTENDED: usize = 155;

pub const SEX: u16 = 0o150406;
pub const REX: u16 = 0o150407;
pub const TRA_STS: u16 = 0o150001;
pub const TRR_STS: u16 = 0o150101;
pub const MCL_STS: u16 = 0o150201;
pub const MST_STS: u16 = 0o150301;
pub const WAIT: u16 = 0o151000;
pub const SAA_5: u16 = 0o170405;
pub const AAA_3: u16 = 0o172403;
pub const EXAM: u16 = 0o150416;
pub const DEPO: u16 = 0o150417;
pub const EXR_D: u16 = 0o140610;
pub const LDA_B: u16 = 0o044400; // LDA 0,B
pub const LDA_I_B: u16 = 0o045400; // LDA I 0,B
pub const STA_X: u16 = 0o006000; // STA 0,X

// The seven with displacement 0; it is bits 5-3.
pub const LDATX: u16 = 0o143300;
pub const LDXTX: u16 = 0o143301;
pub const LDDTX: u16 = 0o143302;
pub const LDBTX: u16 = 0o143303;
pub const STATX: u16 = 0o143304;
pub const STZTX: u16 = 0o143305;
pub const STDTX: u16 = 0o143306;
pub const SEVEN: [u16; 7] = [LDATX, LDXTX, LDDTX, LDBTX, STATX, STZTX, STDTX];

pub const FILLED: u16 = 0o125252;

/// Words by their places.
pub type Named = [(usize, u16)];

pub fn set(words: &mut [u16], named: &Named) {
    for &(at, word) in named {
        words[at] = word;
    }
}

/// The first word in which two of one length differ.
pub fn differ(got: &[u16], want: &[u16]) -> Option<(usize, u16, u16)> {
    assert_eq!(got.len(), want.len());
    if got == want {
        return None;
    }
    let mut words = got.iter().zip(want).enumerate();
    words.find_map(|(at, (got, want))| (got != want).then_some((at, *got, *want)))
}

/// What a run answers.
pub fn ran(steps: u64, reason: Reason, references: u64) -> Ran {
    Ran {
        steps,
        reason,
        references,
    }
}

#[derive(Clone, PartialEq)]
pub struct Machine {
    pub state: State,
    pub memory: Vec<u16>,
    pub tables: Vec<u16>,
}

impl Machine {
    /// So many pages; every word 0.
    pub fn new(pages: usize) -> Machine {
        Machine {
            state: State::new(),
            memory: vec![0; pages * PAGE_WORDS],
            tables: vec![0; TABLE_WORDS],
        }
    }

    /// The same machine, but for these words of state, memory and page tables.
    pub fn with(&self, state: &Named, memory: &Named, tables: &Named) -> Machine {
        let mut m = self.clone();
        set(&mut m.state.0, state);
        set(&mut m.memory, memory);
        set(&mut m.tables, tables);
        m
    }

    pub fn is(&self, want: &Machine, what: &str) {
        assert_eq!(
            differ(&self.state.0, &want.state.0),
            None,
            "state of {what}"
        );
        assert_eq!(differ(&self.memory, &want.memory), None, "memory of {what}");
        assert_eq!(differ(&self.tables, &want.tables), None, "tables of {what}");
    }

    pub fn step(&mut self) -> Result<u16, Refusal> {
        step(&mut self.state, &mut self.memory, &mut self.tables)
    }

    pub fn step_lent(&mut self) -> Result<u16, Refusal> {
        step_lent(&mut self.state, &mut self.memory, &mut self.tables)
    }

    pub fn run(&mut self, steps: u64) -> Result<Ran, Refusal> {
        run(&mut self.state, &mut self.memory, &mut self.tables, steps)
    }

    pub fn run_to_interrupt(&mut self, steps: u64) -> Result<Ran, Refusal> {
        run_to_interrupt(&mut self.state, &mut self.memory, &mut self.tables, steps)
    }

    pub fn tick(&mut self) -> Result<(), Refusal> {
        tick(&mut self.state, &self.memory, &self.tables)
    }

    pub fn type_character(&mut self, character: u8) -> Result<(), Refusal> {
        type_character(&mut self.state, character, &self.memory, &self.tables)
    }

    pub fn read_out(&mut self) -> Result<Option<u8>, Refusal> {
        read_out(&mut self.state, &self.memory, &self.tables)
    }

    pub fn run_with_input(
        &mut self,
        steps: u64,
        inputs: &[(u64, Input)],
    ) -> Result<InputRun, Refusal> {
        let Machine {
            state,
            memory,
            tables,
        } = self;
        run_with_input(state, memory, tables, steps, inputs)
    }

    /// The machine after one step, which gives this interrupt whichever form makes it.
    pub fn stepped(&self, interrupt: u16, what: &str) -> Machine {
        let [mut plain, mut lent, mut run, mut first] = [(); 4].map(|()| self.clone());
        assert_eq!(plain.step(), Ok(interrupt), "{what}");
        assert_eq!(lent.step_lent(), Ok(interrupt), "{what}");
        // stopped is told before spent, an interrupt before both
        let reason = match plain.state.0[STOPPED] {
            0 => Reason::Spent,
            _ => Reason::Stopped,
        };
        let through = run.run(1).unwrap();
        assert_eq!((through.steps, through.reason), (1, reason), "{what}");
        let references = through.references;
        assert!((1..=9).contains(&references), "{what}: {references}");
        let reason = match interrupt {
            0 => reason,
            _ => Reason::Interrupt,
        };
        let to_interrupt = first.run_to_interrupt(1);
        assert_eq!(to_interrupt, Ok(ran(1, reason, references)), "{what}");
        for other in [lent, run, first] {
            other.is(&plain, what);
        }
        plain
    }

    /// One step: the interrupt, and the words that it changes; IID gets the interrupt's bit.
    pub fn gives(
        &self,
        interrupt: u16,
        state: &Named,
        memory: &Named,
        tables: &Named,
        what: &str,
    ) -> Machine {
        let m = self.stepped(interrupt, what);
        let mut want = self.with(state, memory, tables);
        if interrupt != 0 {
            want.state.0[IID] |= 1 << interrupt;
        }
        m.is(&want, what);
        m
    }

    /// Every function that tests the state refuses; nothing changes.
    pub fn refuses(&mut self, refusal: Refusal, out: &mut [u16]) {
        let was = self.clone();
        assert_eq!(self.step(), Err(refusal));
        assert_eq!(self.step_lent(), Err(refusal));
        assert_eq!(self.run(10), Err(refusal));
        assert_eq!(self.run_to_interrupt(10), Err(refusal));
        let raised = raise(&mut self.state, 10, &self.memory, &self.tables);
        assert_eq!(raised, Err(refusal));
        let raised = raise_lent(&mut self.state, 10, &self.memory, &self.tables);
        assert_eq!(raised, Err(refusal));
        assert_eq!(self.tick(), Err(refusal));
        assert_eq!(self.type_character(0o101), Err(refusal));
        assert_eq!(self.read_out(), Err(refusal));
        let inputs = [(0, Input::Tick)];
        assert_eq!(self.run_with_input(10, &inputs), Err(refusal));
        let written = write(&self.state, &self.memory, &self.tables, out);
        assert_eq!(written, Err(refusal));
        assert!(*self == was, "a refused call changed a word");
    }

    /// Every function refuses 1; nothing changes.
    pub fn refuses_sizes(&mut self) {
        let mut out = vec![FILLED; 2000];
        self.refuses(Refusal::Sizes, &mut out);
        let was = self.clone();
        let loaded = load(&[0], &mut self.memory, &mut self.tables);
        assert_eq!(loaded, Err(Refusal::Sizes));
        for target in [Target::Memory, Target::Tables] {
            let viewed = view(target, 0, 0, &self.memory, &self.tables);
            assert_eq!(viewed, Err(Refusal::Sizes));
            let viewed = view_into(target, 0, 1, &self.memory, &self.tables, &mut out);
            assert_eq!(viewed, Err(Refusal::Sizes));
        }
        assert!(*self == was, "a refused call changed a word");
        assert!(out.iter().all(|word| *word == FILLED));
    }
}
