//! The machine lent: `step_lent` and `raise_lent`, and `Machine`, which owns its words. Long runs compare these forms
//! with `step` and the other plain functions, word for word after each call; what is refused, and which PID bit a raise
//! sets, is written by hand from document 01.

use nd110::{
    Control, Device, IMAGE_EXTRA, Input, MEMORY_MOST, Machine, PAGE_WORDS, Ran, Reason, Refusal,
    Register, State, TABLE_WORDS, Target, load, raise, raise_lent, read_out, run, run_to_interrupt,
    run_with_input, step, step_lent, tick, type_character, view, write,
};

// State words: registers at 8 * level + number, control words from 128 on, sixteen PCRs, then whether PGS is held and
// the extended flag; the devices' words, those of the clock, of the input and of the output.
const P_0: usize = 2;
const A_0: usize = 5;
const T_0: usize = 6;
const LEVEL: usize = 128;
const INTERRUPTS: usize = 129;
const PAGING: usize = 130;
const STOPPED: usize = 131;
const PID: usize = 132;
const PGS: usize = 137;
const PCR: usize = 138;
const HELD: usize = 154;
const EXTENDED: usize = 155;
const DEVICES: usize = 156;
const UNREAD: usize = 160;

const TRA_PGS: u16 = 0o150003;
const SEX: u16 = 0o150406;
const REX: u16 = 0o150407;
/// The first code of the class that goes by physical address, T and X: displacement in bits 5-3, operation in 2-0.
const BY_T_AND_X: u16 = 0o143300;
/// IOX of the terminal's first register; the other seven follow, and the clock's four are at 164010.
const IOX_TERMINAL: u16 = 0o164300;
const IOX_CLOCK: u16 = 0o164010;
/// IDENT of levels 10, 12 and 13.
const IDENTS: [u16; 3] = [0o143604, 0o143622, 0o143643];

/// The bits that a control word may have, by document 01: level, interrupts on, paging on, stopped, PID, PIE, PVL, IID,
/// IIE, PGS, then sixteen PCRs, and by document 02, cards 3 and 4, whether PGS is held and the extended flag; then, by
/// card 1, those of the devices' words: characters are the seventh and the last, the length is the eighth. A word is in
/// range if it has no other bit.
const CONTROL_BITS: [u16; 40] = {
    let mut bits = [0o003603; 40];
    let first = [
        0o17, 1, 1, 1, 0o177777, 0o177777, 0o17, 0o3776, 0o3776, 0o140377,
    ];
    let last = [1, 1, 1, 1, 1, 1, 1, 1, 0o377, 3, 1, 1, 1, 0o377];
    let mut at = 0;
    while at < first.len() {
        bits[at] = first[at];
        at += 1;
    }
    at = 0;
    while at < last.len() {
        bits[26 + at] = last[at];
        at += 1;
    }
    bits
};

/// A small seeded generator (xorshift).
struct Random(u64);

impl Random {
    fn draw(&mut self) -> u64 {
        self.0 ^= self.0 << 13;
        self.0 ^= self.0 >> 7;
        self.0 ^= self.0 << 17;
        self.0
    }

    fn word(&mut self) -> u16 {
        (self.draw() >> 24) as u16
    }

    /// 0 to n - 1.
    fn below(&mut self, n: u16) -> u16 {
        self.word() % n
    }
}

/// A machine in its three pieces.
#[derive(Clone, PartialEq)]
struct Pieces {
    state: State,
    memory: Vec<u16>,
    tables: Vec<u16>,
}

impl Pieces {
    /// Pages of memory, every word 0.
    fn new(pages: usize) -> Pieces {
        Pieces {
            state: State::new(),
            memory: vec![0; pages * PAGE_WORDS],
            tables: vec![0; TABLE_WORDS],
        }
    }

    /// Any words, of sixteen in memory one TRA PGS, two SEX or REX, one by T and X, two for the devices; control words
    /// and devices' words in range, paging mostly on, most levels on ring 3, a T of 0 on every second; entries of the
    /// machine's mode that mostly permit all, in pages that are there. One in sixteen has 64 pages, so that it can go on
    /// with paging off.
    fn random(random: &mut Random) -> Pieces {
        let pages = match random.below(16) {
            0 => 64,
            _ => 1 + random.below(4),
        };
        let mut m = Pieces::new(usize::from(pages));
        m.state.0.fill_with(|| random.word());
        m.memory.fill_with(|| match random.below(16) {
            0 => TRA_PGS,
            1 => SEX,
            2 => REX,
            3 => BY_T_AND_X + random.below(64),
            4 => IOX_TERMINAL + random.below(8),
            5 => match random.below(7) {
                of @ 0..3 => IDENTS[usize::from(of)],
                of => IOX_CLOCK + of - 3,
            },
            _ => random.word(),
        });
        for sts in m.state.0[..LEVEL].iter_mut().step_by(8) {
            *sts &= 0o377;
        }
        for t in m.state.0[..LEVEL].iter_mut().skip(T_0).step_by(16) {
            *t = 0;
        }
        for (word, bits) in m.state.0[LEVEL..].iter_mut().zip(CONTROL_BITS) {
            *word &= bits;
        }
        for pcr in &mut m.state.0[PCR..HELD] {
            *pcr |= [0, 3][usize::from(random.below(2))];
        }
        m.state.0[PAGING] |= random.below(2);
        m.state.0[STOPPED] = 0;
        for entry in m.tables.chunks_mut(1 + usize::from(m.state.0[EXTENDED])) {
            let permits = [7, 7, 7, random.below(8)][usize::from(random.below(4))];
            let ring = [0, 0, 0, random.below(4)][usize::from(random.below(4))];
            let (tests, page) = (permits << 13 | ring << 9, random.below(pages));
            match entry {
                [word] => *word = tests | page,
                // with bits 8-0 and 15-14, which mean nothing there
                [first, second] => {
                    *first = tests | random.below(512);
                    *second = random.below(4) << 14 | page;
                }
                _ => unreachable!("one word or two"),
            }
        }
        m
    }

    fn step(&mut self) -> Result<u16, Refusal> {
        step(&mut self.state, &mut self.memory, &mut self.tables)
    }

    fn step_lent(&mut self) -> Result<u16, Refusal> {
        step_lent(&mut self.state, &mut self.memory, &mut self.tables)
    }

    fn raise(&mut self, level: u16) -> Result<(), Refusal> {
        raise(&mut self.state, level, &self.memory, &self.tables)
    }

    fn tick(&mut self) -> Result<(), Refusal> {
        tick(&mut self.state, &self.memory, &self.tables)
    }

    fn type_character(&mut self, character: u8) -> Result<(), Refusal> {
        type_character(&mut self.state, character, &self.memory, &self.tables)
    }

    fn read_out(&mut self) -> Result<Option<u8>, Refusal> {
        read_out(&mut self.state, &self.memory, &self.tables)
    }

    fn raise_lent(&mut self, level: u16) -> Result<(), Refusal> {
        raise_lent(&mut self.state, level, &self.memory, &self.tables)
    }

    /// The same machine, owned.
    fn owned(&self) -> Machine {
        let mut machine = Machine::new(self.memory.len() / PAGE_WORDS).unwrap();
        *machine.state_mut() = self.state;
        machine.memory_mut().copy_from_slice(&self.memory);
        machine.tables_mut().copy_from_slice(&self.tables);
        machine
    }

    fn is(&self, machine: &Machine) -> bool {
        self.state == *machine.state()
            && self.memory == machine.memory()
            && self.tables == machine.tables()
    }
}

/// One machine by each of the three forms of the step.
struct Three {
    plain: Pieces,
    lent: Pieces,
    owned: Machine,
    /// The mode that its page tables are made for.
    mode: u16,
}

/// What a run had in it.
#[derive(Default)]
struct Seen {
    /// Steps by the interrupt that they gave, 0 if none.
    interrupts: [u32; 10],
    changes: u32,
    raises: u32,
    stores: u32,
    tables: u32,
    /// Paging faults that PGS took, and those that found it held.
    taken: u32,
    late: u32,
    /// Steps that released it.
    released: u32,
    /// Steps in extended mode, and those that set the extended flag, that cleared it.
    extended: u32,
    set: u32,
    cleared: u32,
    /// Steps that changed a device's word, and of these those that answered an IDENT.
    devices: u32,
    identified: u32,
    /// Ticks, characters taken and refused, characters read out.
    ticks: u32,
    typed: u32,
    unread: u32,
    read_out: u32,
}

impl Three {
    fn new(start: Pieces) -> Three {
        Three {
            lent: start.clone(),
            owned: start.owned(),
            mode: start.state.0[EXTENDED],
            plain: start,
        }
    }

    fn equal(&self) {
        assert_eq!(self.lent.state, self.plain.state);
        assert!(self.lent == self.plain, "memory or page tables of lent");
        assert!(self.plain.is(&self.owned), "the machine that is owned");
    }

    /// A step of each; answers what it gave.
    fn step(&mut self, seen: &mut Seen) -> u16 {
        let was = self.plain.clone();
        let answer = self.plain.step();
        assert_eq!(self.lent.step_lent(), answer);
        assert_eq!(self.owned.step(), answer);
        self.equal();
        let interrupt = answer.unwrap();
        seen.interrupts[usize::from(interrupt)] += 1;
        seen.changes += u32::from(was.state.0[LEVEL] != self.plain.state.0[LEVEL]);
        seen.stores += u32::from(was.memory != self.plain.memory);
        seen.tables += u32::from(was.tables != self.plain.tables);
        self.held(&was, seen, interrupt);
        self.extended(&was, seen, interrupt);
        self.devices(&was, seen, interrupt);
        interrupt
    }

    /// By document 02, card 3: 2 and 3 write PGS and hold it if it is not held, and leave it if it is; every other step
    /// leaves its value, and releases it only if A of the running level gets it.
    fn held(&self, was: &Pieces, seen: &mut Seen, interrupt: u16) {
        let (before, after) = (was.state.0, self.plain.state.0);
        if before[HELD] == 0 && matches!(interrupt, 2 | 3) {
            seen.taken += 1;
            assert_eq!(after[HELD], 1);
            return;
        }
        assert_eq!(after[PGS], before[PGS]);
        if interrupt != 0 {
            assert_eq!(after[HELD], before[HELD]);
        }
        assert!(after[HELD] <= before[HELD]);
        seen.late += u32::from(matches!(interrupt, 2 | 3));
        if after[HELD] != before[HELD] {
            seen.released += 1;
            assert_eq!(after[8 * usize::from(after[LEVEL]) + A_0], after[PGS]);
        }
    }

    /// By document 02, card 4: a step that changes the extended flag gives no interrupt and changes nothing else but P,
    /// the ring and marks, which its fetch may.
    fn extended(&self, was: &Pieces, seen: &mut Seen, interrupt: u16) {
        let (mut before, after) = (was.state.0, self.plain.state.0);
        seen.extended += u32::from(before[EXTENDED]);
        if after[EXTENDED] == before[EXTENDED] {
            return;
        }
        match after[EXTENDED] {
            0 => seen.cleared += 1,
            _ => seen.set += 1,
        }
        let level = usize::from(before[LEVEL]);
        before[EXTENDED] = after[EXTENDED];
        before[8 * level + P_0] = before[8 * level + P_0].wrapping_add(1);
        assert!(after[PCR + level] <= before[PCR + level]);
        before[PCR + level] = after[PCR + level];
        assert_eq!(after, before);
        assert_eq!(interrupt, 0);
        assert!(was.memory == self.plain.memory, "memory");
    }

    /// By document 02, card 1: a step that changes a device's word gives no interrupt and changes nothing else but P, A,
    /// and the PID bits of levels 10, 12 and 13, of which it may set one; an IDENT clears a flip-flop, and A is 1 then.
    fn devices(&self, was: &Pieces, seen: &mut Seen, interrupt: u16) {
        let (mut before, after) = (was.state.0, self.plain.state.0);
        if after[DEVICES..] == before[DEVICES..] {
            return;
        }
        seen.devices += 1;
        let level = usize::from(before[LEVEL]);
        for asks in [158, 161, 166] {
            if after[asks] < before[asks] {
                seen.identified += 1;
                assert_eq!(after[8 * level + A_0], 1);
                assert_eq!(after[PID], before[PID]);
            }
        }
        before[DEVICES..].copy_from_slice(&after[DEVICES..]);
        before[8 * level + P_0] = before[8 * level + P_0].wrapping_add(1);
        before[8 * level + A_0] = after[8 * level + A_0];
        assert!([0, 0o2000, 0o10000, 0o20000].contains(&(after[PID] ^ before[PID])));
        assert_eq!(after[PID] | before[PID], after[PID]);
        before[PID] = after[PID];
        assert!(after[PCR + level] <= before[PCR + level]);
        before[PCR + level] = after[PCR + level];
        assert_eq!(after, before);
        assert_eq!(interrupt, 0);
        assert!(was.memory == self.plain.memory, "memory");
    }

    /// Now and then a tick, a character or a read out of each.
    fn hand_in(&mut self, random: &mut Random, seen: &mut Seen) {
        match random.below(32) {
            0 => {
                let answer = self.plain.tick();
                assert_eq!([self.lent.tick(), self.owned.tick()], [answer; 2]);
                seen.ticks += u32::from(answer.is_ok());
            }
            1 => {
                let character = random.word() as u8;
                let unread = self.plain.state.0[UNREAD] != 0;
                let answer = self.plain.type_character(character);
                assert_eq!(self.lent.type_character(character), answer);
                assert_eq!(self.owned.type_character(character), answer);
                assert_eq!(answer == Err(Refusal::Unread), unread);
                seen.typed += u32::from(answer.is_ok());
                seen.unread += u32::from(unread);
            }
            2 => {
                let answer = self.plain.read_out();
                assert_eq!([self.lent.read_out(), self.owned.read_out()], [answer; 2]);
                seen.read_out += u32::from(answer.is_ok_and(|character| character.is_some()));
            }
            _ => return,
        }
        self.equal();
    }

    /// A state word stored by the host.
    fn store(&mut self, at: usize, word: u16) {
        self.plain.state.0[at] = word;
        self.lent.state.0[at] = word;
        self.owned.state_mut().0[at] = word;
    }

    /// What a host does between two steps: now and then a raise, of a level that may be refused, or something for the
    /// devices, or PGS held or not, and rarely other levels pending. A machine that has stopped or given an interrupt
    /// goes on elsewhere, mostly in its first mode.
    fn host(&mut self, random: &mut Random, seen: &mut Seen, interrupt: u16) {
        if random.below(16) == 0 {
            let level = random.below(17);
            let answer = self.plain.raise(level);
            assert_eq!(self.lent.raise_lent(level), answer);
            assert_eq!(self.owned.raise(level), answer);
            seen.raises += u32::from(answer.is_ok());
            self.equal();
        }
        self.hand_in(random, seen);
        if random.below(16) == 0 {
            self.store(HELD, random.below(2));
        }
        if random.below(64) == 0 {
            self.store(PID, random.word());
            self.store(INTERRUPTS, random.below(2));
        }
        let stopped = self.plain.state.0[STOPPED] != 0;
        if (stopped || interrupt != 0) && random.below(4) != 0 {
            let level = usize::from(self.plain.state.0[LEVEL]);
            self.store(STOPPED, 0);
            self.store(EXTENDED, self.mode);
            self.store(8 * level + P_0, random.word());
        }
    }
}

/// The benchmark's mixed image: every step does something, none gives an interrupt.
#[test]
fn mixed() {
    const STEPS: u32 = 50_000;
    let image = cli::octal::words(include_str!("../../bench/mixed.octal")).expect("octal text");
    let mut start = Pieces::new(64);
    start.state = load(&image, &mut start.memory, &mut start.tables).expect("an image");
    let mut three = Three::new(start);
    let mut seen = Seen::default();
    for _ in 0..STEPS {
        let was = three.lent.state;
        assert_eq!(three.step(&mut seen), 0);
        assert_ne!(was, three.lent.state);
    }
    assert!(seen.stores > STEPS / 100, "{} stores", seen.stores);
}

/// Machines of any words, with a host that raises levels. Every interrupt that there is comes: 1 to 7 and 9.
#[test]
fn random_machines() {
    let mut random = Random(0x2545_f491_4f6c_dd1d);
    let mut seen = Seen::default();
    for _ in 0..1000 {
        let mut three = Three::new(Pieces::random(&mut random));
        for _ in 0..250 {
            let interrupt = three.step(&mut seen);
            three.host(&mut random, &mut seen, interrupt);
        }
    }
    for (interrupt, count) in seen.interrupts.into_iter().enumerate() {
        assert_eq!(count != 0, interrupt != 8, "interrupt {interrupt}");
    }
    for (what, count) in [
        ("steps without interrupt", seen.interrupts[0]),
        ("changes of level", seen.changes),
        ("raises", seen.raises),
        ("stores to memory", seen.stores),
        ("stores to page tables", seen.tables),
        ("faults that PGS took", seen.taken),
        ("faults that found it held", seen.late),
        ("steps in extended mode", seen.extended),
        ("ticks", seen.ticks),
        ("characters refused", seen.unread),
    ] {
        assert!(count > 1000, "{count} {what}");
    }
    for (what, count) in [
        ("steps that released PGS", seen.released),
        ("steps that set the extended flag", seen.set),
        ("steps that cleared it", seen.cleared),
        ("steps that changed a device's word", seen.devices),
        ("steps that answered an IDENT", seen.identified),
        ("characters typed", seen.typed),
        ("characters read out", seen.read_out),
    ] {
        assert!(count > 100, "{count} {what}");
    }
}

/// Both lent calls are refused with this number, whichever level a raise names, and each leaves every word.
fn refused(m: &mut Pieces, was: &Pieces, refusal: Refusal) {
    assert_eq!(m.step_lent(), Err(refusal));
    assert!(m == was, "a step changed a word");
    for level in [10, 9] {
        assert_eq!(m.raise_lent(level), Err(refusal));
        assert!(m == was, "a raise changed a word");
    }
}

/// Wrong sizes before a state out of range, and both before the level of a raise.
#[test]
fn sizes() {
    let lengths = [
        (0, 512),
        (1, 512),
        (1023, 512),
        (1025, 512),
        (2047, 512),
        (MEMORY_MOST + 1024, 512),
        (2048, 0),
        (2048, 64),
        (2048, 256),
        (2048, 511),
        (2048, 513),
        (0, 0),
    ];
    for (memory, tables) in lengths {
        let mut m = Pieces::new(1);
        m.memory = vec![0o170405; memory];
        m.tables = vec![0o111111; tables];
        refused(&mut m.clone(), &m, Refusal::Sizes);
        m.state.0[STOPPED] = 2;
        refused(&mut m.clone(), &m, Refusal::Sizes);
    }
}

/// Each bit of each control word and of each device's word set, on a machine that is all 0 and on random ones: taken if
/// the word may have it, else refused 2.
#[test]
fn control_words() {
    let mut random = Random(0x9e37_79b9_7f4a_7c15);
    let mut starts = vec![Pieces::new(1)];
    starts.extend((0..20).map(|_| Pieces::random(&mut random)));
    let mut taken = 0;
    for start in &starts {
        for (at, bits) in CONTROL_BITS.into_iter().enumerate() {
            for bit in (0..16).map(|n| 1 << n) {
                let mut m = start.clone();
                m.state.0[LEVEL + at] |= bit;
                if bits & bit == 0 {
                    refused(&mut m.clone(), &m, Refusal::State);
                } else {
                    taken += 1;
                    assert!(m.clone().step_lent().is_ok());
                    assert_eq!(m.raise_lent(10), Ok(()));
                }
            }
        }
    }
    // 4 + 3 + 32 + 4 + 20 + 10 of the first ten words, 6 of each PCR, 1 of each of the two behind them; of the devices 8
    // of each character, 2 of the length, 1 of each other
    assert_eq!(taken, starts.len() * (73 + 16 * 6 + 2 + 16 + 2 + 9));
}

/// An STS of 256 or more, on each level, whichever runs.
#[test]
fn status() {
    for level in 0..16 {
        let mut m = Pieces::new(1);
        m.state.0[LEVEL] = 15 - level;
        m.memory.fill(0o170405);
        m.tables.fill(0o111111);
        let mut was = m.clone();
        let sts = 8 * usize::from(level);
        for word in 256..=u16::MAX {
            m.state.0[sts] = word;
            was.state.0[sts] = word;
            refused(&mut m, &was, Refusal::State);
        }
        m.state.0[sts] = 255;
        assert_eq!(m.clone().step_lent(), Ok(0));
        assert_eq!(m.raise_lent(15), Ok(()));
    }
}

/// Every number of a level: 10 to 13 and 15 set their PID bit and nothing else, the others are refused 3.
fn every_level(start: &Pieces) {
    let (mut m, mut words) = (start.clone(), start.clone());
    let mut taken = Vec::new();
    for level in 0..=u16::MAX {
        let mut want = start.state;
        let answer = m.raise_lent(level);
        if matches!(level, 10..=13 | 15) {
            want.0[PID] |= 1 << level;
            taken.push(level);
            assert_eq!(answer, Ok(()));
        } else {
            assert_eq!(answer, Err(Refusal::RaiseLevel));
        }
        assert_eq!(m.state, want);
        assert_eq!(words.raise(level), answer);
        assert_eq!(words.state, want);
        m.state = start.state;
        words.state = start.state;
    }
    assert!(m == *start, "memory or page tables");
    assert_eq!(taken, [10, 11, 12, 13, 15]);
}

#[test]
fn raises() {
    let mut random = Random(0x1234_5678_9abc_def1);
    let mut start = Pieces::random(&mut random);
    for (pid, stopped) in [(0, 0), (0, 1), (0o041000, 0), (0o041000, 1)] {
        start.state.0[PID] = pid;
        start.state.0[STOPPED] = stopped;
        every_level(&start);
    }
}

/// A raise beside those that stand: they stay, and one that is raised again is the same.
#[test]
fn raises_stay() {
    let mut m = Pieces::new(1);
    for (level, pid) in [
        (10, 0o2000),
        (15, 0o102000),
        (10, 0o102000),
        (13, 0o122000),
        (11, 0o126000),
        (12, 0o136000),
    ] {
        assert_eq!(m.raise_lent(level), Ok(()));
        let mut want = State::new();
        want.0[PID] = pid;
        assert_eq!(m.state, want);
    }
}

/// What a run answers.
fn ran(steps: u64, reason: Reason, references: u64) -> Ran {
    Ran {
        steps,
        reason,
        references,
    }
}

/// SAA 5; AAA 3; MON 7; a word that is no instruction; WAIT. IIE has interrupt 4.
const IMAGE: [u16; 17] = [
    2, 1, 0, 0, 0, 5, 3, 0, 8, 0, 1, 0o170405, 0o172403, 0o153007, 0o160000, 0o151000, 0o20,
];

/// Sizes that the engine takes are those that a machine can have.
#[test]
fn machine_sizes() {
    for pages in [0, 16_385, 16_386, usize::MAX / 1024, usize::MAX] {
        assert_eq!(Machine::new(pages), Err(Refusal::Sizes));
        assert_eq!(Machine::load(&IMAGE, pages), Err(Refusal::Sizes));
        assert_eq!(Machine::load(&[], pages), Err(Refusal::Sizes));
    }
    for pages in [1, 2, 512, 513, 16_383, 16_384] {
        let mut machine = Machine::new(pages).unwrap();
        assert_eq!(*machine.state(), State::new());
        assert_eq!(machine.memory().len(), pages * 1024);
        assert!(machine.memory().iter().all(|word| *word == 0));
        assert_eq!(*machine.tables(), [0; 512]);
        assert_eq!(machine.step(), Ok(0));
    }
    let mut m = Pieces::new(16_385);
    assert_eq!(m.step(), Err(Refusal::Sizes));
}

/// By hand: each method does its operation.
#[test]
fn machine_by_hand() {
    let mut machine = Machine::load(&IMAGE, 2).unwrap();
    assert_eq!(machine.step(), Ok(0));
    assert_eq!(machine.register(0, Register::A), 5);
    let want = ran(2, Reason::Interrupt, 2);
    assert_eq!(machine.run_to_interrupt(10), Ok(want));
    assert_eq!(machine.register(0, Register::A), 8);
    assert_eq!(machine.register(14, Register::T), 7);
    assert_eq!(machine.raise(14), Err(Refusal::RaiseLevel));
    assert_eq!(machine.raise(11), Ok(()));
    assert_eq!(machine.control(Control::Pid), 0o4000);
    assert_eq!(machine.step(), Ok(4));
    assert_eq!(machine.control(Control::Pid), 0o44000);
    assert_eq!(machine.run(10), Ok(ran(1, Reason::Stopped, 1)));
    assert_eq!(machine.control(Control::Stopped), 1);
    assert_eq!(machine.run(10), Ok(ran(0, Reason::Stopped, 0)));
    assert_eq!(machine.view(Target::Memory, 1, 2).unwrap(), &IMAGE[12..14]);
    assert_eq!(machine.view(Target::Tables, 511, 2), Err(Refusal::View));
}

/// What the host stores is what a call finds, and a state out of range is refused and kept.
#[test]
fn machine_stores() {
    let mut machine = Machine::new(1).unwrap();
    machine.memory_mut()[1023] = 0o170405;
    machine.tables_mut()[511] = 0o111111;
    machine.state_mut().0[3 * 8 + P_0] = 1023;
    machine.state_mut().0[LEVEL] = 3;
    machine.state_mut().0[PCR + 3] = 0o203;
    assert_eq!(machine.step(), Ok(0));
    assert_eq!(machine.register(3, Register::P), 1024);
    assert_eq!(machine.register(3, Register::A), 5);
    assert_eq!(machine.pcr(3), 0o203);
    assert_eq!(machine.tables()[511], 0o111111);
    machine.state_mut().0[LEVEL] = 16;
    let was = machine.clone();
    assert_eq!(machine.step(), Err(Refusal::State));
    assert_eq!(machine.raise(10), Err(Refusal::State));
    assert_eq!(machine.run(10), Err(Refusal::State));
    assert_eq!(machine.run_to_interrupt(10), Err(Refusal::State));
    assert_eq!(machine.write(), Err(Refusal::State));
    assert_eq!(machine, was);
}

/// A machine that is owned and one in pieces, by runs, raises, views and images.
#[test]
fn machine_as_the_functions() {
    let mut random = Random(0xdead_beef_0bad_cafe);
    let (mut spent, mut told) = (0, 0);
    for _ in 0..200 {
        let mut m = Pieces::random(&mut random);
        let mut machine = m.owned();
        for _ in 0..10 {
            let steps = u64::from(random.below(50));
            let ran = run(&mut m.state, &mut m.memory, &mut m.tables, steps);
            assert_eq!(machine.run(steps), ran);
            assert!(m.is(&machine));
            let ran = ran.expect("in range");
            spent += u32::from((ran.steps, ran.reason) == (steps, Reason::Spent));
            assert!(ran.references <= 9 * ran.steps);
            let ran = run_to_interrupt(&mut m.state, &mut m.memory, &mut m.tables, steps);
            assert_eq!(machine.run_to_interrupt(steps), ran);
            assert!(m.is(&machine));
            let level = random.below(17);
            assert_eq!(machine.raise(level), m.raise(level));
            assert_eq!(machine.tick(), m.tick());
            let character = random.word() as u8;
            let typed = m.type_character(character);
            assert_eq!(machine.type_character(character), typed);
            assert_eq!(machine.read_out(), m.read_out());
            assert!(m.is(&machine));
            told += same_input_run(&mut m, &mut machine, &mut random);
        }
        same_views(&m, &machine, &mut random);
        same_image(&m, &machine);
    }
    assert!(spent > 100, "{spent} runs of as many steps as asked");
    assert!(told > 100, "{told} inputs within a run");
}

/// One run with device input of both; how many inputs were handed in.
fn same_input_run(m: &mut Pieces, machine: &mut Machine, random: &mut Random) -> usize {
    let steps = u64::from(random.below(10));
    let inputs: Vec<(u64, Input)> = (0..random.below(5))
        .map(|_| {
            let input = match random.below(4) {
                0 => Input::Raise(random.below(17)),
                1 => Input::Tick,
                2 => Input::Typed(random.word() as u8),
                _ => Input::ReadOut,
            };
            (u64::from(random.below(6)), input)
        })
        .collect();
    let ran = run_with_input(&mut m.state, &mut m.memory, &mut m.tables, steps, &inputs);
    assert_eq!(machine.run_with_input(steps, &inputs), ran);
    assert!(m.is(machine));
    ran.expect("in range").told.len()
}

fn same_views(m: &Pieces, machine: &Machine, random: &mut Random) {
    for target in [Target::Memory, Target::Tables] {
        let (start, len) = (random.below(512).into(), random.below(512).into());
        let part = view(target, start, len, &m.memory, &m.tables);
        assert_eq!(machine.view(target, start, len), part);
    }
}

/// The image of both is one, and its machine is this one.
fn same_image(m: &Pieces, machine: &Machine) {
    let pages = m.memory.len() / PAGE_WORDS;
    let mut image = vec![0; m.memory.len() + IMAGE_EXTRA];
    write(&m.state, &m.memory, &m.tables, &mut image).unwrap();
    assert_eq!(machine.write().as_ref(), Ok(&image));
    assert_eq!(Machine::load(&image, pages).as_ref(), Ok(machine));
    for (level, words) in machine.state().0[..LEVEL].chunks(8).enumerate() {
        assert_eq!(machine.register(level, Register::Sts), words[0]);
        assert_eq!(machine.register(level, Register::X), words[7]);
        assert_eq!(machine.pcr(level), machine.state().0[PCR + level]);
    }
    assert_eq!(machine.control(Control::Pgs), machine.state().0[PGS]);
    assert_eq!(machine.control(Control::PgsHeld), machine.state().0[HELD]);
    let extended = machine.control(Control::Extended);
    assert_eq!(extended, machine.state().0[EXTENDED]);
    let devices = Device::ALL.map(|word| machine.device(word));
    assert_eq!(devices, machine.state().0[DEVICES..]);
}

/// Short, and of a state out of range too.
#[test]
fn machine_shown() {
    let mut machine = Machine::load(&IMAGE, 512).unwrap();
    assert_eq!(machine.run(3), Ok(ran(3, Reason::Spent, 3)));
    let shown = format!("{machine:?}");
    assert_eq!(
        shown,
        "Machine { pages: 512, level: 0, p: 000003, stopped: 0, .. }"
    );
    machine.state_mut().0[LEVEL] = 16;
    let shown = format!("{machine:?}");
    assert_eq!(shown, "Machine { pages: 512, level: 16, stopped: 0, .. }");
}
