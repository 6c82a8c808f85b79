//! The cases do what they say, and tell counters that are wrong.
//!
//! The right count is of this module's own: the accesses of each step are listed by
//! a table of the instructions.

use super::programs::{PROGRAMS, STEPS, start};
use super::*;
use crate::answer::Interrupt;
use crate::decode::{Instr, MemOp, Mode, PhysicalOp, decode};
use crate::input::{Input, run_with_input};
use crate::machine::Machine;
use crate::paging::{Access, Place, Table};
use crate::step::{run, step};
use std::collections::{BTreeSet, HashSet};

/// One access of a step.
#[derive(Clone, Copy, Debug)]
struct Reference {
    access: Access,
    passed: bool,
    /// Of the page tables.
    table_word: bool,
    /// By a page table entry.
    by_entry: bool,
    /// Changed a mark.
    marked: bool,
}

/// One step, and the accesses it makes.
#[derive(Clone, Debug)]
struct Step {
    list: Vec<Reference>,
    /// What was executed; none if nothing was fetched.
    instr: Option<Instr>,
    by_exr: bool,
    interrupt: u16,
    level: u16,
    /// A change of level.
    change: bool,
}

impl Step {
    fn accesses(&self, access: Access) -> u64 {
        self.list.iter().filter(|one| one.access == access).count() as u64
    }

    /// Accesses beside the fetch and the indirect word.
    fn operands(&self) -> u64 {
        self.accesses(Access::Read) + self.accesses(Access::Write)
    }

    fn without(&self, drop: impl Fn(&Reference) -> bool) -> u64 {
        self.list.iter().filter(|one| !drop(one)).count() as u64
    }

    fn failed(&self) -> bool {
        self.list.iter().any(|one| !one.passed)
    }
}

/// A machine whose accesses are listed.
struct Lister<'a> {
    machine: Machine<'a>,
    list: Vec<Reference>,
    instr: Option<Instr>,
    by_exr: bool,
}

impl Lister<'_> {
    fn add(&mut self, access: Access, place: &Result<Place, Interrupt>, by_entry: bool) {
        let table_word = matches!(place, Ok(Place::Tables(_)));
        self.list.push(Reference {
            access,
            passed: place.is_ok(),
            table_word,
            by_entry: by_entry && !table_word,
            marked: false,
        });
    }

    fn access(&mut self, address: u16, table: Table, access: Access) -> Result<Place, Interrupt> {
        let paging = self.machine.state.paging_on == 1;
        let before = *self.machine.tables;
        let place = self.machine.access(address, table, access);
        self.add(access, &place, paging);
        if let Some(last) = self.list.last_mut() {
            last.marked = before != *self.machine.tables;
        }
        place
    }

    /// Words from an address on, with one access to each.
    fn words(
        &mut self,
        ea: u16,
        table: Table,
        access: Access,
        words: u16,
    ) -> Result<(), Interrupt> {
        for further in 0..words {
            self.access(ea.wrapping_add(further), table, access)?;
        }
        Ok(())
    }

    /// The word at a physical address: of memory, or of the page tables if these
    /// are reached.
    fn physical(&mut self, address: u64, access: Access, tables: bool) -> Result<(), Interrupt> {
        let window = match self.machine.state.extended {
            0 => 0o177400,
            _ => 0o177000,
        };
        let place = match address {
            _ if tables && (window..0o200000).contains(&address) => Ok(Place::Tables(0)),
            _ if address < self.machine.memory.len() as u64 => Ok(Place::Memory(0)),
            _ => Err(Interrupt::OutOfRange),
        };
        self.add(access, &place, false);
        place.map(|_| ())
    }

    fn memory(&mut self, op: MemOp, mode: Mode, disp: i16, at: u16) -> Result<(), Interrupt> {
        let x = self.machine.get(Reg::X);
        let by_b = self.machine.get(Reg::B).wrapping_add(disp as u16);
        let by_p = at.wrapping_add(disp as u16);
        let (word, table) = match mode {
            Mode::P => return self.operand(op, by_p, Table::Normal),
            Mode::B => return self.operand(op, by_b, Table::Alternate),
            Mode::X => return self.operand(op, x.wrapping_add(disp as u16), Table::Alternate),
            Mode::BX => return self.operand(op, by_b.wrapping_add(x), Table::Alternate),
            Mode::PIndirect | Mode::PIndirectX => (by_p, Table::Normal),
            Mode::BIndirect | Mode::BIndirectX => (by_b, Table::Alternate),
        };
        let place = self.access(word, table, Access::Indirect)?;
        let ea = self.machine.read(place);
        let ea = match mode {
            Mode::PIndirectX | Mode::BIndirectX => ea.wrapping_add(x),
            _ => ea,
        };
        self.operand(op, ea, Table::Alternate)
    }

    fn operand(&mut self, op: MemOp, ea: u16, table: Table) -> Result<(), Interrupt> {
        use Access::{Read, Write};
        match op {
            MemOp::Stz | MemOp::Sta | MemOp::Stt | MemOp::Stx => self.words(ea, table, Write, 1),
            MemOp::Std => self.words(ea, table, Write, 2),
            MemOp::Stf => self.words(ea, table, Write, 3),
            MemOp::Ldd => self.words(ea, table, Read, 2),
            MemOp::Ldf => self.words(ea, table, Read, 3),
            MemOp::Min => {
                self.words(ea, table, Read, 1)?;
                self.words(ea, table, Write, 1)
            }
            MemOp::Jmp | MemOp::Jpl => Ok(()),
            _ => self.words(ea, table, Read, 1),
        }
    }

    fn permitted(&self) -> Result<(), Interrupt> {
        let state = &self.machine.state;
        let ring = state.pcr[usize::from(state.level)] & 3;
        if state.paging_on == 0 || ring >= 2 {
            Ok(())
        } else {
            Err(Interrupt::Privileged)
        }
    }

    fn seven(&mut self, op: PhysicalOp, disp: u16) -> Result<(), Interrupt> {
        use Access::{Read, Write};
        let [t, x] = [Reg::T, Reg::X].map(|reg| u64::from(self.machine.get(reg)));
        let p = 65_536 * t + x + u64::from(disp);
        let (access, words) = match op {
            PhysicalOp::Lddtx => (Read, 2),
            PhysicalOp::Stdtx => (Write, 2),
            PhysicalOp::Statx | PhysicalOp::Stztx => (Write, 1),
            _ => (Read, 1),
        };
        (p..p + words).try_for_each(|address| self.physical(address, access, true))
    }

    /// The accesses of the step, up to the one that fails.
    fn step(&mut self) -> Result<(), Interrupt> {
        let at = self.machine.get(Reg::P);
        let place = self.access(at, Table::Normal, Access::Fetch)?;
        let word = self.machine.read(place);
        self.machine.set(Reg::P, at.wrapping_add(1));
        let instr = match decode(word) {
            Instr::Exr { src } => {
                self.by_exr = true;
                decode(self.machine.operand(src))
            }
            instr => instr,
        };
        self.instr = Some(instr);
        let [a, d, t, x] = [Reg::A, Reg::D, Reg::T, Reg::X].map(|reg| self.machine.get(reg));
        let byte = t.wrapping_add(x / 2);
        match instr {
            Instr::Memory { op, mode, disp } => return self.memory(op, mode, disp, at),
            Instr::Lbyt => return self.words(byte, Table::Alternate, Access::Read, 1),
            Instr::Sbyt => {
                self.words(byte, Table::Alternate, Access::Read, 1)?;
                return self.words(byte, Table::Alternate, Access::Write, 1);
            }
            _ => self.permitted()?,
        }
        let long = u64::from(a) << 16 | u64::from(d);
        match instr {
            Instr::Srb { .. } => self.words(x, Table::Alternate, Access::Write, 8),
            Instr::Lrb { .. } => self.words(x, Table::Alternate, Access::Read, 8),
            Instr::Exam => self.physical(long, Access::Read, false),
            Instr::Depo => self.physical(long, Access::Write, false),
            Instr::Physical { op, disp } => self.seven(op, disp),
            _ => Ok(()),
        }
    }
}

/// Lists the next step of a case, and takes it.
fn take(case: &mut Case) -> Step {
    let (mut state, mut tables) = (case.state.clone(), case.tables.clone());
    let level = state.level;
    let change = state.change_due();
    let machine = Machine::new(&mut state, &mut case.memory, &mut tables);
    let mut lister = Lister {
        machine: machine.expect("in range"),
        list: Vec::new(),
        instr: None,
        by_exr: false,
    };
    let expected = match change {
        true => None,
        false => lister.step().err(),
    };
    let (list, instr, by_exr) = (lister.list, lister.instr, lister.by_exr);
    let answer = step(&mut case.state, &mut case.memory, &mut case.tables).expect("in range");
    // A failing access is the step's interrupt.
    if list.last().is_some_and(|last| !last.passed) {
        assert_eq!(answer, expected, "{}", case.line());
    }
    Step {
        list,
        instr,
        by_exr,
        interrupt: answer.map_or(0, Interrupt::number),
        level,
        change,
    }
}

/// The steps of a run from input to input; of one without input all in one part.
type Parts = Vec<Vec<Step>>;

/// A run to `steps` in all; whether it ended there.
fn part(case: &mut Case, taken: &mut u64, steps: u64, first: bool) -> (Vec<Step>, bool) {
    let mut part = Vec::new();
    loop {
        if case.state.stopped == 1 || first && case.state.change_due() {
            return (part, true);
        }
        if *taken >= steps {
            return (part, false);
        }
        let step = take(case);
        *taken += 1;
        let interrupt = step.interrupt != 0;
        part.push(step);
        if first && interrupt {
            return (part, true);
        }
    }
}

/// The parts of a case's run, none if it is refused.
fn trace(case: &Case) -> Parts {
    let mut end = case.clone();
    if end.clone().act().0 != 0 {
        return Vec::new();
    }
    let mut taken = 0;
    let (steps, inputs) = match &case.operation {
        Operation::Through(steps) => return vec![part(&mut end, &mut taken, *steps, false).0],
        Operation::ToInterrupt(steps) => return vec![part(&mut end, &mut taken, *steps, true).0],
        Operation::WithInput(steps, inputs) => (*steps, inputs),
        _ => panic!("no run: {}", case.line()),
    };
    let mut parts = Vec::new();
    for &(at, word) in inputs.iter().take_while(|input| input.0 <= steps) {
        let (steps, ended) = part(&mut end, &mut taken, at, true);
        parts.push(steps);
        if ended {
            return parts;
        }
        let (state, memory, tables) = (&mut end.state, &mut end.memory, &mut end.tables);
        let handed = run_with_input(state, memory, tables, 0, &[(0, Input::from_word(word))]);
        assert_eq!(handed.expect("in range").told.len(), 1);
    }
    parts.push(part(&mut end, &mut taken, steps, true).0);
    parts
}

macro_rules! slips {
    ($($slip:ident)*) => {
        /// How a counter is wrong.
        #[derive(Clone, Copy, Debug, PartialEq)]
        enum Slip {
            /// Not at all.
            None,
            $($slip,)*
        }

        const WRONG: &[Slip] = &[$(Slip::$slip,)*];
    };
}

// Which accesses; what fails; what is no access; steps; runs.
slips! {
    IndirectNotCounted JumpIndirectNotCounted MinOnce SbytOnce LbytTwice FirstWordOnly BlockOnce
    OwnBlockOnce OwnBlockNoPWord SevenNotCounted SevenSecondNotCounted ExamNotCounted
    WindowNotCounted PagingOffNotCounted

    FailingNotCounted FailedFetchZero FailedBlockWhole FailedOperandWhole PastMemoryNotCounted
    NineNotCounted WriteTestNotCounted

    ExrCounts JumpCountsTarget DeviceCounts NoDeviceCounts MarksCounted LookupsCounted
    InterruptCounts

    InterruptedNotCounted PrivilegedZero PrivilegedWhole IllegalZero MonitorCallZero WaitZero
    ChangeCounts

    LastStepLeftOut FirstStepLeftOut LastPartOnly FirstPartOnly EmptyRunCounts SixteenBits
    EightBits StepsInstead
}

/// How many words an instruction would reach if nothing failed.
fn whole(instr: Instr) -> u64 {
    match instr {
        Instr::Memory { op, .. } => match op {
            MemOp::Jmp | MemOp::Jpl => 0,
            MemOp::Std | MemOp::Ldd | MemOp::Min => 2,
            MemOp::Stf | MemOp::Ldf => 3,
            _ => 1,
        },
        Instr::Lbyt | Instr::Exam | Instr::Depo => 1,
        Instr::Sbyt => 2,
        Instr::Srb { .. } | Instr::Lrb { .. } => 8,
        Instr::Physical { op, .. } => match op {
            PhysicalOp::Lddtx | PhysicalOp::Stdtx => 2,
            _ => 1,
        },
        _ => 0,
    }
}

/// What a counter makes of a step.
fn counted(step: &Step, slip: Slip) -> u64 {
    let right = step.list.len() as u64;
    let indirect = step.accesses(Access::Indirect);
    let no_operand = right - step.operands();
    let first_operand = no_operand + 1.min(step.operands());
    let more = |more: fn(&Reference) -> bool| right + right - step.without(more);
    let op = match step.instr {
        Some(Instr::Memory { op, .. }) => Some(op),
        _ => None,
    };
    let is = |instr: Instr| step.instr == Some(instr);
    let block = matches!(step.instr, Some(Instr::Srb { .. } | Instr::Lrb { .. }));
    let own = matches!(step.instr, Some(Instr::Lrb { level }) if level == step.level);
    let jump = matches!(op, Some(MemOp::Jmp | MemOp::Jpl));
    let seven = matches!(step.instr, Some(Instr::Physical { .. }));
    let exam = is(Instr::Exam) || is(Instr::Depo);
    let ident = matches!(step.instr, Some(Instr::Ident { .. }));
    let device = ident || is(Instr::Ioxt) || matches!(step.instr, Some(Instr::Iox { .. }));
    let read_and_written = step.accesses(Access::Read) == 1 && step.accesses(Access::Write) == 1;
    match slip {
        Slip::IndirectNotCounted => right - indirect,
        Slip::JumpIndirectNotCounted if jump => right - indirect,
        Slip::MinOnce if op == Some(MemOp::Min) => first_operand,
        Slip::SbytOnce if is(Instr::Sbyt) => first_operand,
        Slip::LbytTwice if is(Instr::Lbyt) && !step.failed() => right + 1,
        Slip::FirstWordOnly if op.is_some() && op != Some(MemOp::Min) => first_operand,
        Slip::BlockOnce if block => first_operand,
        Slip::OwnBlockOnce if own => first_operand,
        Slip::OwnBlockNoPWord if own && step.operands() > 0 => right - 1,
        Slip::SevenNotCounted if seven => no_operand,
        Slip::SevenSecondNotCounted if seven => first_operand,
        Slip::ExamNotCounted if exam => no_operand,
        Slip::WindowNotCounted => step.without(|one| one.table_word),
        Slip::PagingOffNotCounted => step.without(|one| !one.by_entry && !one.table_word),
        Slip::FailingNotCounted => step.without(|one| !one.passed),
        Slip::FailedFetchZero if step.failed() && step.instr.is_none() => 0,
        Slip::FailedBlockWhole if block && step.failed() => 9,
        Slip::FailedOperandWhole if op.is_some() && step.failed() && step.operands() > 0 => {
            no_operand + step.instr.map_or(0, whole)
        }
        Slip::PastMemoryNotCounted if exam => step.without(|one| !one.passed),
        Slip::NineNotCounted if step.interrupt == 9 => right - 1,
        Slip::WriteTestNotCounted if read_and_written && step.failed() => right - 1,
        Slip::ExrCounts if step.by_exr => right + 1,
        Slip::JumpCountsTarget if jump && !step.failed() => right + 1,
        Slip::DeviceCounts if device && step.interrupt == 0 => right + 1,
        Slip::NoDeviceCounts if step.interrupt == 7 => right + 1,
        Slip::MarksCounted => more(|one| one.marked),
        Slip::LookupsCounted => more(|one| one.by_entry),
        Slip::InterruptCounts if step.interrupt != 0 => right + 1,
        Slip::InterruptedNotCounted if step.interrupt != 0 => 0,
        Slip::PrivilegedZero if step.interrupt == 6 => 0,
        Slip::PrivilegedWhole if step.interrupt == 6 => right + step.instr.map_or(0, whole),
        Slip::IllegalZero if step.interrupt == 4 => 0,
        Slip::MonitorCallZero if step.interrupt == 1 => 0,
        Slip::WaitZero if is(Instr::Wait) => 0,
        Slip::ChangeCounts if step.change => 1,
        _ => right,
    }
}

/// What a counter answers for a run.
fn total(parts: &Parts, slip: Slip) -> u64 {
    let sum = |steps: &[Step]| -> u64 { steps.iter().map(|step| counted(step, slip)).sum() };
    let all: u64 = parts.iter().map(|part| sum(part)).sum();
    let mut steps = parts.iter().flatten();
    match slip {
        Slip::LastStepLeftOut => all - steps.next_back().map_or(0, |step| counted(step, slip)),
        Slip::FirstStepLeftOut => all - steps.next().map_or(0, |step| counted(step, slip)),
        Slip::LastPartOnly => parts.last().map_or(0, |part| sum(part)),
        Slip::FirstPartOnly => parts.first().map_or(0, |part| sum(part)),
        Slip::EmptyRunCounts if !parts.is_empty() && steps.next().is_none() => 1,
        Slip::SixteenBits => all % 65_536,
        Slip::EightBits => all % 256,
        Slip::StepsInstead => steps.count() as u64,
        _ => all,
    }
}

fn all() -> Vec<Case> {
    [
        instructions(),
        executed(),
        window(),
        faults(),
        ends(),
        programs(),
        input(),
        random(),
    ]
    .concat()
}

/// The references that the engine answers.
fn answered(case: &Case) -> u64 {
    case.clone().act().3
}

#[test]
fn followed_as_answered() {
    for case in all() {
        assert_eq!(
            total(&trace(&case), Slip::None),
            answered(&case),
            "{}",
            case.line()
        );
    }
}

#[test]
fn wrong_counters_show() {
    let cases = all();
    let traces: Vec<_> = cases.iter().map(trace).collect();
    for &slip in WRONG {
        let mut labels = BTreeSet::new();
        let mut found = 0;
        for (case, parts) in cases.iter().zip(&traces) {
            if total(parts, slip) != total(parts, Slip::None) {
                found += 1;
                labels.insert(case.label);
            }
        }
        println!("{slip:?}: {found} cases, {labels:?}");
        assert!(found >= 5, "{slip:?}: {found}");
    }
}

/// A register block makes the most: nine.
#[test]
fn at_most_nine() {
    let mut most = 0;
    for case in all() {
        for step in trace(&case).iter().flatten() {
            most = most.max(step.list.len());
        }
    }
    assert_eq!(most, 9);
}

/// An instruction without its operands.
fn kind(instr: Instr) -> String {
    match instr {
        Instr::Memory { op, mode, .. } => format!("{op:?} {mode:?}"),
        Instr::Jump { cond, .. } => format!("{cond:?}"),
        Instr::Skip { cond, .. } => format!("{cond:?}"),
        Instr::Logic { op, .. } => format!("{op:?}"),
        Instr::Radd { one, .. } => format!("add {one:?}"),
        Instr::Shift { reg, kind, .. } => format!("{kind:?} {reg:?}"),
        Instr::SetArg { reg, .. } => format!("set {reg:?}"),
        Instr::AddArg { reg, .. } => format!("add {reg:?}"),
        Instr::Bit { op, .. } => format!("bit {op:?}"),
        Instr::Transfer(transfer) => format!("{transfer:?}"),
        Instr::Physical { op, .. } => format!("{op:?}"),
        Instr::Exr { .. } => "Exr".to_string(),
        other => {
            let text = format!("{other:?}");
            text.split(' ').next().unwrap_or_default().to_string()
        }
    }
}

/// The only step of a run of one.
fn only(case: &Case) -> Option<(Step, bool)> {
    let first = match case.operation {
        Operation::Through(1) => false,
        Operation::ToInterrupt(1) => true,
        _ => return None,
    };
    let mut parts = trace(case);
    Some((parts.pop()?.pop()?, first))
}

/// Every instruction is executed in each mode and by each form, and without EXR.
#[test]
fn every_instruction_is_there() {
    let mut seen = HashSet::new();
    for case in instructions() {
        let Some((step, first)) = only(&case) else {
            continue;
        };
        let Some(instr) = step.instr else { continue };
        if step.interrupt != 6 {
            seen.insert((kind(instr), step.by_exr, case.state.extended == 1));
            seen.insert((
                format!("{} by form {first}", kind(instr)),
                step.by_exr,
                false,
            ));
        }
    }
    for word in 0..=u16::MAX {
        let kind = kind(decode(word));
        if kind == "Exr" {
            continue;
        }
        for extended in MODES {
            let sought = (kind.clone(), false, extended);
            assert!(seen.contains(&sought), "{kind} {extended}");
            let sought = (format!("{kind} by form {extended}"), false, false);
            assert!(seen.contains(&sought), "{kind} by form {extended}");
        }
    }
}

/// 2, 3 and 9 at every access of the instructions that have several.
#[test]
fn every_access_fails() {
    let mut seen = HashSet::new();
    for case in [faults(), window()].concat() {
        let Some((step, _)) = only(&case) else {
            continue;
        };
        if !step.failed() {
            continue;
        }
        let name = step.instr.map_or_else(|| "fetch".to_string(), kind);
        seen.insert((name, step.list.len(), step.interrupt));
    }
    let expect = |name: &str, count: usize, numbers: &[u16]| {
        for number in numbers {
            let sought = (name.to_string(), count, *number);
            assert!(seen.contains(&sought), "{sought:?}");
        }
    };
    expect("fetch", 1, &[2, 3, 9]);
    for op in ["Lda", "Stf", "Min", "Jmp", "Jpl"] {
        for mode in ["PIndirect", "BIndirect", "PIndirectX", "BIndirectX"] {
            expect(&format!("{op} {mode}"), 2, &[2, 3, 9]);
        }
    }
    for (op, words) in [("Std", 2), ("Ldd", 2), ("Stf", 3), ("Ldf", 3)] {
        for word in 0..words {
            expect(&format!("{op} X"), 2 + word, &[2, 3, 9]);
            expect(&format!("{op} PIndirect"), 3 + word, &[2, 3, 9]);
        }
    }
    // At the read, and at the write.
    for (name, fetched) in [("Min X", 1), ("Min PIndirect", 2), ("Sbyt", 1)] {
        expect(name, fetched + 1, &[2, 3, 9]);
        expect(name, fetched + 2, &[2]);
    }
    expect("Lbyt", 2, &[2, 3, 9]);
    for word in 0..8 {
        expect("Srb", 2 + word, &[2, 3, 9]);
        expect("Lrb", 2 + word, &[2, 3, 9]);
    }
    for name in ["Exam", "Depo", "Ldatx", "Ldxtx", "Ldbtx", "Statx", "Stztx"] {
        expect(name, 2, &[9]);
    }
    for name in ["Lddtx", "Stdtx"] {
        expect(name, 2, &[9]);
        expect(name, 3, &[9]);
    }
}

/// A program's run of a + b steps has the references of a, and of b from there.
#[test]
fn parts_add_up() {
    for (program, extended) in PROGRAMS
        .iter()
        .flat_map(|one| MODES.map(|mode| (one, mode)))
    {
        for (a, b) in STEPS.into_iter().zip(STEPS.into_iter().rev()) {
            let start = start(program, extended);
            let go = |case: &mut Case, steps| {
                let (state, memory, tables) = (&mut case.state, &mut case.memory, &mut case.tables);
                run(state, memory, tables, steps, false).expect("in range")
            };
            let (mut one, mut two) = (start.clone(), start);
            let (first, second) = (go(&mut one, a), go(&mut one, b));
            let both = go(&mut two, a + b);
            assert_eq!(both.references, first.references + second.references);
            assert_eq!(both.steps, first.steps + second.steps);
            assert_eq!(one.state, two.state);
        }
    }
}

/// Runs with input have several parts with steps in them, and end in all four ways.
#[test]
fn inputs_part_the_runs() {
    let mut ends = HashSet::new();
    let mut parted = 0;
    for case in input() {
        let parts = trace(&case);
        let filled = parts.iter().filter(|part| !part.is_empty()).count();
        parted += usize::from(filled > 1);
        ends.insert((case.clone().act().1 % 8, filled > 1));
    }
    assert!(parted >= 40, "{parted}");
    assert_eq!(ends.len(), 8, "{ends:?}");
}

/// Programs change levels, fail, and run to the end.
#[test]
fn programs_do_much() {
    let mut changes = 0;
    let mut numbers = BTreeSet::new();
    let mut longest = 0;
    for case in programs() {
        let parts = trace(&case);
        let steps: Vec<_> = parts.iter().flatten().collect();
        changes += steps.iter().filter(|step| step.change).count();
        numbers.extend(steps.iter().map(|step| step.interrupt));
        longest = longest.max(steps.len());
    }
    assert!(changes > 1_000, "{changes}");
    assert_eq!(numbers, BTreeSet::from([0, 1, 2, 3, 4, 5, 6, 7, 9]));
    assert_eq!(longest, 20_000);
}
