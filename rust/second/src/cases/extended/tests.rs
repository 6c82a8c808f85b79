//! The cases do what they say, and tell engines that are wrong about extended
//! mode.

use super::*;
use crate::answer::Interrupt;
use crate::decode::{Instr, MemOp, Mode, PhysicalOp, Transfer, decode};
use crate::machine::Machine;
use crate::paging::{Access, Place, Table};
use crate::state::{State, flag};
use std::collections::HashSet;

/// How an engine is wrong.
#[derive(Clone, Copy, Debug, PartialEq)]
enum Slip {
    /// Not at all.
    None,
    /// Not at all: remembers the page of the last fetch, and forgets it whenever
    /// it must.
    Remembers,
    CarryDropped,
    PageOfFirstWord,
    ShortPageInSecond,
    WholeSecondWord,
    MarkInSecond,
    MarkUndoubled,
    MarkClearsUnused,
    StatusDoubled,
    ShortWindow,
    LongWindow,
    StoresBeforeTest,
    LoadsBeforeTest,
    AddressDoubled,
    Adds,
    FlagGrants,
    SevenUnprivileged,
    SwitchUnprivileged,
    PrivilegeBeforeIllegal,
    BlindToTables,
    WindowByRing,
    SevenByEntries,
    ClearsTables,
    TurnsPagingOn,
    BitTwelve,
    TransferWritesFlag,
    ResetLeavesFlag,
    Wraps24,
    Wraps16,
    NoDisplacementInSecond,
    RemembersOverSwitch,
    RemembersOverSecond,
    WindowInEveryBank,
    ExrRefuses,
}

const WRONG: [Slip; 33] = [
    Slip::CarryDropped,
    Slip::PageOfFirstWord,
    Slip::ShortPageInSecond,
    Slip::WholeSecondWord,
    Slip::MarkInSecond,
    Slip::MarkUndoubled,
    Slip::MarkClearsUnused,
    Slip::StatusDoubled,
    Slip::ShortWindow,
    Slip::LongWindow,
    Slip::StoresBeforeTest,
    Slip::LoadsBeforeTest,
    Slip::AddressDoubled,
    Slip::Adds,
    Slip::FlagGrants,
    Slip::SevenUnprivileged,
    Slip::SwitchUnprivileged,
    Slip::PrivilegeBeforeIllegal,
    Slip::BlindToTables,
    Slip::WindowByRing,
    Slip::SevenByEntries,
    Slip::ClearsTables,
    Slip::TurnsPagingOn,
    Slip::BitTwelve,
    Slip::TransferWritesFlag,
    Slip::ResetLeavesFlag,
    Slip::Wraps24,
    Slip::Wraps16,
    Slip::NoDisplacementInSecond,
    Slip::RemembersOverSwitch,
    Slip::RemembersOverSecond,
    Slip::WindowInEveryBank,
    Slip::ExrRefuses,
];

const MARK: u16 = 0o004000;
const WIP: u16 = 0o010000;

/// An engine of its own for what the mode bears on; the rest is the right one.
struct Engine<'a> {
    machine: Machine<'a>,
    slip: Slip,
    /// Virtual page of the last fetch and where it is, by some slips.
    known: Option<(u16, usize)>,
}

impl Engine<'_> {
    fn is(&self, slip: Slip) -> bool {
        self.slip == slip
    }

    fn extended(&self) -> bool {
        self.machine.state.extended == 1
    }

    fn ring(&self) -> u16 {
        self.machine.state.pcr[usize::from(self.machine.state.level)] & 3
    }

    fn paging(&self) -> bool {
        self.machine.state.paging_on == 1
    }

    fn window(&self) -> u16 {
        match self.slip {
            Slip::ShortWindow => 0o177400,
            Slip::LongWindow => 0o177000,
            _ if self.extended() => 0o177000,
            _ => 0o177400,
        }
    }

    fn access(&mut self, address: u16, table: Table, access: Access) -> Result<Place, Interrupt> {
        let (paging, ring) = (self.paging(), self.ring());
        let window = self.window();
        if address >= window && (!paging || ring == 3) {
            return Ok(Place::Tables(usize::from(address - window)));
        }
        if !paging {
            return self.machine.physical(address.into());
        }
        let level = usize::from(self.machine.state.level);
        let pcr = self.machine.state.pcr[level];
        let ptm = self.machine.get(Reg::Sts) & flag::PTM != 0;
        let number = match table {
            Table::Alternate if ptm => pcr >> 7 & 3,
            _ => pcr >> 9 & 3,
        };
        let slot = usize::from(number << 6 | address >> 10);
        let (first, second) = match self.extended() {
            true => (2 * slot, 2 * slot + 1),
            false => (slot, slot),
        };
        let word = self.machine.tables[first];
        let page = self.machine.tables[second];
        let page = usize::from(match self.slip {
            _ if !self.extended() => page & 0o777,
            Slip::PageOfFirstWord => word & 0o777,
            Slip::ShortPageInSecond => page & 0o777,
            Slip::WholeSecondWord => page,
            _ => page & 0o37777,
        });
        let needed = match access {
            Access::Fetch => 0o020000,
            Access::Indirect => 0o060000,
            Access::Read => 0o040000,
            Access::Write => 0o100000,
        };
        let doubled = self.is(Slip::StatusDoubled) && self.extended();
        let mut status = (if doubled { 2 * slot % 256 } else { slot }) as u16;
        if access == Access::Fetch {
            status |= 0o100000;
        }
        if word & needed == 0 {
            self.machine.state.report_fault(status | 0o040000);
            return Err(match word & PERMITS {
                0 => Interrupt::PageFault,
                _ => Interrupt::Protect,
            });
        }
        if word >> 9 & 3 > ring {
            self.machine.state.report_fault(status);
            return Err(Interrupt::Protect);
        }
        let at = page * PAGE + usize::from(address) % PAGE;
        if at >= self.machine.memory.len() {
            return Err(Interrupt::OutOfRange);
        }
        if access == Access::Fetch {
            self.machine.state.pcr[level] = pcr & !3 | word >> 9 & 3;
        }
        let marked = match (self.slip, self.extended()) {
            (Slip::MarkInSecond, true) => second,
            (Slip::MarkUndoubled, true) => slot,
            _ => first,
        };
        let mark = if access == Access::Write {
            WIP | MARK
        } else {
            MARK
        };
        self.machine.tables[marked] |= mark;
        if self.is(Slip::MarkClearsUnused) && self.extended() {
            self.machine.tables[first] &= !0o777;
        }
        Ok(Place::Memory(at))
    }

    fn load<const N: usize>(&mut self, ea: u16, table: Table) -> Result<[u16; N], Interrupt> {
        let mut words = [0; N];
        for (word, offset) in words.iter_mut().zip(0..) {
            let place = self.access(ea.wrapping_add(offset), table, Access::Read)?;
            *word = self.machine.read(place);
        }
        Ok(words)
    }

    fn store<const N: usize>(
        &mut self,
        ea: u16,
        table: Table,
        words: [u16; N],
    ) -> Result<(), Interrupt> {
        let mut places = Vec::new();
        for offset in 0..N as u16 {
            places.push(self.access(ea.wrapping_add(offset), table, Access::Write)?);
        }
        for (place, word) in places.into_iter().zip(words) {
            self.machine.store(place, word);
        }
        Ok(())
    }

    fn effective(&mut self, mode: Mode, disp: i16, at: u16) -> Result<(u16, Table), Interrupt> {
        let by_p = at.wrapping_add(disp as u16);
        let by_b = self.machine.get(Reg::B).wrapping_add(disp as u16);
        let (address, table, x) = match mode {
            Mode::PIndirect => (by_p, Table::Normal, 0),
            Mode::BIndirect => (by_b, Table::Alternate, 0),
            Mode::PIndirectX => (by_p, Table::Normal, self.machine.get(Reg::X)),
            Mode::BIndirectX => (by_b, Table::Alternate, self.machine.get(Reg::X)),
            _ => return self.machine.effective(mode, disp, at),
        };
        let place = self.access(address, table, Access::Indirect)?;
        let word = self.machine.read(place);
        Ok((word.wrapping_add(x), Table::Alternate))
    }

    /// Those that add, multiply or mask are left to the right engine.
    fn memory(&mut self, op: MemOp, ea: u16, table: Table) -> Result<(), Interrupt> {
        let [a, d, t, x] = [Reg::A, Reg::D, Reg::T, Reg::X].map(|reg| self.machine.get(reg));
        match op {
            MemOp::Stz => self.store(ea, table, [0])?,
            MemOp::Sta => self.store(ea, table, [a])?,
            MemOp::Stt => self.store(ea, table, [t])?,
            MemOp::Stx => self.store(ea, table, [x])?,
            MemOp::Std => self.store(ea, table, [a, d])?,
            MemOp::Stf => self.store(ea, table, [t, a, d])?,
            MemOp::Lda | MemOp::Ldt | MemOp::Ldx => {
                let [word] = self.load(ea, table)?;
                let reg = match op {
                    MemOp::Lda => Reg::A,
                    MemOp::Ldt => Reg::T,
                    _ => Reg::X,
                };
                self.machine.set(reg, word);
            }
            MemOp::Ldd => {
                let [a, d] = self.load(ea, table)?;
                self.machine.set(Reg::A, a);
                self.machine.set(Reg::D, d);
            }
            MemOp::Ldf => {
                let [t, a, d] = self.load(ea, table)?;
                self.machine.set(Reg::T, t);
                self.machine.set(Reg::A, a);
                self.machine.set(Reg::D, d);
            }
            MemOp::Min => {
                let [word] = self.load(ea, table)?;
                self.store(ea, table, [word.wrapping_add(1)])?;
                if word == 0o177777 {
                    self.machine.skip();
                }
            }
            MemOp::Jpl => {
                self.machine.set(Reg::L, self.machine.get(Reg::P));
                self.machine.set(Reg::P, ea);
            }
            _ => self.machine.set(Reg::P, ea),
        }
        Ok(())
    }

    /// Where the seven find an address.
    fn place(&mut self, p: u64, access: Access) -> Result<Place, Interrupt> {
        if self.is(Slip::SevenByEntries) && self.paging() && p < 65_536 {
            return self.access(p as u16, Table::Normal, access);
        }
        let p = match self.slip {
            Slip::Wraps24 => p % 16_777_216,
            Slip::Wraps16 => p % 65_536,
            _ => p,
        };
        let window = u64::from(self.window());
        let seen = match self.slip {
            Slip::BlindToTables => false,
            Slip::WindowByRing => !self.paging() || self.ring() == 3,
            _ => true,
        };
        let bank = if self.is(Slip::WindowInEveryBank) {
            p % 65_536
        } else {
            p
        };
        if seen && (window..65_536).contains(&bank) {
            return Ok(Place::Tables((bank - window) as usize));
        }
        self.machine.physical(p)
    }

    fn physical(&mut self, op: PhysicalOp, disp: u16) -> Result<(), Interrupt> {
        use PhysicalOp::*;
        let [a, d, t, x] = [Reg::A, Reg::D, Reg::T, Reg::X].map(|reg| self.machine.get(reg));
        let sum = |further: u16| match self.slip {
            Slip::CarryDropped => u64::from(t) << 16 | u64::from(x.wrapping_add(further)),
            _ => (u64::from(t) << 16) + u64::from(x) + u64::from(further),
        };
        let p = sum(disp);
        let next = match self.slip {
            Slip::NoDisplacementInSecond => sum(1),
            _ => sum(disp + 1),
        };
        let access = match op {
            Statx | Stztx | Stdtx => Access::Write,
            _ => Access::Read,
        };
        let first = self.place(p, access)?;
        let word = self.machine.read(first);
        match op {
            Ldatx => self.machine.set(Reg::A, word),
            Ldxtx => self.machine.set(Reg::X, word),
            Lddtx => {
                if self.is(Slip::LoadsBeforeTest) {
                    self.machine.set(Reg::A, word);
                }
                let second = self.place(next, access)?;
                self.machine.set(Reg::A, word);
                self.machine.set(Reg::D, self.machine.read(second));
            }
            Ldbtx => {
                let value = match self.slip {
                    Slip::AddressDoubled => {
                        let place = self.place(2 * p, access)?;
                        0o177000 | self.machine.read(place)
                    }
                    Slip::Adds => 0o177000_u16.wrapping_add(word << 1),
                    _ => 0o177000 | word << 1,
                };
                self.machine.set(Reg::B, value);
            }
            Statx => self.machine.store(first, a),
            Stztx => self.machine.store(first, 0),
            Stdtx => {
                if self.is(Slip::StoresBeforeTest) {
                    self.machine.store(first, a);
                }
                let second = self.place(next, access)?;
                self.machine.store(first, a);
                self.machine.store(second, d);
            }
        }
        Ok(())
    }

    /// Whether the ring lets a privileged instruction be.
    fn permitted(&self, instr: Instr) -> bool {
        let seven = matches!(instr, Instr::Physical { .. });
        let switch = matches!(instr, Instr::Sex | Instr::Rex);
        !self.paging()
            || self.ring() >= 2
            || self.is(Slip::FlagGrants) && self.extended()
            || self.is(Slip::SevenUnprivileged) && seven
            || self.is(Slip::SwitchUnprivileged) && switch
    }

    fn perform(&mut self, word: u16, at: u16) -> Result<(), Interrupt> {
        let (instr, by_exr) = match decode(word) {
            Instr::Exr { src } => (decode(self.machine.operand(src)), true),
            instr => (instr, false),
        };
        let seven = word & !0o77 == 0o143300;
        if self.is(Slip::PrivilegeBeforeIllegal) && seven && !self.permitted(instr) {
            return Err(Interrupt::Privileged);
        }
        if self.is(Slip::ExrRefuses) && by_exr && matches!(instr, Instr::Physical { .. }) {
            return Err(Interrupt::Illegal);
        }
        match instr {
            Instr::Physical { .. } | Instr::Sex | Instr::Rex if !self.permitted(instr) => {
                return Err(Interrupt::Privileged);
            }
            Instr::Physical { op, disp } => return self.physical(op, disp),
            Instr::Sex => {
                self.machine.state.extended = 1;
                match self.slip {
                    Slip::ClearsTables => self.machine.tables.fill(0),
                    Slip::TurnsPagingOn => self.machine.state.paging_on = 1,
                    _ => {}
                }
            }
            Instr::Rex if self.is(Slip::ResetLeavesFlag) => {}
            Instr::Rex => self.machine.state.extended = 0,
            Instr::Memory { op, mode, disp }
                if !matches!(
                    op,
                    MemOp::Add | MemOp::Sub | MemOp::And | MemOp::Ora | MemOp::Mpy
                ) =>
            {
                let (ea, table) = self.effective(mode, disp, at)?;
                return self.memory(op, ea, table);
            }
            Instr::Transfer(Transfer::TraSts)
                if self.permitted(instr) && self.is(Slip::BitTwelve) =>
            {
                self.machine.execute(0o150001, at)?;
                let status = self.machine.get(Reg::A) & !0o030000;
                self.machine
                    .set(Reg::A, status | self.machine.state.extended << 12);
            }
            Instr::Transfer(Transfer::TrrSts)
                if self.permitted(instr) && self.is(Slip::TransferWritesFlag) =>
            {
                self.machine.execute(0o150101, at)?;
                self.machine.state.extended = self.machine.get(Reg::A) >> 13 & 1;
            }
            _ => return self.machine.execute(word, at),
        }
        Ok(())
    }

    fn instruction(&mut self) -> Result<(), Interrupt> {
        let at = self.machine.get(Reg::P);
        let remembers = [
            Slip::Remembers,
            Slip::RemembersOverSwitch,
            Slip::RemembersOverSecond,
        ];
        let known = self.known.filter(|known| known.0 == at >> 10);
        let known = known.filter(|_| at < self.window() || self.ring() < 3 && self.paging());
        let offset = usize::from(at) % PAGE;
        let place = match known {
            Some((_, base)) => Place::Memory(base + offset),
            None => self.access(at, Table::Normal, Access::Fetch)?,
        };
        if let Place::Memory(place) = place
            && remembers.contains(&self.slip)
        {
            self.known = Some((at >> 10, place - offset));
        }
        let word = self.machine.read(place);
        self.machine.set(Reg::P, at.wrapping_add(1));
        let before = (self.machine.state.clone(), *self.machine.tables);
        let result = self.perform(word, at);
        self.forget(&before.0, &before.1);
        result
    }

    /// A page that is remembered is forgotten where it must be, but for the slip.
    fn forget(&mut self, before: &State, tables: &[u16; TABLE_WORDS]) {
        if self.known.is_none() {
            return;
        }
        let now = &*self.machine.state;
        let seconds = self.is(Slip::RemembersOverSecond) && self.extended();
        let switched = before.extended != now.extended && !self.is(Slip::RemembersOverSwitch);
        let words = self.machine.tables.iter().zip(tables).enumerate();
        let written = words
            .filter(|(index, _)| !seconds || index % 2 == 0)
            .any(|(_, (new, old))| new & !(MARK | WIP) != old & !(MARK | WIP) || old & !new != 0);
        if switched || written || before.pcr != now.pcr || before.paging_on != now.paging_on {
            self.known = None;
        }
    }

    fn step(&mut self) -> Option<Interrupt> {
        let state = &mut *self.machine.state;
        if state.change_due() {
            state.pvl = state.level;
            state.level = state.highest_level();
            self.known = None;
            return None;
        }
        let result = self.instruction().err();
        if let Some(interrupt) = result {
            self.machine.state.interrupt(interrupt.number());
        }
        result
    }
}

/// What a step or a run of the case leaves, by such an engine: the interrupts of
/// the steps, and the machine. None if it is no step and no run, or refused.
fn follow(case: &Case, slip: Slip) -> Option<(Vec<u16>, Case)> {
    let (steps, first) = match case.operation {
        Operation::Step => (1, false),
        Operation::Through(steps) => (steps, false),
        Operation::ToInterrupt(steps) => (steps, true),
        _ => return None,
    };
    let mut end = case.clone();
    let machine = Machine::new(&mut end.state, &mut end.memory, &mut end.tables).ok()?;
    let mut engine = Engine {
        machine,
        slip,
        known: None,
    };
    let mut interrupts = Vec::new();
    for _ in 0..steps {
        let state = &engine.machine.state;
        if state.stopped == 1 || first && state.change_due() {
            break;
        }
        let interrupt = engine.step().map_or(0, Interrupt::number);
        interrupts.push(interrupt);
        if first && interrupt != 0 {
            break;
        }
    }
    Some((interrupts, end))
}

fn all() -> Vec<Case> {
    [
        mode(),
        physical(),
        entries(),
        window(),
        operations(),
        runs(),
        random(),
    ]
    .concat()
}

fn same(one: &Case, two: &Case) -> bool {
    one.state == two.state && one.memory == two.memory && one.tables == two.tables
}

#[test]
fn followed_as_answered() {
    let mut steps = 0;
    let cases = all();
    let right = [Slip::None, Slip::Remembers];
    let by = |case| right.map(|slip| (case, slip));
    for (case, slip) in cases.iter().flat_map(by) {
        let Some((interrupts, end)) = follow(case, slip) else {
            continue;
        };
        let mut answered = case.clone();
        let (refusal, first, second, _) = answered.act();
        assert_eq!(refusal, 0);
        match case.operation {
            Operation::Step => assert_eq!(first, u64::from(interrupts.last().map_or(0, |n| *n))),
            _ => assert_eq!(second, interrupts.len() as u64, "{}", case.line()),
        }
        assert!(same(&end, &answered), "{slip:?}: {}", case.line());
        steps += interrupts.len();
    }
    assert!(steps > 10_000);
}

#[test]
fn wrong_ways_show() {
    let mut cases = all();
    // The largest take long, and none is needed here.
    cases.retain(|case| case.memory.len() <= 65 * PAGE);
    let right: Vec<_> = cases.iter().map(|case| follow(case, Slip::None)).collect();
    for slip in WRONG {
        let mut labels = HashSet::new();
        let mut found = 0;
        for (case, right) in cases.iter().zip(&right) {
            let Some((interrupts, end)) = right else {
                continue;
            };
            let (wrong, left) = follow(case, slip).expect("a step or a run");
            if wrong != *interrupts || !same(&left, end) {
                found += 1;
                labels.insert(case.label);
            }
        }
        println!("{slip:?}: {found} cases, {labels:?}");
        assert!(found >= 5, "{slip:?}: {found}");
    }
}

fn labelled(label: &str) -> Vec<Case> {
    let mut cases = all();
    cases.retain(|case| case.label == label);
    assert!(!cases.is_empty(), "{label}");
    cases
}

/// Every interrupt, and none, by each of the seven in each mode; 4 before 6.
#[test]
fn the_seven_meet_everything() {
    let mut seen = HashSet::new();
    for case in physical() {
        let (interrupts, _) = follow(&case, Slip::None).expect("a step");
        let p = usize::from(case.get(Reg::P));
        let slot = case.index(p as u16, false);
        let word = match case.state.paging_on {
            0 => case.memory[p],
            _ => case.memory[case.physical_page(slot) % 4 * PAGE + p % PAGE],
        };
        seen.insert((case.state.extended, word & 7, interrupts[0]));
        if word == seven(7, 0) && interrupts[0] != 0 {
            assert_ne!(interrupts[0], 6);
        }
    }
    for extended in [0, 1] {
        for low in 0..7 {
            for number in [0, 6, 9] {
                assert!(seen.contains(&(extended, low, number)), "{low} {number}");
            }
        }
        assert!(seen.contains(&(extended, 7, 4)));
    }
}

/// A handler of level 14 repairs the entry, and level 3 goes on.
#[test]
fn handlers_repair() {
    for case in labelled("handler") {
        let Operation::Through(30) = case.operation else {
            continue;
        };
        let (interrupts, end) = follow(&case, Slip::None).expect("a run");
        let slot = case.index(DATA, false);
        // 9 tells PGS nothing: that entry stays.
        let beyond = case.physical_page(slot) == 4;
        assert_eq!(interrupts.contains(&9), beyond, "{}", case.line());
        if !beyond {
            let word = end.tables[slot << case.state.extended];
            assert_eq!(word & 0o163000, OPEN, "{}", case.line());
        }
    }
}

/// The fetch after SEX or REX passes, fails in each way, and is lowered.
#[test]
fn the_other_form_decides() {
    let mut seen = HashSet::new();
    for case in labelled("form") {
        let (interrupts, end) = follow(&case, Slip::None).expect("a run");
        if interrupts.len() < 2 || interrupts[0] != 0 {
            continue;
        }
        assert_ne!(end.state.extended, case.state.extended);
        seen.insert((case.state.extended, interrupts[1], end.state.pcr[LEVEL] & 3));
        if [2, 3].contains(&interrupts[1]) {
            let slot = case.index(case.get(Reg::P), false) as u16;
            assert_eq!(end.state.pgs & 0o100377, 0o100000 | slot);
        }
    }
    for extended in [0, 1] {
        for (number, ring) in [(0, 2), (0, 1), (0, 0), (2, 2), (3, 2), (9, 2)] {
            assert!(seen.contains(&(extended, number, ring)), "{number} {ring}");
        }
    }
}
