//! The cases do what they say, and tell engines that remember pages wrongly.

use super::*;
use crate::answer::Interrupt;
use crate::cases::PROGRAMS;
use crate::machine::Machine;
use crate::paging::{Access, Place, Table};
use crate::step;
use std::collections::HashSet;

/// Steps of a case, and whether it runs to the first interrupt.
fn form(case: &Case) -> (u64, bool) {
    match case.operation {
        Operation::Through(steps) => (steps, false),
        Operation::ToInterrupt(steps) => (steps, true),
        _ => panic!("{} is no run", case.label),
    }
}

/// A step of a run: the ring before it, where it fetched, and its interrupt.
#[derive(Clone, Copy, Debug)]
struct Step {
    level: u16,
    ring: u16,
    p: u16,
    /// None if it was no fetch or the fetch failed.
    place: Option<Place>,
    word: u16,
    interrupt: u16,
}

impl Step {
    /// Physical page and offset, if it fetched from memory.
    fn memory(&self) -> Option<(usize, usize)> {
        match self.place {
            Some(Place::Memory(at)) => Some((at / PAGE, at % PAGE)),
            _ => None,
        }
    }

    fn page(&self) -> Option<usize> {
        self.memory().map(|(page, _)| page)
    }
}

/// Whether a run of the case would end before its next step.
fn ends(case: &Case, to_first_interrupt: bool) -> bool {
    case.state.stopped != 0 || to_first_interrupt && case.state.change_due()
}

/// The case step by step, and what it leaves.
fn trace(case: &Case) -> (Vec<Step>, Case) {
    let mut end = case.clone();
    let (steps, to_first_interrupt) = form(case);
    let mut trace = Vec::new();
    while (trace.len() as u64) < steps && !ends(&end, to_first_interrupt) {
        let mut now = end.clone();
        let change = now.state.change_due();
        let machine = Machine::new(&mut now.state, &mut now.memory, &mut now.tables);
        let mut machine = machine.expect("in range");
        let (level, p) = (machine.state.level, machine.get(Reg::P));
        let ring = machine.state.pcr[usize::from(level)] & 3;
        let place = match change {
            true => None,
            false => machine.access(p, Table::Normal, Access::Fetch).ok(),
        };
        let word = place.map_or(0, |place| machine.read(place));
        let answer = step(&mut end.state, &mut end.memory, &mut end.tables);
        let interrupt = answer.expect("in range").map_or(0, Interrupt::number);
        trace.push(Step {
            level,
            ring,
            p,
            place,
            word,
            interrupt,
        });
        if to_first_interrupt && interrupt != 0 {
            break;
        }
    }
    (trace, end)
}

fn labelled(label: &str) -> Vec<Case> {
    let mut cases = cases();
    cases.retain(|case| case.label == label);
    assert!(!cases.is_empty(), "{label}");
    cases
}

fn same(one: &Case, two: &Case) -> bool {
    one.state == two.state && one.memory == two.memory && one.tables == two.tables
}

#[test]
fn runs_are_steps() {
    for case in cases() {
        let (trace, stepped) = trace(&case);
        let mut end = case.clone();
        let (refusal, _, taken, _) = end.act();
        assert_eq!((refusal, taken), (0, trace.len() as u64), "{}", case.label);
        assert!(same(&end, &stepped), "{}", case.label);
    }
}

#[test]
fn numbers_and_sizes() {
    let cases = cases();
    let sorts = cases.iter().filter(|case| case.label == "sort").count();
    assert_eq!(sorts, 1024);
    assert!((250..=600).contains(&(cases.len() - sorts)));
    assert!(
        cases
            .iter()
            .all(|case| !case.label.contains(char::is_numeric))
    );
    // What a program reads.
    for (name, groups) in PROGRAMS {
        let lines = groups.iter().flat_map(|(_, make)| make());
        let lines: Vec<String> = lines.map(|(line, _)| line).collect();
        let bytes: usize = lines.iter().map(|line| line.len() + 1).sum();
        let octal = |c: char| ('0'..='7').contains(&c);
        let numbers = |line: &String| line.split(|c| !octal(c)).filter(|n| !n.is_empty()).count();
        assert!(bytes <= 524_288, "{name}: {bytes}");
        assert!(lines.iter().map(numbers).sum::<usize>() <= 196_608);
    }
}

/// Page and offset that an entry leads a fetch on ring 3 to, if it passes.
fn led(entry: u16, offset: usize) -> Option<(usize, usize)> {
    let page = usize::from(entry & 0o777);
    (entry & 0o20000 != 0 && page < 4).then_some((page, offset))
}

#[test]
fn the_fetch_after_a_write_sees_the_entry() {
    for case in labelled("own") {
        let (trace, end) = trace(&case);
        let new = case.get(Reg::A);
        match trace.get(1) {
            Some(step) => {
                assert_eq!(step.memory(), led(new, 0o601));
                // Marked again if it passed, and lowered.
                let marked = new | if step.place.is_some() { PGU } else { 0 };
                assert_eq!(end.tables[0o301], marked);
                if step.place.is_some() {
                    assert_eq!(end.state.pcr[3] & 3, new >> 9 & 3);
                }
            }
            None => assert_eq!(end.tables[0o301], new),
        }
    }
    for case in labelled("next") {
        let (trace, _) = trace(&case);
        assert_eq!(trace[1].memory(), Some((0, 0o1777)));
        assert_eq!(trace[2].memory(), led(case.get(Reg::A), 0));
    }
    for case in labelled("back") {
        let (trace, _) = trace(&case);
        assert_eq!(trace[2].page(), Some(1));
        assert_eq!(trace[3].memory(), led(case.get(Reg::A), 0o601));
    }
    // Every way to write leads elsewhere, but the one that lowers.
    for case in labelled("way") {
        let (trace, end) = trace(&case);
        let elsewhere = trace[1].page() != Some(0);
        assert!(
            elsewhere || end.state.pcr[3] & 3 == 2,
            "{:o}",
            trace[0].word
        );
    }
    // Both calls of the page by their own entry.
    let calls = labelled("call");
    let (trace, _) = trace(calls.iter().find(|case| form(case).0 == 18).expect("18"));
    let places: Vec<_> = trace.iter().filter(|step| step.p == THERE).collect();
    let pages: Vec<_> = places.iter().map(|step| step.page()).collect();
    assert_eq!(pages, [Some(2), Some(3), Some(2), Some(3)]);
}

#[test]
fn cleared_marks_are_set_again() {
    for case in labelled("clear") {
        let (trace, end) = trace(&case);
        let written = trace.last().is_some_and(|step| step.word == 0o006000);
        assert_eq!(end.tables[0o301] & PGU != 0, !written);
        assert_eq!(end.tables[0o301] & WIP, case.get(Reg::A) & WIP);
    }
}

#[test]
fn pages_are_crossed() {
    let mut seen = HashSet::new();
    for case in labelled("cross") {
        let (trace, _) = trace(&case);
        let Some(step) = trace.get(2) else { continue };
        // A jump to itself stays on this side.
        if trace[1].word == 0o124000 {
            assert_eq!(step.p, 0o3777);
        } else {
            assert_eq!(step.p >> 10, 2);
            seen.insert((trace[1].word, 0, None));
            seen.insert((0, step.interrupt, step.page()));
        }
    }
    for last in LAST.iter().filter(|&&last| last != 0o124000) {
        assert!(seen.contains(&(*last, 0, None)), "{last:o}");
    }
    for result in [(2, None), (3, None), (9, None), (0, Some(2)), (0, Some(0))] {
        assert!(seen.contains(&(0, result.0, result.1)), "{result:?}");
    }
}

#[test]
fn addresses_wrap() {
    let mut seen = HashSet::new();
    for case in labelled("wrap") {
        let (trace, _) = trace(&case);
        for pair in trace.windows(2).filter(|pair| pair[0].p == 0o177777) {
            if pair[1].p < 2 {
                let tables = matches!(pair[0].place, Some(Place::Tables(_)));
                let on = case.state.paging_on == 1;
                assert_eq!(tables, !on || pair[0].ring == 3);
                seen.insert((on, pair[0].ring, pair[1].interrupt));
            }
        }
    }
    for ring in 0..3 {
        assert!(seen.contains(&(true, ring, 0)) && seen.contains(&(true, ring, 2)));
    }
    assert!(seen.contains(&(true, 3, 0)) && seen.contains(&(true, 3, 3)));
    assert!(seen.contains(&(false, 0, 0)) && seen.contains(&(false, 3, 0)));
    // From page 63 into the window on ring 3 alone.
    for case in labelled("window") {
        let (trace, _) = trace(&case);
        for step in trace.iter().filter(|step| step.p >= 0o177400) {
            let tables = matches!(step.place, Some(Place::Tables(_)));
            assert_eq!(tables, step.ring == 3);
        }
    }
}

#[test]
fn tables_and_paging_are_switched() {
    for case in labelled("pcr") {
        let (trace, _) = trace(&case);
        let a = case.get(Reg::A);
        if a & 0o170 == 0o30 && trace[1].place.is_some() {
            // Table t has page 1 at t + 1, unless the case says otherwise.
            let page = case.tables[usize::from(a >> 9 & 3) * 64 + 1] & 0o777;
            assert_eq!(trace[1].page(), Some(usize::from(page)));
        } else if a & 0o170 != 0o30 {
            assert_eq!(trace[1].page(), Some(0));
        }
    }
    // Pages of one virtual page with paging on, then off.
    let mut seen = HashSet::new();
    for case in labelled("paging") {
        let (trace, _) = trace(&case);
        for pair in trace.windows(2) {
            if pair[0].p >> 10 == pair[1].p >> 10 && pair[0].page() != pair[1].page() {
                seen.insert((pair[0].word, pair[1].interrupt));
            }
        }
    }
    for word in [0o150404, 0o150405, 0o150410, 0o150412] {
        assert!(seen.contains(&(word, 0)), "{word:o}");
    }
}

#[test]
fn rings_are_lowered() {
    let mut seen = HashSet::new();
    for case in labelled("lower") {
        let (trace, end) = trace(&case);
        let first = trace[0].ring;
        let ring = end.state.pcr[3] & 3;
        seen.extend(trace.iter().map(|step| (first, ring, step.interrupt)));
        // Lowered, then back at a page of the old ring.
        if trace.get(3).is_some_and(|step| step.p == AT + 1) {
            assert!(trace[3].place.is_none() && trace[3].interrupt == 2);
        }
    }
    for (ring, low) in [(3, 2), (3, 1), (3, 0), (2, 1), (2, 0), (1, 0)] {
        assert!(seen.contains(&(ring, low, 2)), "{ring} {low}");
        assert!(low == 2 || seen.contains(&(ring, low, 6)), "{ring} {low}");
    }
    let stairs = labelled("stairs");
    let rings: Vec<u16> = trace(&stairs[1]).0.iter().map(|step| step.ring).collect();
    assert_eq!(rings, [3, 3, 3, 2, 1]);
}

#[test]
fn fetches_mark_used_alone() {
    for case in labelled("turns") {
        let (trace, end) = trace(&case);
        for (index, (new, old)) in end.tables.iter().zip(&case.tables).enumerate() {
            let used = trace
                .iter()
                .any(|step| index == 192 + usize::from(step.p >> 10));
            assert_eq!(*new, if used { old | PGU } else { *old });
        }
    }
    for case in labelled("failed") {
        assert_eq!(trace(&case).1.tables[0o306], case.tables[0o306]);
    }
}

#[test]
fn stored_words_are_executed() {
    for case in labelled("store").into_iter().chain(labelled("block")) {
        let (trace, _) = trace(&case);
        // MIN that skips makes its word 0, which is executed in the next round.
        let step = trace[1];
        let (page, offset) = step.memory().expect("fetched");
        let stored = step.word != case.memory[page * PAGE + offset];
        assert!(stored || step.p == AT + 2, "{:o}", trace[0].word);
    }
}

#[test]
fn levels_go_by_their_own_tables() {
    let mut seen = HashSet::new();
    for label in ["level", "wait", "call", "handler", "repair"] {
        for case in labelled(label) {
            let (trace, _) = trace(&case);
            for step in trace.iter().filter(|step| step.p >> 10 == 1) {
                seen.insert((step.level, step.page()));
            }
            // Back on level 3 after another one.
            let levels: Vec<u16> = trace.iter().map(|step| step.level).collect();
            if levels.windows(2).any(|pair| pair[0] > 3 && pair[1] == 3) {
                seen.insert((99, None));
            }
        }
    }
    for level in [(0, 1), (3, 0), (5, 2), (7, 0), (14, 3), (14, 0)] {
        assert!(seen.contains(&(level.0, Some(level.1))), "{level:?}");
    }
    assert!(seen.contains(&(99, None)));
    // The handler's change holds: entry or PCR new, so place, ring or fault new.
    for case in labelled("handler") {
        let (trace, _) = trace(&case);
        assert_eq!((trace[2].level, trace[5].level), (14, 3));
    }
}

#[test]
fn every_class_is_fetched() {
    let mut tops = HashSet::new();
    for case in labelled("sort") {
        let (trace, _) = trace(&case);
        assert_eq!((trace[0].level, trace[0].ring), (3, 2));
        tops.insert(trace[0].word >> 6);
    }
    assert_eq!(tops.len(), 1024);
}

/// What an engine forgets to see that skips test, mark and lowering for a
/// fetch from a page that it remembers.
#[derive(Clone, Copy, Debug, PartialEq)]
enum Slip {
    /// None: remembers the last page, and forgets it whenever it must.
    None,
    /// None: remembers many pages.
    Many,
    /// A write to the page tables.
    Tables,
    /// Remembers many pages, and sees a write to the entry of the last only.
    OtherEntry,
    /// A write that clears marks alone.
    Used,
    /// A change of level.
    Level,
    /// Remembers by level, and sees writes to tables and PCR by that level only.
    OtherLevel,
    /// A write to PCR.
    Pcr,
    /// Remembers by table and page, and not the ring.
    Ring,
    /// A change of paging.
    Paging,
    /// Where the window begins.
    Window,
    /// That the fetch failed.
    Failed,
    /// Remembers many pages, and not the lowering of the ring.
    Lowering,
    /// Puts the entry back as it was remembered.
    Marks,
    /// Remembers the page's words too, and sees no store.
    Words,
    /// The end of the page.
    End,
}

struct Remembered {
    level: u16,
    page: u16,
    index: usize,
    entry: u16,
    base: usize,
    words: Vec<u16>,
}

/// What the case leaves if it is run by such an engine.
fn remembering(case: &Case, slip: Slip) -> Case {
    let mut end = case.clone();
    let (steps, to_first_interrupt) = form(case);
    let machine = Machine::new(&mut end.state, &mut end.memory, &mut end.tables);
    let mut machine = machine.expect("in range");
    let mut known: Vec<Remembered> = Vec::new();
    let many = [
        Slip::Many,
        Slip::Lowering,
        Slip::OtherLevel,
        Slip::OtherEntry,
        Slip::Ring,
    ]
    .contains(&slip);
    let mut last = None;
    for _ in 0..steps {
        let due = machine.state.change_due();
        if machine.state.stopped != 0 || to_first_interrupt && due {
            break;
        }
        if due {
            machine.state.pvl = machine.state.level;
            machine.state.level = machine.state.highest_level();
            if ![Slip::Level, Slip::OtherLevel, Slip::Ring].contains(&slip) {
                known.clear();
            }
            last = None;
            continue;
        }
        let level = machine.state.level;
        let own = usize::from(level);
        let at = machine.get(Reg::P);
        let ring = machine.state.pcr[own] & 3;
        let paging = machine.state.paging_on;
        let window = at >= 0o177400 && (ring == 3 || paging == 0);
        let offset = usize::from(at) % PAGE;
        let by_level = slip == Slip::OtherLevel;
        let index = usize::from(machine.state.pcr[own] >> 9 & 3) * 64 + usize::from(at >> 10);
        let found = known.iter().find(|known| match slip {
            Slip::Ring => known.index == index,
            Slip::OtherLevel => known.level == level && known.page == at >> 10,
            _ => known.page == at >> 10,
        });
        let found = found.filter(|_| !window || slip == Slip::Window);
        let going_on =
            slip == Slip::End && last.is_some_and(|(p, _)| at == u16::wrapping_add(p, 1));
        let place = match (found, last) {
            (_, Some((_, place))) if going_on && place + 1 < machine.memory.len() => {
                Ok(Place::Memory(place + 1))
            }
            (Some(known), _) => {
                if slip == Slip::Marks {
                    machine.tables[known.index] = known.entry;
                }
                Ok(Place::Memory(known.base + offset))
            }
            _ => machine.access(at, Table::Normal, Access::Fetch),
        };
        let word = match (&place, found) {
            (Ok(_), Some(known)) if slip == Slip::Words => known.words[offset],
            (Ok(place), _) => machine.read(*place),
            _ => 0,
        };
        let lowered = machine.state.pcr[own] & 3 < ring;
        if found.is_none() {
            let base = match place {
                Ok(Place::Memory(at)) => Some(at - offset),
                Err(_) if slip == Slip::Failed && paging == 1 => {
                    Some(usize::from(machine.tables[index] & 0o777) * PAGE)
                }
                _ => None,
            };
            if !many || lowered && ![Slip::Lowering, Slip::Ring].contains(&slip) {
                known.clear();
            }
            if let Some(base) = base.filter(|base| *base < machine.memory.len()) {
                known.push(Remembered {
                    level,
                    page: at >> 10,
                    index,
                    entry: machine.tables[index],
                    base,
                    words: machine.memory[base..base + PAGE].to_vec(),
                });
            }
        }
        last = match place {
            Ok(Place::Memory(place)) => Some((at, place)),
            _ => None,
        };
        let tables = *machine.tables;
        let pcr = machine.state.pcr;
        let result = match place {
            Ok(_) => {
                machine.set(Reg::P, at.wrapping_add(1));
                machine.execute(word, at)
            }
            Err(interrupt) => Err(interrupt),
        };
        if let Err(interrupt) = result {
            machine.state.interrupt(interrupt.number());
            if to_first_interrupt {
                break;
            }
        }
        // Marks are no writes to it: PGU of a remembered page is set already.
        let written = |(new, old): (&u16, &u16)| new & !(WIP | PGU) != old & !(WIP | PGU);
        let cleared = |(new, old): (&u16, &u16)| old & !new != 0;
        let pairs = || machine.tables.iter().zip(&tables);
        let tables = match slip {
            Slip::Tables => false,
            Slip::Used => pairs().any(written),
            _ => pairs().any(written) || pairs().any(cleared),
        };
        let pcr = machine.state.pcr != pcr && ![Slip::Pcr, Slip::Ring].contains(&slip);
        let switched = machine.state.paging_on != paging && slip != Slip::Paging;
        if tables && slip == Slip::OtherEntry && !pcr && !switched {
            known.retain(|known| known.index != index);
        } else if tables || pcr || switched {
            known.retain(|known| by_level && known.level != level);
            last = None;
        }
    }
    end
}

#[test]
fn slips_are_told() {
    let runs = cases();
    let runs = runs.iter().filter(|case| case.label != "sort");
    let runs: Vec<_> = runs.map(|case| (case, trace(case).1)).collect();
    let told = |slip: Slip| {
        let differs = |(case, end): &&(&Case, Case)| !same(&remembering(case, slip), end);
        let told: Vec<&str> = runs
            .iter()
            .filter(differs)
            .map(|(case, _)| case.label)
            .collect();
        let labels: HashSet<&str> = told.iter().copied().collect();
        println!("{slip:?}: {} cases, {labels:?}", told.len());
        told.len()
    };
    assert_eq!(told(Slip::None), 0);
    assert_eq!(told(Slip::Many), 0);
    for slip in [
        Slip::Tables,
        Slip::OtherEntry,
        Slip::Used,
        Slip::Level,
        Slip::OtherLevel,
        Slip::Pcr,
        Slip::Ring,
        Slip::Paging,
        Slip::Window,
        Slip::Failed,
        Slip::Lowering,
        Slip::Marks,
        Slip::Words,
        Slip::End,
    ] {
        assert!(told(slip) >= 5, "{slip:?}");
    }
}
