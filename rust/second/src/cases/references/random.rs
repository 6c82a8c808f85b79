//! Random machines: the base machine with what `vectors` changes of a step's
//! surroundings, as runs of one step and of a few.

use super::*;
use crate::decode::{Instr, decode};
use crate::random::Random;
use crate::vectors::instruction;

pub fn random() -> Vec<Case> {
    let mut random = Random::new(7_000);
    (0..2_000).map(|turn| any(&mut random, turn)).collect()
}

/// An address near an edge of a page, the window or the memory, or anything.
fn address(random: &mut Random) -> u16 {
    let page = random.word() & 0o176000;
    match random.below(8) {
        0 => random.pick(&[0, 0o177777, 0o176777, 0o177000, 0o177376, 0o177400, 0o7777]),
        1..=4 => page | random.pick(&[0, 0o1770, 0o1774, 0o1776, 0o1777]),
        5 => random.word() & 0o7777,
        _ => random.word(),
    }
}

/// One step, or some.
fn operation(random: &mut Random, turn: u64) -> Operation {
    let steps = 2 + random.below(23);
    match turn % 8 {
        0 | 2 | 4 => Operation::Through(1),
        1 | 3 => Operation::ToInterrupt(1),
        5 => Operation::Through(steps),
        6 => Operation::ToInterrupt(steps),
        _ => {
            let mut inputs = Vec::new();
            for _ in 0..random.below(4) {
                let input = random.pick(&[256, 257, 0o1101, 10, 13]);
                inputs.push((random.below(steps + 1), input));
            }
            inputs.sort_unstable_by_key(|input| input.0);
            Operation::WithInput(steps, inputs)
        }
    }
}

fn any(random: &mut Random, turn: u64) -> Case {
    let mut case = of(random.one_in(2), "any").running(operation(random, turn));
    if random.one_in(2) {
        let level = random.below(16) as usize;
        case = case.on_level(level);
    }
    if random.one_in(5) {
        case = case.paging(false).reg(Reg::P, random.word() & 0o7777);
    } else if random.one_in(2) {
        case = case.reg(Reg::P, address(random));
    }
    if random.one_in(2) {
        let (level, pcr) = (case.level(), random.word() & 0o3603);
        case = case.with(|state| state.pcr[level] = pcr);
    }
    if random.one_in(3) {
        case = case.ptm(1);
    }
    if random.one_in(12) {
        let pid = random.word();
        case = case.with(|state| state.pid = pid);
    }
    for _ in 0..random.below(3) {
        let reg = random.pick(&[Reg::B, Reg::X, Reg::X, Reg::T]);
        let value = address(random);
        case = case.reg(reg, value);
    }
    case = met(random, case);
    let word = instruction(random);
    case = fitting(random, case, word);
    // What a longer run meets behind it.
    if !matches!(
        case.operation,
        Operation::Through(1) | Operation::ToInterrupt(1)
    ) {
        let p = case.get(Reg::P);
        for further in 1..=random.below(6) as u16 {
            case = case.put(p.wrapping_add(further), false, instruction(random));
        }
    }
    case.at_p(word)
}

/// The entries that the step may meet; the fetch mostly passes.
fn met(random: &mut Random, mut case: Case) -> Case {
    let ring = case.state.pcr[case.level()] & 3;
    let p = case.get(Reg::P);
    if ring != 2 || random.one_in(8) {
        let permits = random.pick(&[7, 7, 7, 7, 7, 7, 7, 6]);
        let of_ring = random.pick(&[ring, ring, ring, ring.saturating_sub(1)]);
        case = case.paged(p, permits << 13 | of_ring << 9, p >> 10 & 3);
    }
    for reg in [Reg::B, Reg::X, Reg::T] {
        if random.one_in(3) {
            let page = case.get(reg).wrapping_add(random.pick(&[0, 0, 8]));
            let slot = case.index(page, random.one_in(2));
            let permits = random.pick(&[7, 7, 6, 5, 4, 3, 2, 1, 0]);
            let of_ring = random.pick(&[ring, ring, 0, 3]);
            let physical = random.pick(&[0, 1, 2, 3, 4]);
            case = case.slot(slot, permits << 13 | of_ring << 9, physical);
        }
    }
    case
}

/// Registers that the instruction needs: an instruction for EXR, addresses within
/// reach for EXAM, DEPO and the seven.
fn fitting(random: &mut Random, case: Case, word: u16) -> Case {
    let near = random.pick(&[0o1234, 0o7776, 0o7777, 0o10000, 0o177377, 0o177777]);
    match decode(word) {
        Instr::Exr { src } if src != Reg::Sts && src != Reg::P => {
            case.reg(src, instruction(random))
        }
        Instr::Exam | Instr::Depo => case.reg(Reg::A, 0).reg(Reg::D, near),
        Instr::Physical { .. } if !random.one_in(6) => case.reg(Reg::T, 0).reg(Reg::X, near),
        _ => case,
    }
}
