//! Every class of words, by the top ten bits and the low six, and steps from
//! random machines.

use super::Case;
use crate::decode::Reg;
use crate::random::Random;
use crate::vectors::instruction;

pub fn cases() -> Vec<Case> {
    let mut cases = Vec::new();
    // Every top ten bits, with low bits that vary.
    for top in 0..1024 {
        let low = top * 29 % 64;
        cases.push(Case::step("top").at_p(top << 6 | low));
    }
    // Every word whose low bits are a code.
    for word in (0o150400..0o150600).chain(0o152400..0o153000) {
        cases.push(Case::step("low").at_p(word));
    }
    let mut random = Random::new(1_100);
    for _ in 0..1_300 {
        cases.push(any(&mut random));
    }
    cases
}

/// A value that is an address near an edge, an end, or anything.
fn value(random: &mut Random) -> u16 {
    let page = random.word() & 0o176000;
    match random.below(6) {
        0 => random.pick(&[0, 1, 0o177777, 0o77777, 0o100000, 0o177400, 0o177377]),
        1 | 2 => page | random.pick(&[0, 1, 0o1776, 0o1777]),
        _ => random.word(),
    }
}

/// One step from a random machine.
fn any(random: &mut Random) -> Case {
    let mut case = Case::step("any");
    if random.one_in(2) {
        case = case.on_level(random.below(16) as usize);
    }
    if random.one_in(5) {
        case = case.paging(false).reg(Reg::P, random.word() & 0o7777);
    }
    let pcr = random.word() & 0o3603;
    let level = case.level();
    case = case.with(|state| state.pcr[level] = pcr);
    case = case.reg(Reg::Sts, random.word() & 0o377);
    for _ in 0..3 {
        let reg = random.pick(&[
            Reg::D,
            Reg::B,
            Reg::L,
            Reg::A,
            Reg::T,
            Reg::X,
            Reg::X,
            Reg::B,
        ]);
        let value = value(random);
        case = case.reg(reg, value);
    }
    let word = instruction(random);
    // The entries that the step may meet.
    let registers = [Reg::P, Reg::B, Reg::X, Reg::T].map(|reg| case.get(reg));
    for (turn, address) in registers.into_iter().enumerate() {
        let index = case.index(address, turn > 0 && random.one_in(2));
        let permits = if turn == 0 {
            7
        } else {
            random.pick(&[7, 7, 7, 6, 5, 3, 2, 1, 0])
        };
        let ring = random
            .pick(&[pcr & 3, pcr & 3, 0, 1, 2, 3])
            .min(if turn == 0 { pcr & 3 } else { 3 });
        let page = random.pick(&[0, 1, 2, 3, 1, 2, 4]);
        let page = if turn == 0 { page & 3 } else { page };
        if turn == 0 || random.one_in(2) {
            case = case.entry(index, permits << 13 | ring << 9 | page);
        }
    }
    case.at_p(word)
}
