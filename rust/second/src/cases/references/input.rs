//! Runs with device input: the sum goes over all parts, from input to input.

use super::*;
use crate::input::{FIRST_TYPED_WORD, READ_OUT_WORD as READ_OUT, TICK_WORD as TICK};

/// The characters A and B.
const A: u16 = FIRST_TYPED_WORD + 0o101;
const B: u16 = FIRST_TYPED_WORD + 0o102;

/// Runs of about 30 steps: spent, or ended by the program.
const PROGRAMS: [&[u16]; 7] = [
    // MIN, LDA I, JMP.
    &[0o040003, 0o045003, 0o124376, 0o123, DATA],
    // IOX 300, STF ,X, IOX 305, JMP.
    &[
        IOX | device::INPUT_DATA,
        0o032000,
        IOX | device::OUTPUT_DATA,
        0o124375,
    ],
    // MIN until it skips, then WAIT.
    &[0o040003, 0o124377, WAIT, 0o177772],
    // MIN until it skips, then MON.
    &[0o040003, 0o124377, MON, 0o177772],
    // MIN until it skips, then STD whose second word fails.
    &[0o040003, 0o124377, 0o022000, 0o177774],
    // IOX 13 and IOX 307: devices enabled with what A has.
    &[
        0o040006,
        IOX | device::CLOCK_CONTROL,
        0o045005,
        IOX | device::OUTPUT_CONTROL,
        0o124374,
        0,
        0o100,
        DATA,
    ],
    // Register blocks.
    &[srb(5), lrb(5), 0o124376],
];

const LISTS: [&[(u64, u16)]; 14] = [
    &[],
    &[(0, TICK)],
    &[(3, TICK)],
    &[(1, A), (2, TICK), (3, READ_OUT), (4, B)],
    &[(5, A), (5, TICK), (5, READ_OUT)],
    &[(9, TICK), (4, A), (12, READ_OUT)],
    &[(2, 3), (6, 300), (6, A), (7, 14)],
    &[(10, TICK), (20, TICK), (30, TICK), (31, TICK)],
    &[(30, A)],
    &[(31, TICK)],
    &[(40, TICK), (1, A)],
    &[(4, 12), (8, A)],
    &[(7, 13), (7, TICK), (9, A)],
    &[(0, A), (8, READ_OUT), (16, B), (24, READ_OUT), (29, TICK)],
];

pub fn input() -> Vec<Case> {
    let mut cases = Vec::new();
    for (turn, words) in PROGRAMS.into_iter().enumerate() {
        for (more, list) in LISTS.into_iter().enumerate() {
            let extended = (turn + more) % 2 == 1;
            let case = of(extended, "input").code(AT, words).reg(Reg::A, 1);
            let case = case.ptm(0).paged(EDGE, 0o002000, 0).reg(Reg::X, EDGE - 1);
            let case = match (turn, more % 3) {
                // X in an open page, where nothing may fail.
                (1 | 6, _) => case.reg(Reg::X, DATA),
                // WAIT stops.
                (2, 0 | 1) => case.with(|state| state.interrupts_on = 0),
                _ => case,
            };
            // Devices that ask make a level due.
            let case = match (turn + more) % 3 {
                0 => case.with(|state| {
                    state.devices.clock_enabled = 1;
                    state.devices.input_enabled = 1;
                }),
                _ => case,
            };
            cases.push(
                case.clone()
                    .running(Operation::WithInput(30, list.to_vec())),
            );
            if more % 3 == 1 {
                let case = case.with(|state| state.interrupts_on = 0);
                cases.push(case.running(Operation::WithInput(9, list.to_vec())));
            }
        }
    }
    cases
}
