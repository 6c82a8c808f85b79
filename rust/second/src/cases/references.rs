//! Memory references: what a run answers beside steps and reason. Most cases are
//! runs of one step, so that the answer is that step's count.
//!
//! Level 3 runs on ring 2, with table 3 as the normal one and table 0 as the
//! alternate one.

mod faults;
mod input;
mod programs;
mod random;

use super::{Case, MEMORY, Operation};
use crate::decode::Reg;
use crate::devices::device;
use crate::{PAGE, TABLE_WORDS};

pub use faults::faults;
pub use input::input;
pub use programs::{ends, programs};
pub use random::random;

#[cfg(test)]
mod tests;

/// 19-bit mode, extended mode.
const MODES: [bool; 2] = [false, true];

/// Bits of the address modes.
const B_RELATIVE: u16 = 0o000400;
const INDIRECT: u16 = 0o001000;
const X_RELATIVE: u16 = 0o002000;

const STA: u16 = 0o004000;
const STD: u16 = 0o020000;
const LDD: u16 = 0o024000;
const STF: u16 = 0o030000;
const LDF: u16 = 0o034000;
const MIN: u16 = 0o040000;
const LDA: u16 = 0o044000;
const JMP: u16 = 0o124000;
const JPL: u16 = 0o134000;
/// The nineteen that have an address mode.
const MEMORY_CODES: [u16; 19] = [
    0, STA, 0o010000, 0o014000, STD, LDD, STF, LDF, MIN, LDA, 0o050000, 0o054000, 0o060000,
    0o064000, 0o070000, 0o074000, 0o120000, JMP, JPL,
];

/// EXR SL.
const EXR: u16 = 0o140640;
const LBYT: u16 = 0o142200;
const SBYT: u16 = 0o142600;
const MST_PID: u16 = 0o150306;
const TRA_IIC: u16 = 0o150005;
const SEX: u16 = 0o150406;
const REX: u16 = 0o150407;
const IOXT: u16 = 0o150415;
const EXAM: u16 = 0o150416;
const DEPO: u16 = 0o150417;
const WAIT: u16 = 0o151000;
const MON: u16 = 0o153005;
const IOX: u16 = 0o164000;
const PL13: u16 = 0o143643;
const ILLEGAL: u16 = 0o140700;
/// AAA 1, AAX 1.
const AAA: u16 = 0o172401;
const AAX: u16 = 0o173401;

/// Where the words under test stand, unless said otherwise; operands; the first
/// address of a page behind an open one.
const AT: u16 = 0o600;
const DATA: u16 = 0o2500;
const EDGE: u16 = 0o24000;

/// Register blocks of a level.
const fn srb(level: u16) -> u16 {
    0o152402 | level << 3
}

const fn lrb(level: u16) -> u16 {
    0o152600 | level << 3
}

/// One of the seven by its low digit, or the eighth that is none.
const fn seven(low: u16, disp: u16) -> u16 {
    0o143300 | disp << 3 | low
}

/// The base machine of a mode at `AT`, with so many pages; what it does is still to
/// come.
fn lent(extended: bool, label: &'static str, pages: usize) -> Case {
    let operation = Operation::Through(1);
    Case::in_mode(extended, label, operation, pages * PAGE, TABLE_WORDS).reg(Reg::P, AT)
}

fn of(extended: bool, label: &'static str) -> Case {
    lent(extended, label, MEMORY / PAGE)
}

/// A run of one step in each mode, by one form in the one and by the other in the
/// other.
fn push(cases: &mut Vec<Case>, make: impl Fn(bool) -> Case) {
    let through_extended = cases.len() / 2 % 2 == 1;
    for extended in MODES {
        cases.push(make(extended).running(match extended == through_extended {
            true => Operation::Through(1),
            false => Operation::ToInterrupt(1),
        }));
    }
}

impl Case {
    /// T and X of the seven, A and D of EXAM and DEPO: a physical address.
    fn by_physical(self, address: u32) -> Case {
        let (high, low) = ((address >> 16) as u16, address as u16);
        let case = self.reg(Reg::T, high).reg(Reg::X, low);
        case.reg(Reg::A, high).reg(Reg::D, low)
    }

    /// Every device asks.
    fn asking(self) -> Case {
        self.with(|state| {
            state.devices.clock_asks = 1;
            state.devices.input_asks = 1;
            state.devices.output_asks = 1;
        })
    }
}

/// Every instruction.
pub fn instructions() -> Vec<Case> {
    let mut cases = Vec::new();
    modes(&mut cases);
    others(&mut cases);
    privileged(&mut cases);
    cases
}

/// Memory operations in every address mode, by one table and by two.
fn modes(cases: &mut Vec<Case>) {
    for code in MEMORY_CODES {
        for mode in 0..8 {
            let ptm = (code >> 11 & 1) ^ mode & 1;
            let word = code | mode << 8 | 3;
            push(cases, |extended| of(extended, "mode").ptm(ptm).at_p(word));
        }
    }
}

/// The rest of what every ring may use: MON, words that are none, RDIV and RMPY,
/// bytes, MIX3, EXR, destination 0, bits of STS.
const OTHERS: [u16; 32] = [
    MON, 0o153377, ILLEGAL, 0o100000, 0o151400, 0o152000, 0o160000, 0o154100, 0o143307, 0o150400,
    0o150000, 0o150002, 0o152400, 0o152601, 0o141257, 0o141650, 0o141600, LBYT, SBYT, 0o143200,
    0o140600, 0o140610, 0o140620, 0o140630, 0o140650, 0o140660, 0o140670, 0o140050, 0o144050,
    0o146050, 0o174050, 0o174250,
];

/// Instructions without an address mode that every ring may use.
fn others(cases: &mut Vec<Case>) {
    let each = |number: u16, first: u16, place: u32| (0..number).map(move |n| first | n << place);
    let words = each(8, 0o130002, 8) // conditional jumps
        .chain(each(8, 0o140057, 8)) // skips
        .chain(each(4, 0o144057, 8)) // SWAP, RAND, REXO, RORA
        .chain(each(16, 0o146057, 6)) // adding
        .chain(each(16, 0o154003, 7)) // shifts
        .chain(each(8, 0o170003, 8)) // arguments
        .chain(each(16, 0o174035, 7)) // bits
        .chain(OTHERS);
    for word in words {
        push(cases, |extended| of(extended, "other").at_p(word));
    }
}

/// Privileged instructions that make no access beside the fetch.
const REGISTERS_ONLY: [u16; 30] = [
    0o150001, 0o150003, 0o150004, TRA_IIC, 0o150006, 0o150007, 0o150011, 0o150014, // TRA
    0o150101, 0o150103, 0o150105, 0o150106, 0o150107, // TRR
    0o150201, 0o150206, 0o150207, 0o150301, MST_PID, 0o150307, // MCL, MST
    0o150401, 0o150402, 0o150404, 0o150405, 0o150410, 0o150412, // IOF to PION
    SEX, REX, WAIT, 0o153447, 0o153647, // IRW, IRR
];

/// Privileged instructions that make accesses.
const REACHING: [u16; 12] = [
    EXAM,
    DEPO,
    srb(5),
    lrb(5),
    lrb(3),
    seven(0, 1),
    seven(1, 2),
    seven(2, 3),
    seven(3, 4),
    seven(4, 5),
    seven(5, 6),
    seven(6, 7),
];

/// Privileged instructions: executed, and on the rings that may not; with devices
/// that answer and with none.
fn privileged(cases: &mut Vec<Case>) {
    let devices = device::ALL.map(|address| IOX | address);
    let words = REGISTERS_ONLY.into_iter().chain(REACHING).chain(devices);
    for (turn, word) in words.chain([IOXT, PL13, srb(3)]).enumerate() {
        let case = |extended| {
            let case = of(extended, "privileged").by_physical(0o3210);
            case.asking().at_p(word)
        };
        push(cases, case);
        push(cases, |extended| case(extended).on_ring(turn as u16 % 2));
        // With paging off every ring may.
        if turn % 4 == 0 {
            push(cases, |extended| case(extended).paging(false).at_p(word));
        }
    }
    // No device: interrupt 7. IDENT of each device, and of none.
    for word in [IOX | 0o14, IOX | 0o377, IOXT, PL13, 0o143600] {
        push(cases, |extended| of(extended, "device").at_p(word));
        push(cases, |extended| {
            of(extended, "device").on_ring(1).at_p(word)
        });
    }
    for word in [0o143604, 0o143611, 0o143622, PL13] {
        push(cases, |extended| of(extended, "device").asking().at_p(word));
    }
    for address in [device::INPUT_STATUS, device::CLOCK_CONTROL] {
        push(cases, |extended| {
            of(extended, "device").reg(Reg::T, address).at_p(IOXT)
        });
    }
    // WAIT that stops.
    push(cases, |extended| {
        let case = of(extended, "stops").at_p(WAIT);
        case.with(|state| state.interrupts_on = 0)
    });
    // The fetch lowers the ring: 6 as well.
    for word in REACHING {
        push(cases, |extended| {
            of(extended, "lowered").on_ring(1).ring(3).at_p(word)
        });
    }
}

/// Words brought in by EXR SL.
const EXECUTED: [u16; 50] = [
    LDA | 2,
    LDA | INDIRECT | 2,
    LDA | X_RELATIVE,
    LDA | INDIRECT | B_RELATIVE | X_RELATIVE,
    0o006000, // STA ,X
    0o005002, // STA I *2
    STD | X_RELATIVE,
    STD | INDIRECT | 2,
    LDD | 2,
    LDD | INDIRECT | 2,
    STF | X_RELATIVE,
    STF | INDIRECT | 2,
    LDF | 2,
    LDF | INDIRECT | 2,
    MIN | 2,
    MIN | INDIRECT | 2,
    0o060002, // ADD
    0o121002, // MPY I
    JMP | 2,
    JMP | INDIRECT | 2,
    JPL | 2,
    JPL | INDIRECT | 2,
    LBYT,
    SBYT,
    0o130002, // JAP
    0o140057, // a skip
    0o146057, // RADD
    0o154003, // SHT
    AAA,
    0o174035, // BSET
    MON,
    ILLEGAL,
    EXR,
    0o140610, // EXR SD
    0o141600, // RDIV by 0
    EXAM,
    DEPO,
    srb(5),
    lrb(5),
    lrb(3),
    seven(0, 0),
    seven(2, 0),
    seven(5, 0),
    seven(6, 0),
    IOX | device::INPUT_STATUS,
    IOX | 0o14,
    PL13,
    WAIT,
    0o150001, // TRA STS
    SEX,
];

/// EXR adds nothing: passed, failing, refused, in the window, of an EXR.
pub fn executed() -> Vec<Case> {
    let mut cases = Vec::new();
    for (turn, word) in EXECUTED.into_iter().enumerate() {
        let case = |extended| {
            let case = of(extended, "executed").by_physical(0o3210);
            case.reg(Reg::L, word).at_p(EXR)
        };
        push(&mut cases, case);
        // Operands past the memory, or of a page that is shut.
        push(&mut cases, |extended| {
            let case = of(extended, "executed").paging(turn % 2 == 0);
            let case = case.by_physical(0o14210).reg(Reg::B, 0o14000);
            let slot = case.index(0o14000, false);
            let case = case.slot(slot, 0o002000, 0).ptm(0);
            let case = case.put(AT + 2, false, 0o14000);
            case.reg(Reg::L, word).at_p(EXR)
        });
        if turn % 3 == 0 {
            push(&mut cases, |extended| case(extended).on_ring(1));
        }
    }
    // Source 0 is STZ *0; each other register.
    for source in 0..8 {
        let word = 0o140600 | source << 3;
        push(&mut cases, |extended| of(extended, "source").at_p(word));
        push(&mut cases, |extended| {
            let case = of(extended, "source").on_ring(3).reg(Reg::P, 0o177500);
            case.at_p(word)
        });
    }
    // An EXR whose fetch fails.
    push(&mut cases, |extended| {
        let case = of(extended, "source").reg(Reg::L, lrb(5));
        case.at_p(EXR).paged(AT, 0o142000, 3)
    });
    cases
}

/// Operations by X: the word, and how many words it reaches.
const BY_X: [(u16, u16); 9] = [
    (LDA | X_RELATIVE, 1),
    (STA | X_RELATIVE, 1),
    (MIN | X_RELATIVE, 1),
    (LDD | X_RELATIVE, 2),
    (STD | X_RELATIVE, 2),
    (LDF | X_RELATIVE, 3),
    (STF | X_RELATIVE, 3),
    (srb(5), 8),
    (lrb(5), 8),
];

/// Words in the window, over its ends and below it; fetches there; with paging off
/// addresses past the memory.
pub fn window() -> Vec<Case> {
    let mut cases = Vec::new();
    for (word, reached) in BY_X {
        let mut before = vec![0, reached / 2, reached - 1, reached];
        before.dedup();
        for before in before {
            for (paging, ring) in [(true, 3), (true, 2), (false, 1)] {
                // Into the window, and out of it over address 0.
                for end in [false, true] {
                    push(&mut cases, |extended| {
                        let case = of(extended, "window").ptm(0).paging(paging).on_ring(ring);
                        let first = if end { 0 } else { case.window() };
                        case.reg(Reg::X, first.wrapping_sub(before)).at_p(word)
                    });
                }
            }
            // Into what is past the memory.
            push(&mut cases, |extended| {
                let case = of(extended, "past").paging(false);
                case.reg(Reg::X, MEMORY as u16 - before).at_p(word)
            });
        }
    }
    indirect_there(&mut cases);
    bytes_there(&mut cases);
    fetches_there(&mut cases);
    physical_there(&mut cases);
    cases
}

/// Indirect words in the window, leading into it or out of it.
fn indirect_there(cases: &mut Vec<Case>) {
    for code in [LDA, STF, MIN, JMP, JPL] {
        for (paging, ring) in [(true, 3), (true, 2), (false, 0)] {
            for to in [DATA, 0o177420] {
                push(cases, |extended| {
                    let case = of(extended, "window").ptm(0).paging(paging).on_ring(ring);
                    let case = case.reg(Reg::B, 0o177500).put(0o177500, false, to);
                    case.at_p(code | INDIRECT | B_RELATIVE)
                });
            }
        }
        // Past the memory.
        push(cases, |extended| {
            let case = of(extended, "past").paging(false).reg(Reg::B, 0o10000);
            case.at_p(code | INDIRECT | B_RELATIVE)
        });
    }
}

/// Bytes in the window, and past the memory.
fn bytes_there(cases: &mut Vec<Case>) {
    for word in [LBYT, SBYT] {
        for (paging, ring) in [(true, 3), (false, 2)] {
            for (t, x) in [(0o177500, 3), (0o177400, 0), (0o77700, 0o177777)] {
                push(cases, |extended| {
                    let case = of(extended, "window").ptm(0).paging(paging).on_ring(ring);
                    case.reg(Reg::T, t).reg(Reg::X, x).at_p(word)
                });
            }
        }
        push(cases, |extended| {
            let case = of(extended, "past").paging(false).reg(Reg::T, 0o10000);
            case.reg(Reg::X, 0).at_p(word)
        });
    }
}

/// Fetches in the window: of each kind of word, with operands there and elsewhere.
fn fetches_there(cases: &mut Vec<Case>) {
    let words = [
        AAA,
        LDA | 2,
        LDA | INDIRECT | 2,
        STF | 0o370,
        MIN | 4,
        JMP | INDIRECT | 2,
        LDA | X_RELATIVE,
        STF | INDIRECT | 2,
        LBYT,
        SBYT,
        srb(5),
        lrb(3),
        EXAM,
        seven(6, 0),
        MON,
        ILLEGAL,
        IOX | 0o14,
        EXR,
    ];
    for word in words {
        for (paging, ring) in [(true, 3), (false, 1)] {
            push(cases, |extended| {
                let case = of(extended, "there").ptm(0).paging(paging).ring(ring);
                let case = case.reg(Reg::P, 0o177500).by_physical(0o3210);
                case.reg(Reg::L, MIN | 1).at_p(word)
            });
        }
    }
    // On ring 2 it is an ordinary address; with paging off past the memory it is 9.
    push(cases, |extended| {
        of(extended, "there").reg(Reg::P, 0o177500).at_p(LDA | 2)
    });
    for p in [0o10000, 0o176777, 0o100000] {
        push(cases, |extended| {
            of(extended, "past").paging(false).reg(Reg::P, p)
        });
    }
}

/// EXAM, DEPO and the seven about the end of memory, the window and the banks.
fn physical_there(cases: &mut Vec<Case>) {
    let addresses = [
        0o7776, 0o7777, 0o10000, 0o176776, 0o176777, 0o177000, 0o177377, 0o177400, 0o177776,
        0o177777, 0o200000, 0o4000000,
    ];
    for address in addresses {
        let sevens = (0..7).map(|low| seven(low, 0));
        for word in [EXAM, DEPO].into_iter().chain(sevens) {
            push(cases, |extended| {
                of(extended, "physical").by_physical(address).at_p(word)
            });
        }
        // Over the bank's end by the displacement; where the window is memory.
        for word in [seven(0, 1), seven(2, 1), seven(6, 7)] {
            push(cases, |extended| {
                of(extended, "physical").by_physical(address).at_p(word)
            });
        }
    }
    for word in [EXAM, DEPO, seven(2, 1), seven(6, 0)] {
        for address in [0o177400, 0o177777, 0o200000] {
            push(cases, |extended| {
                let case = lent(extended, "physical", 65).by_physical(address);
                case.at_p(word)
            });
        }
    }
}
