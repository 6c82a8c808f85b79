//! Random cases of one step, for evaluating other implementations.

use crate::answer::Interrupt;
use crate::decode::{Instr, Reg, decode};
use crate::devices::{DEVICE_WORDS, Devices, MOST_DEVICE_WORDS, device};
use crate::image::{IMAGE_EXTRA, write};
use crate::random::Random;
use crate::state::{
    CONTROL_WORDS, FIRST_DEVICE, INTERNAL_BITS, PCR_BITS, PGS_BITS, REGISTER_WORDS, State,
};
use crate::step::step;
use crate::{PAGE, TABLE_WORDS};
use std::fmt::Write as _;

/// A start: state in range, memory and page tables.
#[derive(Clone, Debug, PartialEq, Eq)]
pub struct Start {
    pub state: State,
    pub memory: Vec<u16>,
    pub tables: Vec<u16>,
}

/// Base and mask of the bits that vary, one for each kind of instruction.
const CLASSES: [(u16, u16); 107] = [
    (0o000000, 0o003777), // STZ
    (0o004000, 0o003777),
    (0o010000, 0o003777),
    (0o014000, 0o003777),
    (0o020000, 0o003777),
    (0o024000, 0o003777),
    (0o030000, 0o003777),
    (0o034000, 0o003777),
    (0o040000, 0o003777),
    (0o044000, 0o003777),
    (0o050000, 0o003777),
    (0o054000, 0o003777),
    (0o060000, 0o003777),
    (0o064000, 0o003777),
    (0o070000, 0o003777),
    (0o074000, 0o003777), // ORA
    (0o020000, 0o003777), // again those with more than one access
    (0o024000, 0o003777),
    (0o030000, 0o003777),
    (0o034000, 0o003777),
    (0o040000, 0o003777),
    (0o100000, 0o017777), // floating: illegal
    (0o120000, 0o003777), // MPY
    (0o124000, 0o003777), // JMP
    (0o130000, 0o003777), // conditional jumps
    (0o134000, 0o003777), // JPL
    (0o140000, 0o003477), // skips
    (0o140000, 0o003477),
    (0o140000, 0o003777), // skips and what shares their codes
    (0o140600, 0o000077), // EXR
    (0o140600, 0o000077),
    (0o140600, 0o000077),
    (0o140600, 0o000077),
    (0o141200, 0o000077), // RMPY
    (0o141600, 0o000077), // RDIV
    (0o141600, 0o000077),
    (0o142200, 0o000077), // LBYT
    (0o142600, 0o000077), // SBYT
    (0o142600, 0o000077),
    (0o143200, 0o000077), // MIX3
    (0o143300, 0o000077), // by T and X
    (0o143300, 0o000077),
    (0o143300, 0o000077),
    (0o143300, 0o000077),
    (0o143600, 0o000077), // IDENT
    (0o143604, 0o000000), // PL10
    (0o143622, 0o000000), // PL12
    (0o143643, 0o000000), // PL13
    (0o144000, 0o000377), // SWAP
    (0o144400, 0o000377), // RAND
    (0o145000, 0o000377), // REXO
    (0o145400, 0o000377), // RORA
    (0o146000, 0o001777), // adding
    (0o146000, 0o001777),
    (0o146000, 0o001777),
    (0o150000, 0o000017), // TRA
    (0o150100, 0o000017), // TRR
    (0o150200, 0o000007), // MCL
    (0o150300, 0o000007), // MST
    (0o150000, 0o000377), // transfers, served or not
    (0o150001, 0o000000), // TRA STS
    (0o150003, 0o000000), // TRA PGS
    (0o150004, 0o000000), // TRA PVL
    (0o150005, 0o000000), // TRA IIC
    (0o150011, 0o000000), // TRA ACTL
    (0o150014, 0o000000), // TRA PGC
    (0o150101, 0o000000), // TRR STS
    (0o150103, 0o000000), // TRR PCR
    (0o150105, 0o000000), // TRR IIE
    (0o150201, 0o000100), // MCL and MST STS
    (0o150206, 0o000101), // MCL and MST PID, PIE
    (0o150401, 0o000000), // IOF
    (0o150402, 0o000000), // ION
    (0o150404, 0o000001), // POF, PIOF
    (0o150406, 0o000001), // SEX, REX
    (0o150406, 0o000001),
    (0o150410, 0o000002), // PON, PION
    (0o150415, 0o000002), // IOXT, DEPO
    (0o150415, 0o000000), // IOXT
    (0o150415, 0o000000),
    (0o150416, 0o000000), // EXAM
    (0o150417, 0o000000), // DEPO
    (0o150400, 0o000377), // the rest of their page
    (0o151000, 0o000377), // WAIT
    (0o151400, 0o000377), // NLZ: illegal
    (0o152402, 0o000170), // SRB
    (0o152402, 0o000170),
    (0o152600, 0o000170), // LRB
    (0o152600, 0o000170),
    (0o152000, 0o000777), // DNZ, SRB's page
    (0o153000, 0o000377), // MON
    (0o153400, 0o000177), // IRW
    (0o153600, 0o000177), // IRR
    (0o154000, 0o003677), // shifts
    (0o154000, 0o003677),
    (0o154000, 0o003677),
    (0o154000, 0o003777), // shifts, bit 6 too
    (0o160000, 0o003777), // illegal
    (0o164000, 0o003777), // IOX
    (0o164010, 0o000003), // the clock
    (0o164010, 0o000003),
    (0o164300, 0o000007), // the terminal
    (0o164300, 0o000007),
    (0o164300, 0o000007),
    (0o170000, 0o003777), // arguments
    (0o174000, 0o003777), // bits
    (0o174000, 0o003777),
];

/// Operands at the ends of their ranges.
const ENDS: [u16; 16] = [
    0, 1, 2, 3, 0o376, 0o377, 0o400, 0o77776, 0o77777, 0o100000, 0o100001, 0o177400, 0o177376,
    0o177776, 0o177777, 0o52525,
];

/// A random start, of which the step is likely to be of interest.
pub fn start(random: &mut Random) -> Start {
    let pages = 1 + random.below(4) as usize;
    let mut start = Start {
        state: State::new(),
        memory: vec![0; pages * PAGE],
        tables: vec![0; TABLE_WORDS],
    };
    // Virtual pages in use: address registers point near their edges.
    let mut live = [0; 6];
    for page in &mut live {
        *page = random.below(64) as u16;
    }
    live[0] = random.pick(&[0, 0, 63, live[0]]);
    live[1] = (live[0] + 1) % 64;
    live[2] = random.pick(&[63, 63, live[2]]);
    if random.one_in(2) {
        live[4] = (live[3] + 1) % 64;
    }

    control(random, &mut start.state);
    start.state.devices = devices(random);
    tables(random, &mut start, &live, pages);
    let paging = start.state.paging_on == 1;
    let physical = (pages * PAGE) as u16;
    let window = window(&start.state);

    for file in &mut start.state.files {
        for reg in file.iter_mut() {
            if random.one_in(6) {
                *reg = random.word();
            }
        }
        file[0] &= 0o377;
    }
    let level = usize::from(start.state.level);
    for number in 1..8 {
        start.state.files[level][number] = match random.below(8) {
            0 | 1 => random.pick(&ENDS),
            2 => random.word(),
            _ => address(random, &live, window, paging, physical),
        };
    }
    start.state.files[level][0] = random.word() & 0o377;
    let mut p = match random.below(16) {
        0 => in_window(random, window),
        1 => random.word(),
        _ if paging => live[0] << 10 | offset(random),
        _ => random.word() % physical,
    };
    if paging && start.state.pcr[level] & 3 == 3 && random.one_in(8) {
        p = in_window(random, window);
    }
    start.state.files[level][2] = p;
    if random.one_in(4) {
        // A byte address that reaches a live page.
        start.state.files[level][7] = random.word() % 8;
    }

    let word = instruction(random);
    if let Instr::Exr { src } = decode(word)
        && src != Reg::Sts
        && src != Reg::P
        && !random.one_in(8)
    {
        start.state.files[level][src as usize] = instruction(random);
    }
    if matches!(decode(word), Instr::Exam | Instr::Depo) && !random.one_in(4) {
        start.state.files[level][5] = 0;
    }
    let executed = match decode(word) {
        Instr::Exr {
            src: Reg::T | Reg::X,
        } => Instr::Illegal,
        Instr::Exr { src } => decode(start.state.files[level][src as usize]),
        instr => instr,
    };
    if let Instr::Physical { disp, .. } = executed
        && !random.one_in(8)
    {
        physical_address(random, &mut start, disp);
    }
    if executed == Instr::Ioxt && !random.one_in(8) {
        start.state.files[level][Reg::T as usize] = random.pick(&device::ALL);
    }
    if matches!(decode(word), Instr::Rdiv { .. }) && random.one_in(2) {
        // A dividend whose quotient may fit.
        start.state.files[level][5] = random.pick(&[0, 0, 0o177777, 0o177777, 1, 0o177776]);
    }

    // Words that may be read: operands, indirect words, the other half.
    for _ in 0..random.below(6) {
        let at = random.below(start.memory.len() as u64) as usize;
        start.memory[at] = random.word();
    }
    let file = start.state.files[level];
    let disp = word as u8 as i8 as u16;
    let (b, t, x) = (file[3], file[6], file[7]);
    let bases = [
        p.wrapping_add(disp),
        b.wrapping_add(disp),
        x.wrapping_add(disp),
        b.wrapping_add(x).wrapping_add(disp),
        t.wrapping_add(x >> 1),
        x,
    ];
    for base in bases {
        for further in 0..3 {
            let value = match random.below(4) {
                0 => random.pick(&ENDS),
                1 => random.word(),
                _ => address(random, &live, window, paging, physical),
            };
            put(&mut start, base.wrapping_add(further), value);
        }
    }
    // Most fetches pass.
    let pcr = start.state.pcr[level];
    if paging && !random.one_in(8) {
        let slot = usize::from((pcr >> 9 & 3) << 6 | p >> 10);
        let entry = &mut start.tables[slot << start.state.extended];
        *entry |= 1 << 13;
        if *entry >> 9 & 3 > pcr & 3 {
            *entry = *entry & !(3 << 9) | (pcr & 3) << 9;
        }
        if physical_page(&start, slot) >= pages {
            let (at, bits) = page_of_entry(&start.state, slot);
            start.tables[at] &= !bits;
        }
    }
    put_normal(&mut start, p, word);
    start
}

fn control(random: &mut Random, state: &mut State) {
    let any = random.below(16) as u16;
    state.level = random.pick(&[0, 0, 1, 9, 10, 13, 14, 15, any]);
    state.interrupts_on = random.below(2) as u16;
    state.paging_on = (!random.one_in(4)).into();
    state.stopped = random.one_in(50).into();
    state.pvl = random.below(16) as u16;
    let words = [random.word(), random.word(), random.word()];
    state.iid = random.pick(&[0, words[0] & INTERNAL_BITS]);
    state.iie = random.pick(&[0, INTERNAL_BITS, words[1] & INTERNAL_BITS]);
    state.pgs = random.pick(&[0, words[2] & PGS_BITS]);
    // By bits that PGS has not: held or not, whatever it is; the mode.
    state.pgs_held = words[2] >> 8 & 1;
    state.extended = words[2] >> 9 & 1;
    for pcr in &mut state.pcr {
        if random.one_in(4) {
            *pcr = random.word() & PCR_BITS;
        }
    }
    state.pcr[usize::from(state.level)] = random.word() & PCR_BITS;
    state.pid = random.word();
    state.pie = random.word();
    if !random.one_in(12) {
        // The running level is the highest pending and enabled one.
        state.pid &= !(state.pie & (0o177776 << state.level));
        if state.level != 0 || random.one_in(2) {
            state.pid |= 1 << state.level;
            state.pie |= 1 << state.level;
        }
    }
}

/// Devices in any of their states.
pub fn devices(random: &mut Random) -> Devices {
    let words = MOST_DEVICE_WORDS.map(|most| random.below(u64::from(most) + 1) as u16);
    Devices::from_words(&words)
}

/// Entries of the live pages in all four tables, in the form of the other mode
/// first and over it in that of the mode.
fn tables(random: &mut Random, start: &mut Start, live: &[u16], pages: usize) {
    start.state.extended ^= 1;
    entries(random, start, live, pages);
    start.state.extended ^= 1;
    entries(random, start, live, pages);
    for _ in 0..random.below(4) {
        start.tables[random.below(TABLE_WORDS as u64) as usize] = random.word();
    }
}

fn entries(random: &mut Random, start: &mut Start, live: &[u16], pages: usize) {
    let ring = start.state.pcr[usize::from(start.state.level)] & 3;
    for table in 0..4 {
        for &page in live {
            let permits = match random.below(16) {
                0 => 0,
                1..=5 => random.below(8) as u16,
                _ => 7,
            };
            let entry_ring = match random.below(16) {
                0 => random.below(4) as u16,
                1..=4 => random.below(u64::from(ring) + 1) as u16,
                _ => ring,
            };
            let page_number = match random.below(16) {
                0 => random.pick(&[pages as u16, 0o777, 0o400, 0o1000, 0o37777]),
                _ => random.below(pages as u64) as u16,
            };
            let marks = random.pick(&[0, 0, 1, 2, 3]);
            let slot = usize::from(table << 6 | page);
            let word = permits << 13 | marks << 11 | entry_ring << 9;
            set_entry(start, slot, word, page_number);
            if start.state.extended == 1 {
                let unused = random.pick(&[0, 0, 0o777, 0o140000, 0o40001]);
                start.tables[2 * slot] |= unused & 0o777;
                start.tables[2 * slot + 1] |= unused & 0o140000;
            }
        }
    }
}

/// An entry in the form of the mode: permits, marks and ring, and the page.
pub fn set_entry(start: &mut Start, slot: usize, word: u16, page: u16) {
    if start.state.extended == 1 {
        start.tables[2 * slot] = word;
        start.tables[2 * slot + 1] = page;
    } else {
        start.tables[slot] = word | page & 0o777;
    }
}

/// First address of the page-table window.
pub fn window(state: &State) -> u16 {
    match state.extended {
        0 => 0o177400,
        _ => 0o177000,
    }
}

pub fn in_window(random: &mut Random, window: u16) -> u16 {
    window + random.below(0o200000 - u64::from(window)) as u16
}

/// The table word that has an entry's page, and the bits of it.
fn page_of_entry(state: &State, slot: usize) -> (usize, u16) {
    match state.extended {
        0 => (slot, 0o777),
        _ => (2 * slot + 1, 0o37777),
    }
}

fn physical_page(start: &Start, slot: usize) -> usize {
    let (at, bits) = page_of_entry(&start.state, slot);
    usize::from(start.tables[at] & bits)
}

/// T and X that lead to memory, its end, the window or just about it; and words
/// there to be read.
pub fn physical_address(random: &mut Random, start: &mut Start, disp: u16) {
    let size = start.memory.len() as u64;
    let window = u64::from(window(&start.state));
    let near = random.pick(&[0, 1, 2]);
    let p = match random.below(10) {
        0..4 => random.below(size),
        4 => size - near,
        5 => window - near,
        6 => window + random.below(65_536 - window),
        7 => 65_536 - near,
        8 => random.pick(&[
            0o176776, 0o177000, 0o177377, 0o177400, 65_536, 131_071, 524_288,
        ]),
        _ => random.pick(&[
            16_777_215,
            16_777_216,
            1 << 31,
            u64::from(u32::MAX),
            1 << 32,
        ]),
    };
    for further in 0..2 {
        if let Some(word) = start.memory.get_mut((p + further) as usize) {
            *word = random.word();
        }
    }
    let file = &mut start.state.files[usize::from(start.state.level)];
    // T and X hold what the displacement leaves, with the carry or without.
    let base = p.saturating_sub(u64::from(disp)).min(u32::MAX.into());
    file[Reg::T as usize] = (base >> 16) as u16;
    file[Reg::X as usize] = base as u16;
}

/// An offset in a page, often near its edges.
fn offset(random: &mut Random) -> u16 {
    match random.below(4) {
        0 => random.pick(&[0, 1, 2, 1020, 1021, 1022, 1023]),
        _ => random.word() & 1023,
    }
}

fn address(random: &mut Random, live: &[u16], window: u16, paging: bool, physical: u16) -> u16 {
    match random.below(12) {
        0 => in_window(random, window),
        1 => random.pick(&[
            0o176777,
            0o177000,
            0o177377,
            0o177400,
            0o177776,
            0o177777,
            physical - 1,
            physical,
        ]),
        _ if paging => random.pick(live) << 10 | offset(random),
        _ => random.word() % physical,
    }
}

/// A random instruction of any kind.
pub fn instruction(random: &mut Random) -> u16 {
    if random.one_in(20) {
        return random.word();
    }
    let (base, mask) = random.pick(&CLASSES);
    let word = base | random.word() & mask;
    // Small displacements more often.
    if word < 0o140000 && random.one_in(2) {
        let small = random.pick(&[0, 1, 2, 0o376, 0o377, 0o177, 0o200]);
        return word & !0o377 | small;
    }
    word
}

/// Puts a word where an address leads by the normal and the alternate table.
fn put(start: &mut Start, address: u16, word: u16) {
    put_normal(start, address, word);
    let pcr = start.state.pcr[usize::from(start.state.level)];
    put_by(start, address, pcr >> 7 & 3, word.rotate_left(1));
}

fn put_normal(start: &mut Start, address: u16, word: u16) {
    let pcr = start.state.pcr[usize::from(start.state.level)];
    put_by(start, address, pcr >> 9 & 3, word);
}

fn put_by(start: &mut Start, address: u16, table: u16, word: u16) {
    let pcr = start.state.pcr[usize::from(start.state.level)];
    let paging = start.state.paging_on == 1;
    let window = window(&start.state);
    if address >= window && (!paging || pcr & 3 == 3) {
        start.tables[usize::from(address - window)] = word;
        return;
    }
    let at = if paging {
        let slot = usize::from(table << 6 | address >> 10);
        physical_page(start, slot) * PAGE + usize::from(address) % PAGE
    } else {
        usize::from(address)
    };
    if let Some(place) = start.memory.get_mut(at) {
        *place = word;
    }
}

/// The image that the writer makes of a start.
pub fn image(start: &Start) -> Vec<u16> {
    let mut image = vec![0; start.memory.len() + IMAGE_EXTRA];
    write(&start.state, &start.memory, &start.tables, &mut image)
        .expect("a start is in range and the image fits");
    image
}

/// The same as it was written before there were devices: 28 control words and
/// page tables of 512; before extended mode 26 or, with PGS held, 27 control words
/// and page tables of 256.
pub fn older_image(start: &Start, control_words: usize) -> Vec<u16> {
    let tables = match control_words {
        CONTROL_WORDS => TABLE_WORDS,
        _ => TABLE_WORDS / 2,
    };
    let words = start.state.to_words();
    let (registers, rest) = words.split_at(REGISTER_WORDS);
    let bodies = [
        &start.memory,
        registers,
        &rest[..control_words],
        &start.tables[..tables],
    ];
    let mut image = vec![bodies.len() as u16];
    for (kind, body) in (1..).zip(bodies) {
        let length = body.len();
        image.extend([kind, 0, 0, (length >> 16) as u16, length as u16]);
    }
    image.extend(bodies.concat());
    image
}

/// One case in the line format of `NOTES.md`: the start, then what one step
/// makes of it.
pub fn case_text(number: u64, start: &Start) -> String {
    let mut end = start.clone();
    let answer = step(&mut end.state, &mut end.memory, &mut end.tables);
    let interrupt = match answer {
        Ok(interrupt) => interrupt.map_or(0, Interrupt::number),
        Err(refusal) => panic!("start refused: {refusal:?}"),
    };
    let mut text = String::new();
    let words = start.state.to_words();
    let _ = writeln!(text, "case {number} pages {}", start.memory.len() / PAGE);
    let (registers, rest) = words.split_at(REGISTER_WORDS);
    let (control, devices) = rest.split_at(CONTROL_WORDS);
    sparse(&mut text, "reg", registers, &[0; REGISTER_WORDS]);
    sparse(&mut text, "ctl", control, &[0; CONTROL_WORDS]);
    sparse(&mut text, "dev", devices, &[0; DEVICE_WORDS]);
    sparse(
        &mut text,
        "mem",
        &start.memory,
        &vec![0; start.memory.len()],
    );
    sparse(&mut text, "tab", &start.tables, &[0; TABLE_WORDS]);
    let _ = writeln!(text, "int {interrupt}");
    let words = end.state.to_words();
    full(&mut text, "reg=", &words[..REGISTER_WORDS]);
    full(&mut text, "ctl=", &words[REGISTER_WORDS..FIRST_DEVICE]);
    full(&mut text, "dev=", &words[FIRST_DEVICE..]);
    sparse(&mut text, "mem+", &end.memory, &start.memory);
    sparse(&mut text, "tab+", &end.tables, &start.tables);
    text.push_str("end\n");
    text
}

/// Words that differ from `from`, as index:word in octal.
fn sparse(text: &mut String, name: &str, words: &[u16], from: &[u16]) {
    text.push_str(name);
    for (index, (word, old)) in words.iter().zip(from).enumerate() {
        if word != old {
            let _ = write!(text, " {index:o}:{word:o}");
        }
    }
    text.push('\n');
}

fn full(text: &mut String, name: &str, words: &[u16]) {
    text.push_str(name);
    for word in words {
        let _ = write!(text, " {word:o}");
    }
    text.push('\n');
}
