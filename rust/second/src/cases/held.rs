//! PGS keeps the first fault until TRA PGS reads it; control word 26 says
//! whether it is held.
//!
//! Level 3 runs on ring 2, with table 3 as the normal one and table 0 as the
//! alternate one; level 14, which an interrupt calls, has tables 2 and 3.

use super::images::{load, operations};
use super::{Case, LEVEL, MEMORY, Operation};
use crate::decode::Reg;
use crate::image::{IMAGE_EXTRA, Target};
use crate::state::{CONTROL_WORDS, REGISTER_WORDS, control};
use crate::{PAGE, TABLE_WORDS};

#[cfg(test)]
mod tests;

const TRA_PGS: u16 = 0o150003;
/// Words that PGS may hold from before.
const OLD: u16 = 0o100231;
const OTHER: u16 = 0o140377;

/// Steps and runs.
pub fn cases() -> Vec<Case> {
    let mut cases = Vec::new();
    single(&mut cases);
    pairs(&mut cases);
    sequences(&mut cases);
    refused(&mut cases);
    executed(&mut cases);
    zero(&mut cases);
    blocks(&mut cases);
    several(&mut cases);
    transfers(&mut cases);
    between(&mut cases);
    others(&mut cases);
    levels(&mut cases);
    cases
}

/// Images, states out of range, and the operations that are no step.
pub fn operations_cases() -> Vec<Case> {
    let mut cases = Vec::new();
    raises_and_views(&mut cases);
    states(&mut cases);
    words_by_image(&mut cases);
    entries(&mut cases);
    older(&mut cases);
    writes(&mut cases);
    cases
}

impl Case {
    /// PGS, and whether it is held.
    fn held(self, held: u16, pgs: u16) -> Case {
        self.with(|state| {
            state.pgs_held = held;
            state.pgs = pgs;
        })
    }

    /// Changes the case as if another level ran.
    pub(super) fn for_level(self, level: usize, change: impl FnOnce(Case) -> Case) -> Case {
        let running = self.state.level;
        let case = change(self.with(|state| state.level = level as u16));
        case.with(|state| state.level = running)
    }
}

#[derive(Clone, Copy, Debug, PartialEq)]
enum Use {
    Fetch,
    Indirect,
    Read,
    Write,
}

/// Why an access fails: interrupts 3, 2, 2 and 9.
#[derive(Clone, Copy, Debug, PartialEq)]
enum Why {
    Absent,
    Permit,
    Ring,
    Beyond,
}

type Fault = (Use, Why);

/// Every use with every reason.
fn faults() -> impl Iterator<Item = Fault> {
    let uses = [Use::Fetch, Use::Indirect, Use::Read, Use::Write];
    let whys = [Why::Absent, Why::Permit, Why::Ring, Why::Beyond];
    uses.into_iter()
        .flat_map(move |usage| whys.map(|why| (usage, why)))
}

/// An entry that fails so for ring 2; the page's number is below 4.
fn entry((usage, why): Fault, page: u16) -> u16 {
    let bits = match (why, usage) {
        (Why::Absent, _) => 0o003000,
        (Why::Permit, Use::Fetch) => 0o142000,
        (Why::Permit, Use::Indirect) => 0o102000,
        (Why::Permit, Use::Read) => 0o122000,
        (Why::Permit, Use::Write) => 0o062000,
        (Why::Ring, _) => 0o163000,
        (Why::Beyond, _) => 0o162004,
    };
    bits | page & 3
}

/// A level that executes `first` and then meets the fault in virtual page
/// `page`; the words stand right before that page. A fetch that fails is one
/// of TRA PGS.
fn about(case: Case, level: usize, page: u16, first: &[u16], fault: Fault, ptm: u16) -> Case {
    let start = page << 10;
    let mut words = first.to_vec();
    match fault.0 {
        Use::Fetch => {}
        Use::Indirect => words.push(0o045405), // LDA I ,B 5
        Use::Read => words.push(0o044405),     // LDA ,B 5
        Use::Write => words.push(0o004405),    // STA ,B 5
    }
    let at = start - words.len() as u16;
    case.for_level(level, |case| {
        let case = case
            .ptm(ptm)
            .reg(Reg::P, at)
            .reg(Reg::B, start | 0o500)
            .code(at, &words);
        let case = case.put(start, false, TRA_PGS);
        let index = case.index(start, ptm == 1 && fault.0 != Use::Fetch);
        let physical = case.tables[index];
        case.entry(index, entry(fault, physical))
    })
}

/// One fault, with PGS held and not.
fn single(cases: &mut Vec<Case>) {
    for fault in faults() {
        for (turn, (held, pgs)) in (0..).zip([(0, 0), (1, 0), (0, OLD), (1, OLD), (1, OTHER)]) {
            let case = Case::step("held").held(held, pgs);
            cases.push(about(case, LEVEL, 5, &[], fault, turn % 2));
        }
    }
}

/// A fault on level 3, then one on level 14: kept, or read in between.
fn pairs(cases: &mut Vec<Case>) {
    for (turn, first) in faults().enumerate() {
        for (again, second) in faults().enumerate() {
            let ptm = (turn + again) as u16 % 2;
            let pair = |steps: u64, between: &[u16]| {
                let case = Case::new("held", Operation::Through(steps));
                let case = about(case, LEVEL, 5, &[], first, ptm);
                about(case, 14, 0o41, between, second, 1 - ptm)
            };
            cases.push(pair(3, &[]));
            if first.1 != Why::Beyond && second.1 != Why::Beyond {
                cases.push(pair(4, &[TRA_PGS]));
            }
        }
    }
}

/// What a program does next.
#[derive(Clone, Copy)]
enum Do {
    Read(u16),
    Write(u16),
    Word(u16),
}

use Do::{Read, Word, Write};

/// Where the programs stand, and the virtual pages of table 3 that they fault
/// in: by interrupt 3, by 2 when read, by 2 always, by 9.
const AT: u16 = 0o2600;
const ABSENT: u16 = 5;
const SHUT: u16 = 6;
const FOREIGN: u16 = 7;
const BEYOND: u16 = 9;

const TRA: Do = Word(TRA_PGS);
/// COPY SA DT, SA DX, SA DD: keeps what was read.
const TO_T: Do = Word(0o146156);
const TO_X: Do = Word(0o146157);
const TO_D: Do = Word(0o146151);

/// Level 3 with a program whose accesses go by a word each behind it. Its
/// interrupts raise no level.
fn program(label: &'static str, words: &[Do]) -> Case {
    let mut case = Case::new(label, Operation::Step).reg(Reg::P, AT).quiet();
    for (at, word) in (AT..).zip(words) {
        let (word, page) = match *word {
            Read(page) => (0o045100, page),  // LDA I *100
            Write(page) => (0o005100, page), // STA I *100
            Word(word) => (word, 0),
        };
        case = case.put(at, false, word);
        case = case.put(at + 0o100, false, page << 10 | at & 0o377);
    }
    case.page(ABSENT << 10, 0o001001)
        .page(SHUT << 10, 0o102001)
        .page(FOREIGN << 10, 0o163002)
        .page(BEYOND << 10, 0o162005)
}

/// Runs of one step, of two, and so on.
fn push(cases: &mut Vec<Case>, case: &Case, steps: u64) {
    for steps in 1..=steps {
        let operation = Operation::Through(steps);
        let case = case.clone();
        cases.push(Case { operation, ..case });
    }
}

fn sequences(cases: &mut Vec<Case>) {
    let sequences: [&[Do]; 6] = [
        // Two faults; what is read twice is the first. Then a third is taken.
        &[
            Read(ABSENT),
            Read(SHUT),
            TRA,
            TO_T,
            TRA,
            TO_X,
            Write(FOREIGN),
            Read(ABSENT),
            TRA,
            TO_D,
        ],
        // Interrupt 9 between two faults, and between two readings.
        &[
            Write(FOREIGN),
            Read(BEYOND),
            Read(ABSENT),
            TRA,
            TO_T,
            Write(BEYOND),
            TRA,
            TO_X,
            Read(SHUT),
        ],
        // Interrupt 9 alone, read, and alone again.
        &[
            Read(BEYOND),
            TRA,
            TO_T,
            Write(BEYOND),
            Read(SHUT),
            Read(BEYOND),
            TRA,
        ],
        // One fault again and again, and accesses that pass in between.
        &[
            Read(SHUT),
            Write(SHUT),
            Read(SHUT),
            TRA,
            Write(SHUT),
            Read(SHUT),
            Write(FOREIGN),
        ],
        // Read before there is a fault; several times after it.
        &[TRA, TO_T, TRA, Write(ABSENT), TRA, TRA, TO_X, TRA],
        // TRA IIC releases nothing, MCL, MST and TRR of PID and PIE neither.
        &[
            Read(ABSENT),
            Word(0o150005),
            Read(SHUT),
            Word(0o150206),
            Word(0o150306),
            Word(0o150106),
            Read(FOREIGN),
            TRA,
            Read(SHUT),
        ],
    ];
    for (turn, words) in sequences.into_iter().enumerate() {
        for (held, pgs) in [(0, OLD), (1, OTHER)] {
            let case = program("held", words).held(held, pgs);
            // Level 3 stays, whatever A puts into PID.
            let case = case.with(|state| state.pie = 0o10);
            let case = case.with(|state| state.interrupts_on = u16::from(turn != 5));
            push(cases, &case, words.len() as u64);
            let operation = Operation::ToInterrupt(words.len() as u64);
            cases.push(Case { operation, ..case });
        }
    }
}

/// TRA PGS that gives 6 releases nothing, nor does one that gives 4.
fn refused(cases: &mut Vec<Case>) {
    let words = [Read(ABSENT), TRA, Write(ABSENT), TRA, Read(SHUT)];
    for ring in 0..2 {
        let case = program("held", &words).ring(ring).own(AT);
        push(cases, &case, 5);
        push(cases, &case.held(1, OTHER), 3);
        // Lowered to that ring by the fetch.
        for from in [2, 3] {
            let case = program("held", &words).ring(ring).own(AT).ring(from);
            push(cases, &case, 3);
        }
    }
    // With paging off it is executed on every ring.
    for ring in 0..4 {
        for held in [0, 1] {
            let case = Case::step("held").paging(false).ring(ring).held(held, OLD);
            cases.push(case.reg(Reg::P, 0o600).word(0o600, TRA_PGS));
        }
    }
    // Bits of the number that make it illegal.
    for low in [0o23, 0o43, 0o63, 0o13] {
        let words = [Read(ABSENT), Word(0o150000 | low), Read(SHUT)];
        push(cases, &program("held", &words), 3);
    }
}

/// TRA PGS by EXR.
fn executed(cases: &mut Vec<Case>) {
    let exr = |reg: Reg, ring: u16, held: u16| {
        let case = Case::step("held").ring(ring).reg(Reg::P, AT).own(AT);
        let case = case.reg(reg, TRA_PGS).held(held, OLD);
        case.put(AT, false, 0o140600 | (reg as u16) << 3)
    };
    for held in [0, 1] {
        for reg in [Reg::B, Reg::L, Reg::A, Reg::T, Reg::X] {
            cases.push(exr(reg, 2, held));
        }
        for ring in 0..4 {
            cases.push(exr(Reg::D, ring, held));
        }
        // Lowered to ring 1 by the fetch of the EXR.
        cases.push(exr(Reg::D, 1, held).ring(2));
        // An EXR of an EXR of it, and one whose fetch fails.
        cases.push(
            exr(Reg::D, 2, held)
                .reg(Reg::D, 0o140650)
                .reg(Reg::A, TRA_PGS),
        );
        cases.push(exr(Reg::D, 2, held).page(AT, 0o142001));
    }
    // Between two faults: EXR SX.
    let words = [Read(ABSENT), Read(SHUT), Word(0o140670), Read(SHUT)];
    for ring in [1, 2] {
        let case = program("held", &words).ring(ring).own(AT);
        push(cases, &case.reg(Reg::X, TRA_PGS), 4);
    }
}

/// A ring violation of data in page 0 of table 0: PGS is 0, and held.
fn zero(cases: &mut Vec<Case>) {
    let base = || {
        let case = Case::step("held").with(|state| state.pcr[LEVEL] = 2);
        // LDA ,B 0 ends page 3; the fetch from page 4 fails.
        let case = case.reg(Reg::P, 0o7777).reg(Reg::B, 0o100);
        let case = case.code(0o7777, &[0o044400]);
        case.entry(0, 0o163001).entry(4, 0o002001)
    };
    for (held, pgs) in [(0, 0), (0, OTHER), (1, 0), (1, OTHER)] {
        push(cases, &base().quiet().held(held, pgs), 3);
        // The handler faults, reads 0 and faults again.
        let handler = |case: Case| {
            let case = case.reg(Reg::P, AT).reg(Reg::B, 0o102500);
            let case = case.code(AT, &[0o044400, TRA_PGS, 0o146157, 0o004400, TRA_PGS]);
            case.page(0o102500, 0o002001)
        };
        let case = base().held(held, pgs).for_level(14, handler);
        push(cases, &case, 7);
    }
}

/// SRB and LRB whose first or a later word fails.
fn blocks(cases: &mut Vec<Case>) {
    for word in [0o152432, 0o152442, 0o152630, 0o152640] {
        for passed in [0, 1, 4, 7] {
            for bad in [0, 0o022001, 0o163001, 0o162005] {
                for (held, pgs) in [(0, OLD), (1, OLD)] {
                    let case = Case::step("held").held(held, pgs);
                    let case = case.reg(Reg::P, AT).reg(Reg::X, 0o26000 - passed);
                    cases.push(case.at_p(word).page(0o26000, bad));
                }
            }
        }
    }
}

/// Other operands with more than one access.
fn several(cases: &mut Vec<Case>) {
    for held in [0, 1] {
        let start = || Case::step("held").held(held, OLD).reg(Reg::P, AT);
        for code in [0o022000, 0o026000, 0o032000, 0o036000] {
            for x in [0o26000, 0o25777] {
                for bad in [0, 0o163001] {
                    let case = start().reg(Reg::X, x).at_p(code);
                    cases.push(case.page(0o26000, bad));
                }
            }
        }
        // MIN and SBYT: read, then not written.
        for word in [0o042000, 0o142600] {
            let case = start().reg(Reg::T, 0o26000).at_p(word);
            let x = if word == 0o042000 { 0o26000 } else { 1 };
            cases.push(case.reg(Reg::X, x).page(0o26000, 0o062001));
        }
        // An indirect word that passes, and its operand that fails.
        let case = start().reg(Reg::B, 0o26000).at_p(0o045400);
        let case = case.put(0o26000, false, 0o32000);
        cases.push(case.page(0o32000, 0));
    }
}

/// Words that tell the internal registers apart.
fn marked(held: u16) -> Case {
    Case::step("held").held(held, OLD).with(|state| {
        state.pid = 0o10653;
        state.pie = 0o2110;
        state.iid = 0o1224;
        state.iie = 0o2452;
        state.interrupts_on = 0;
    })
}

/// TRA, TRR, MCL and MST of every number: only TRA PGS releases.
fn transfers(cases: &mut Vec<Case>) {
    for kind in 0..4 {
        for number in 0..16 {
            let word = 0o150000 | kind << 6 | number;
            for held in [0, 1] {
                let case = marked(held).reg(Reg::P, AT).reg(Reg::A, 0o146327);
                cases.push(case.at_p(word));
            }
        }
    }
}

/// Instructions that touch internal registers between two faults: TRA, TRR,
/// MCL, MST, IOF, ION, PON. A names level 5, and no level changes.
fn between(cases: &mut Vec<Case>) {
    for word in [
        0o150001, 0o150004, 0o150005, 0o150006, 0o150007, 0o150011, 0o150014, 0o150101, 0o150103,
        0o150105, 0o150106, 0o150107, 0o150201, 0o150206, 0o150207, 0o150301, 0o150306, 0o150307,
        0o150401, 0o150402, 0o150410,
    ] {
        let words = [Read(ABSENT), Word(word), Read(SHUT)];
        let case = program("held", &words).reg(Reg::A, 0o52);
        let operation = Operation::Through(3);
        let case = Case { operation, ..case };
        cases.push(case.with(|state| state.interrupts_on = 0));
    }
}

/// Every other privileged instruction, what gives the other interrupts, and a
/// word of every class.
fn others(cases: &mut Vec<Case>) {
    let words = [
        0o150401, 0o150402, 0o150404, 0o150405, 0o150410, 0o150412, 0o151000, 0o150415, 0o150416,
        0o150417, 0o164000, 0o143604, 0o152442, 0o152640, 0o153445, 0o153645, 0o153007, 0o140700,
        0o141600, 0o140650,
    ];
    for word in words {
        for held in [0, 1] {
            for on in [0, 1] {
                let case = Case::step("held").held(held, OTHER).reg(Reg::P, AT);
                let case = case.with(|state| state.interrupts_on = on);
                cases.push(case.reg(Reg::X, 0o26000).reg(Reg::A, 0).at_p(word));
            }
        }
    }
    for class in 0..64 {
        let case = Case::step("held").held(1, OTHER).reg(Reg::P, AT);
        cases.push(case.at_p(class << 10 | (class * 5 % 64)));
    }
}

/// A change of level leaves it, and PGS is one for all levels.
fn levels(cases: &mut Vec<Case>) {
    for held in [0, 1] {
        for level in [0, 1, 9, 14, 15] {
            let case = Case::step("held").held(held, OLD);
            cases.push(case.with(|state| state.pid = 1 << level));
            let case = Case::step("held").on_level(level).held(held, OLD);
            cases.push(case.with(|state| state.pid = 8));
        }
        let stopped = Case::step("held").held(held, OLD);
        cases.push(stopped.with(|state| state.stopped = 1));
    }
    // A fault, level 14 gives up before it reads, the fault again; then it
    // reads: WAIT, JMP *1, TRA PGS, WAIT.
    let case = about(Case::step("held"), LEVEL, 5, &[], (Use::Read, Why::Ring), 0);
    let case = case.code(0o12000, &[0o044406, 0o044407]);
    let handler = |case: Case| {
        case.reg(Reg::P, AT)
            .code(AT, &[0o151000, 0o124001, TRA_PGS, 0o151000])
    };
    let case = case.for_level(14, handler).page(0o12000, 0o162003);
    let case = case.reg(Reg::B, 0o16500).page(0o16000, 0o163002);
    push(cases, &case, 12);
}

fn raises_and_views(cases: &mut Vec<Case>) {
    for held in [0, 1] {
        for level in [9, 10, 11, 12, 13, 14, 15, 16] {
            let case = Case::new("held", Operation::Raise(level));
            cases.push(case.held(held, OLD));
        }
        for view in [
            Operation::View(Target::Memory, 5, 3),
            Operation::View(Target::Tables, 5, 3),
            Operation::View(Target::Memory, MEMORY, 1),
        ] {
            cases.push(Case::new("held", view).held(held, OLD));
        }
    }
}

/// Other values than 0 and 1: 2 in every operation that tests the state.
fn states(cases: &mut Vec<Case>) {
    for held in [0, 1, 2, 3, 0o100000, 0o100001, 0o177777] {
        let mut all = operations();
        all.push(Operation::ToInterrupt(0));
        all.push(Operation::WriteLoad(MEMORY + IMAGE_EXTRA));
        // 2 before 3, before 10, and beside stopped.
        all.push(Operation::Raise(3));
        all.push(Operation::Write(3));
        for operation in all {
            cases.push(Case::new("held", operation).held(held, OLD));
        }
        let stopped = Case::step("held").held(held, 0);
        cases.push(stopped.with(|state| state.stopped = 1));
        // 1 before 2.
        let case = Case::sized("held", Operation::Step, PAGE + 1, TABLE_WORDS);
        cases.push(case.held(held, 0));
    }
}

/// An image that names the last control word alone, with all others, and with
/// PGS.
fn words_by_image(cases: &mut Vec<Case>) {
    let last = control::PGS_HELD as u16;
    let all = Case::step("held").state.to_words()[REGISTER_WORDS..].to_vec();
    for held in [0, 1, 2, 3, 0o177777] {
        cases.push(load(vec![1, 3, 0, last, 0, 1, held]));
        let mut image = vec![1, 3, 0, 0, 0, CONTROL_WORDS as u16];
        image.extend(&all);
        image[6 + control::PGS_HELD] = held;
        cases.push(load(image));
        for pgs in [0, OLD, 0o400] {
            let pgs_at = control::PGS as u16;
            let image = vec![2, 3, 0, last, 0, 1, 3, 0, pgs_at, 0, 1, held, pgs];
            cases.push(load(image));
        }
    }
}

/// An image of entries of control words (start, length); the words are 0 but
/// the last one.
fn image(entries: &[(u16, u16)], last: u16) -> Vec<u16> {
    let mut words = vec![entries.len() as u16];
    for &(start, length) in entries {
        words.extend([3, 0, start, 0, length]);
    }
    let bodies = entries.iter().map(|entry| usize::from(entry.1)).sum();
    let mut body = vec![0; bodies];
    if let Some(word) = body.last_mut() {
        *word = last;
    }
    words.extend(body);
    words
}

/// The last control word, and the end behind it.
const LAST: u16 = END - 1;
const END: u16 = CONTROL_WORDS as u16;

/// Entries about the end of the control words: 6 beyond it, 7 twice there.
fn entries(cases: &mut Vec<Case>) {
    let entries: [&[(u16, u16)]; 18] = [
        &[(0, LAST)],
        &[(0, END)],
        &[(0, END + 1)],
        &[(LAST, 0)],
        &[(LAST, 1)],
        &[(LAST, 2)],
        &[(END, 0)],
        &[(END, 1)],
        &[(END + 1, 0)],
        &[(LAST - 1, 2)],
        &[(LAST - 1, 3)],
        &[(0, LAST), (LAST, 1)],
        &[(LAST, 1), (0, LAST)],
        &[(0, END), (LAST, 1)],
        &[(LAST, 1), (LAST, 1)],
        &[(LAST, 1), (LAST - 1, 2)],
        &[(LAST, 1), (END, 0), (LAST, 0)],
        &[(LAST, 1), (LAST, 2)],
    ];
    for entries in entries {
        for last in [0, 1] {
            let words = image(entries, last);
            cases.push(load(words.clone()).held(1 - last, OLD));
            // A word short, a word long: 8, unless the contents are refused.
            if last == 1 {
                let short = words[..words.len() - 1].to_vec();
                cases.push(load(short).held(1, OLD));
                let long = [&words[..], &[1]].concat();
                cases.push(load(long).held(1, OLD));
            }
        }
    }
}

/// Images with 26 control words, into a machine that is held: it is not.
fn older(cases: &mut Vec<Case>) {
    let last = control::PGS_HELD;
    for (held, pgs) in [(0, OLD), (1, OLD), (1, 0)] {
        let lent = Case::step("held").held(held, pgs);
        let words = lent.state.to_words();
        let mut image = vec![2, 2, 0, 0, 0, REGISTER_WORDS as u16];
        image.extend([3, 0, 0, 0, last as u16]);
        image.extend(&words[..REGISTER_WORDS + last]);
        cases.push(load(image).held(held, pgs));
        cases.push(load(vec![0]).held(held, pgs));
        let pgs_at = control::PGS as u16;
        cases.push(load(vec![1, 3, 0, pgs_at, 0, 1, OTHER]).held(held, pgs));
    }
}

fn writes(cases: &mut Vec<Case>) {
    for (held, pgs) in [(0, 0), (0, OLD), (1, 0), (1, OLD)] {
        for extra in [IMAGE_EXTRA - 1, IMAGE_EXTRA, IMAGE_EXTRA + 1] {
            for operation in [
                Operation::Write(PAGE + extra),
                Operation::WriteLoad(PAGE + extra),
            ] {
                let case = Case::sized("held", operation, PAGE, TABLE_WORDS);
                cases.push(case.held(held, pgs));
            }
        }
    }
}
