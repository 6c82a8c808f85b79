//! Privileged instructions, calls, levels and internal interrupts, a step each.

use super::Case;
use crate::decode::Reg;

pub fn cases() -> Vec<Case> {
    let mut cases = Vec::new();
    switches(&mut cases);
    transfers(&mut cases);
    waits(&mut cases);
    registers(&mut cases);
    blocks(&mut cases);
    physical(&mut cases);
    calls(&mut cases);
    changes(&mut cases);
    interrupts(&mut cases);
    cases
}

fn switches(cases: &mut Vec<Case>) {
    for word in [
        0o150401, 0o150402, 0o150404, 0o150405, 0o150410, 0o150412, 0o151000, 0o151377,
    ] {
        for both in 0..4 {
            for ring in 0..4 {
                let case = Case::step("switch")
                    .reg(Reg::P, 0o600)
                    .paging(both & 1 == 1)
                    .ring(ring)
                    .with(|state| state.interrupts_on = both >> 1);
                let index = case.index(0o600, false);
                let own = case.tables[index] & !0o3000 | ring << 9;
                cases.push(case.entry(index, own).at_p(word));
            }
        }
    }
}

fn transfers(cases: &mut Vec<Case>) {
    // Every word of the class, with words to tell apart.
    let mark = |case: Case| {
        case.with(|state| {
            state.pid = 0o10653;
            state.pie = 0o2110;
            state.iid = 0o1224;
            state.iie = 0o2452;
            state.pgs = 0o100231;
            state.level = 3;
            state.interrupts_on = 0;
        })
    };
    for word in 0o150000..0o150400 {
        cases.push(
            mark(Case::step("transfer"))
                .reg(Reg::A, 0o146327)
                .at_p(word),
        );
    }
    for word in [
        0o150101, 0o150103, 0o150105, 0o150106, 0o150107, 0o150201, 0o150206, 0o150207, 0o150301,
        0o150306, 0o150307,
    ] {
        for a in [0, 0o177777, 0o125252, 0o52525, 0o177400, 0o377] {
            cases.push(mark(Case::step("transfer")).reg(Reg::A, a).at_p(word));
        }
    }
    for level in 0..16 {
        let a = (level as u16) << 3 | 0o177607;
        for word in [0o150103, 0o150014] {
            cases.push(mark(Case::step("transfer")).reg(Reg::A, a).at_p(word));
            cases.push(
                mark(Case::step("transfer"))
                    .reg(Reg::A, a & 0o170)
                    .at_p(word),
            );
        }
        // PCR's bits, one at a time.
        cases.push(
            Case::step("transfer")
                .reg(Reg::A, 1 << level | 0o100)
                .at_p(0o150103),
        );
        // STS, PVL and ACTL by level.
        for word in [0o150001, 0o150011] {
            let case = Case::step("transfer").on_level(level).reg(Reg::P, 0o600);
            let index = case.index(0o600, false);
            let own = case.tables[index];
            let both = (level % 4) as u16;
            let case = case
                .with(|state| state.interrupts_on = both & 1)
                .paging(both & 2 == 2);
            cases.push(case.entry(index, own).at_p(word));
        }
        let case = Case::step("transfer").with(|state| state.pvl = level as u16);
        cases.push(case.at_p(0o150004));
        // IIC by number, alone and with lower ones.
        if (1..11).contains(&level) {
            for iid in [1 << level, (2 << level) - 2] {
                let case = Case::step("transfer").with(|state| state.iid = iid);
                cases.push(case.at_p(0o150005));
            }
        }
    }
    cases.push(Case::step("transfer").at_p(0o150005));
    // PTM set by TRR: the step's own accesses are over.
    cases.push(Case::step("transfer").reg(Reg::A, 0o177401).at_p(0o150101));
}

fn waits(cases: &mut Vec<Case>) {
    for level in 0..16 {
        for on in [0, 1] {
            let case = Case::step("wait").on_level(level).with(|state| {
                state.interrupts_on = on;
                state.pid |= ((1 << level) - 1) | 1;
            });
            cases.push(case.at_p(0o151000 | level as u16));
        }
    }
}

fn registers(cases: &mut Vec<Case>) {
    for level in 0..16 {
        for reg in 0..8 {
            for word in [0o153400, 0o153600] {
                let case = Case::step("level").reg(Reg::A, 0o123456);
                cases.push(case.at_p(word | level << 3 | reg));
                // The running level's own.
                let case = Case::step("level")
                    .on_level(level.into())
                    .reg(Reg::A, 0o165432);
                cases.push(case.at_p(word | level << 3 | reg));
            }
        }
    }
}

fn blocks(cases: &mut Vec<Case>) {
    for level in 0..16 {
        for word in [0o152402, 0o152600] {
            for ptm in [0, 1] {
                let case = Case::step("block")
                    .reg(Reg::Sts, 0o362 | ptm)
                    .reg(Reg::X, 0o20030);
                cases.push(case.at_p(word | level << 3));
            }
            let case = Case::step("block")
                .on_level(level.into())
                .reg(Reg::X, 0o20030);
            cases.push(case.at_p(word | level << 3));
        }
    }
    for word in [0o152402, 0o152432, 0o152600, 0o152630] {
        // The k-th access fails, or passes with marks on two pages.
        for words in 0..9 {
            for entry in [0o162001, 0o42001, 0o102001, 0, 0o166001, 0o162004] {
                let x = 0o26000 - words;
                let case = Case::step("block")
                    .reg(Reg::X, x)
                    .reg(Reg::P, 0o600)
                    .at_p(word);
                let index = case.index(0o26000, false);
                cases.push(case.entry(index, entry));
            }
        }
        for x in [0o177777, 0o177774, 0o177371, 0o177374, 0o177400] {
            for ring in [2, 3] {
                let case = Case::step("block")
                    .reg(Reg::X, x)
                    .reg(Reg::P, 0o600)
                    .ring(ring);
                let index = case.index(0o600, false);
                let own = case.tables[index] & !0o3000 | ring << 9;
                cases.push(case.entry(index, own).at_p(word));
            }
        }
        for x in [0o7770, 0o7771, 0o10000] {
            let case = Case::step("block")
                .paging(false)
                .reg(Reg::X, x)
                .reg(Reg::P, 0o600);
            cases.push(case.at_p(word));
        }
    }
}

fn physical(cases: &mut Vec<Case>) {
    for word in [0o150416, 0o150417] {
        for (a, d) in [
            (0, 0),
            (0, 0o7777),
            (0, 0o10000),
            (0, 0o177400),
            (0, 0o177777),
            (1, 0),
            (1, 5),
            (0o177777, 0),
        ] {
            for paging in [true, false] {
                let case = Case::step("physical").paging(paging).reg(Reg::P, 0o600);
                cases.push(case.reg(Reg::A, a).reg(Reg::D, d).at_p(word));
            }
        }
    }
    for word in [0o164000, 0o167777, 0o150415, 0o143600, 0o143677] {
        for ring in [1, 2, 3] {
            let case = Case::step("device").reg(Reg::P, 0o600).ring(ring);
            let index = case.index(0o600, false);
            let own = case.tables[index] & !0o3000 | ring << 9;
            cases.push(case.entry(index, own).at_p(word));
        }
    }
}

fn calls(cases: &mut Vec<Case>) {
    for number in [0, 1, 0o177, 0o200, 0o377] {
        for level in [0, 3, 13, 14, 15] {
            for on in [0, 1] {
                let case = Case::step("call").on_level(level).ring(0).with(|state| {
                    state.interrupts_on = on;
                    state.iie = if number % 2 == 0 { 2 } else { 0o3774 };
                });
                let p = case.get(Reg::P);
                let index = case.index(p, false);
                let own = case.tables[index] & !0o3000;
                cases.push(case.entry(index, own).at_p(0o153000 | number));
            }
        }
    }
}

/// The level that runs after the step.
fn changes(cases: &mut Vec<Case>) {
    let change = |level: u16, pid: u16, pie: u16, on: u16| {
        Case::step("change").with(|state| {
            state.level = level;
            state.pid = pid;
            state.pie = pie;
            state.interrupts_on = on;
        })
    };
    for level in 0..16 {
        let bit = 1 << level;
        cases.push(change(3, bit, 0o177777, 1));
        cases.push(change(3, 0o177777, bit, 1));
        cases.push(change(level, bit - 1, 0o177777, 1));
        cases.push(change(level, bit | bit >> 1, 0o177777, 1));
        cases.push(change(level, 0, 0, 1));
        cases.push(change(level, 1, 1, 1));
        cases.push(change(3, bit | bit >> 2, !bit, 1));
        cases.push(change(3, bit, 0o177777, 0));
        cases.push(change(level, bit | 0o10, 0o10, 1).with(|state| state.stopped = 1));
    }
}

/// Each interrupt with IIE that has it alone, all but it, and none.
fn interrupts(cases: &mut Vec<Case>) {
    let causes = [
        (1, 0o153001), // MON
        (4, 0o140700), // illegal
        (5, 0o141600), // RDIV by 0
        (6, 0o150401), // IOF on ring 1
        (7, 0o164000), // IOX
        (9, 0o150416), // EXAM beyond
        (2, 0o044405), // LDA, no permit
        (3, 0o044405), // LDA, no entry
    ];
    for (number, word) in causes {
        for iie in [0, 1 << number, 0o3776 & !(1 << number), 0o3776] {
            for (iid, on, pid) in [(0, 0, 0o10), (0o2002, 1, 0o10), (0o3776, 1, 0o40010)] {
                let case = Case::step("interrupt")
                    .reg(Reg::P, 0o600)
                    .reg(Reg::B, 0o24500)
                    .reg(Reg::A, 0o100)
                    .ring(if number == 6 { 1 } else { 2 })
                    .with(|state| {
                        state.iie = iie;
                        state.iid = iid;
                        state.pid = pid;
                        state.pie = 0o10;
                        state.interrupts_on = on;
                    });
                let fetched = case.index(0o600, false);
                let own = if number == 6 {
                    0o161003
                } else {
                    case.tables[fetched]
                };
                let index = case.index(0o24500, false);
                let operand = if number == 3 { 0o3000 } else { 0o102000 };
                cases.push(case.entry(fetched, own).entry(index, operand).at_p(word));
            }
        }
    }
}
