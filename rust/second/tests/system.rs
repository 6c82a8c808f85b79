//! Privileged instructions, levels, WAIT, MON.

mod common;
use common::*;

const ALL: u16 = 0o177777;

#[test]
fn switches() {
    // word, interrupts and paging before, after.
    for (word, before, after) in [
        (0o150401, (1, 1), (0, 1)), // IOF
        (0o150402, (0, 0), (1, 0)), // ION
        (0o150404, (1, 1), (1, 0)), // POF
        (0o150405, (1, 1), (0, 0)), // PIOF
        (0o150410, (0, 0), (0, 1)), // PON
        (0o150412, (0, 0), (1, 1)), // PION
        (0o150401, (0, 0), (0, 0)),
        (0o150402, (1, 1), (1, 1)),
    ] {
        let mut case = Case::paged(word, 2).with(STS, 0o376).with(A, 5);
        (case.s.interrupts_on, case.s.paging_on) = before;
        let case = case.ok();
        assert_eq!((case.s.interrupts_on, case.s.paging_on), after, "{word:o}");
        case.has(&[(P, 0o101), (STS, 0o376), (A, 5)]);
    }
}

#[test]
fn tra() {
    let mut start = Case::of(0).with(STS, 0o123).with(A, ALL);
    start.s.pgs = 0o140377;
    start.s.pvl = 13;
    start.s.pid = 0o111;
    start.s.pie = 0o222;
    start.s.iid = 0o3000 | 2; // 10, 9 and 1
    start.s.iie = 0o3776;
    let tra = |number: u16| {
        let mut case = start.clone();
        case.m[0o100] = 0o150000 | number;
        case.ok()
    };
    tra(0o01).has(&[(A, 0o010123)]); // STS, both off, level 0
    tra(0o03).has(&[(A, 0o140377)]); // PGS
    tra(0o04).has(&[(A, 0o153752)]); // PVL: IRR 150 DP
    let case = tra(0o05).has(&[(A, 10)]); // IIC
    assert_eq!((case.s.iid, case.s.iie), (0, 0o3776));
    tra(0o06).has(&[(A, 0o111)]);
    tra(0o07).has(&[(A, 0o222)]);
    tra(0o11).has(&[(A, 1)]); // ACTL
    // Only IIC changes anything but A and P, as PGS is not held here.
    for number in [1, 3, 4, 6, 7, 0o11, 0o14] {
        let mut case = tra(number);
        case.s.set_reg(A, ALL);
        case.s.set_reg(P, 0o100);
        case.m[0o100] = 0;
        assert_eq!(case, start);
    }
    // IIC with nothing detected, and with each alone.
    let mut case = Case::of(0o150005).with(A, ALL);
    case.s.iid = 0;
    case.ok().has(&[(A, 0)]);
    for number in 1..=10 {
        let mut case = Case::of(0o150005);
        case.s.iid = 1 << number;
        let case = case.ok().has(&[(A, number)]);
        assert_eq!(case.s.iid, 0);
    }
}

#[test]
fn tra_by_level() {
    // Level 13, interrupts and paging on: 15, 14, 12 and the level in 11-8.
    let mut case = Case::paged(0o150001, 2);
    case.s.level = 13;
    case.s.files[13] = case.s.files[0];
    case.s.pcr[13] = 2;
    case.s.interrupts_on = 1;
    case.s.pid = 1 << 13;
    case.s.pie = 1 << 13;
    case.s.set_reg(STS, 0o201);
    let status = case.clone().ok();
    status.has(&[(A, 0o156601)]);
    case.m[0o100] = 0o150011; // ACTL
    case.clone().ok().has(&[(A, 1 << 13)]);
    // PGC of the level in A bits 6-3, other bits 0.
    case.m[0o100] = 0o150014;
    case.s.pcr[6] = 0o3603;
    case.with(A, 0o177667).ok().has(&[(A, 0o3603)]); // 6 in bits 6-3
}

#[test]
fn trr() {
    let trr = |number: u16, a: u16| {
        let mut case = Case::of(0o150100 | number).with(A, a).with(STS, 0o125);
        case.s.pid = 0o7;
        case.s.pie = 0o70;
        case.s.iid = 0o2;
        case.s.iie = 0o4;
        case.ok().has(&[(A, a), (P, 0o101)])
    };
    trr(1, 0o177652).has(&[(STS, 0o252)]); // bits 7-0 only
    let case = trr(3, ALL); // PCR of level 15, bits not used dropped
    assert_eq!(case.s.pcr[15], 0o3603);
    assert!(case.s.pcr[..15].iter().all(|&pcr| pcr == 0));
    let case = trr(3, 0o3003); // level 0
    assert_eq!(case.s.pcr[0], 0o3003);
    let case = trr(3, 0o0631); // level 3: 0631 is 110 011 001
    assert_eq!(case.s.pcr[3], 0o0601);
    let case = trr(5, ALL); // IIE never sets PID
    assert_eq!((case.s.iie, case.s.pid, case.s.iid), (0o3776, 7, 2));
    assert_eq!(trr(6, ALL).s.pid, ALL);
    assert_eq!(trr(7, 0).s.pie, 0);
}

#[test]
fn mcl_mst() {
    let with = |word: u16, a: u16| {
        let mut case = Case::of(word).with(A, a).with(STS, 0o125);
        case.s.pid = 0o1234;
        case.s.pie = 0o4321;
        case.ok().has(&[(A, a), (P, 0o101)])
    };
    with(0o150201, 0o177405).has(&[(STS, 0o120)]);
    assert_eq!(with(0o150206, 0o177200).s.pid, 0o0034);
    assert_eq!(with(0o150207, 1).s.pie, 0o4320);
    with(0o150301, 0o177402).has(&[(STS, 0o127)]); // bits 15-8 do not reach
    assert_eq!(with(0o150306, 0o100001).s.pid, 0o101235);
    assert_eq!(with(0o150307, 0o100000).s.pie, 0o104321);
}

#[test]
fn numbers_not_served_are_illegal() {
    let served = [
        [1, 3, 4, 5, 6, 7, 0o11, 0o14].as_slice(),
        [1, 3, 5, 6, 7].as_slice(),
        [1, 6, 7].as_slice(),
        [1, 6, 7].as_slice(),
    ];
    for (operation, numbers) in (0..).zip(served) {
        for number in 0..64 {
            let mut case = Case::of(0o150000 | operation << 6 | number);
            let interrupt = case.step();
            let expected = if numbers.contains(&number) { 0 } else { 4 };
            assert_eq!(interrupt, expected, "{operation} {number:o}");
        }
    }
}

#[test]
fn wait() {
    // Interrupts off: the machine stops, P one further.
    for word in [0o151000, 0o151377] {
        let mut case = Case::of(word).ok();
        assert_eq!(case.s.stopped, 1);
        let stopped = case.clone();
        assert_eq!(case.step(), 0);
        assert_eq!(case, stopped);
        case.has(&[(P, 0o101)]);
    }
    // On: the running level's PID bit is cleared; then the next lower runs.
    let mut case = Case::of(0o151000);
    case.s.interrupts_on = 1;
    case.s.level = 5;
    case.s.files[5][2] = 0o100;
    case.s.pid = 0b100111;
    case.s.pie = 0b101101;
    let mut case = case.ok();
    assert_eq!((case.s.pid, case.s.stopped, case.s.level), (0b000111, 0, 5));
    assert_eq!(case.s.files[5][2], 0o101);
    assert_eq!(case.step(), 0);
    assert_eq!((case.s.level, case.s.pvl), (2, 5));
    assert_eq!(case.s.files[5][2], 0o101);
    // Level 0: no effect; its PID bit stays.
    let mut case = Case::of(0o151000);
    case.s.interrupts_on = 1;
    case.s.pid = 1;
    case.s.pie = 1;
    let case = case.ok();
    assert_eq!((case.s.pid, case.s.stopped), (1, 0));
    case.has(&[(P, 0o101)]);
}

#[test]
fn level_changes() {
    // pid, pie, level before, after.
    for (pid, pie, before, after) in [
        (ALL, ALL, 0, 15),
        (1 << 14, ALL, 0, 14),
        (1 << 14, !(1 << 14), 3, 0),
        (0, ALL, 3, 0),
        (0o17, 0o5, 3, 2),
        (1, 1, 15, 0),
    ] {
        let mut case = Case::of(0o170401);
        case.s.interrupts_on = 1;
        (case.s.pid, case.s.pie, case.s.level) = (pid, pie, before);
        let mut expected = case.clone();
        expected.s.level = after;
        expected.s.pvl = before;
        assert_eq!(case.step(), 0);
        assert_eq!(case, expected);
    }
    // Interrupts off, or the highest runs already: an instruction.
    for (on, pid, level) in [(0, ALL, 3), (1, 0o10, 3), (1, 0, 0), (1, 1, 0)] {
        let mut case = Case::of(0o170401);
        case.s.interrupts_on = on;
        case.s.level = level;
        case.s.pid = pid;
        case.s.pie = ALL;
        case.s.pvl = 9;
        case.s.set_reg(P, 0o100);
        let case = case.ok().has(&[(A, 1)]);
        assert_eq!((case.s.level, case.s.pvl), (level, 9));
    }
    // Stopped: nothing, though a change is due.
    let mut case = Case::of(0o170401);
    (case.s.stopped, case.s.interrupts_on, case.s.pid, case.s.pie) = (1, 1, ALL, ALL);
    let before = case.clone();
    assert_eq!(case.step(), 0);
    assert_eq!(case, before);
}

#[test]
fn ion_changes_level_at_the_next_step() {
    let mut case = Case::of(0o150402);
    case.s.pid = 1 << 3;
    case.s.pie = 1 << 3;
    let mut case = case.ok();
    assert_eq!((case.s.level, case.s.interrupts_on), (0, 1));
    assert_eq!(case.step(), 0);
    assert_eq!((case.s.level, case.s.pvl), (3, 0));
}

#[test]
fn a_fault_reaches_level_14() {
    // Illegal on level 1 with IIE: level 14 runs after the next step.
    let mut case = Case::of(0o100000);
    case.s.level = 1;
    case.s.files[1][2] = 0o100;
    case.s.files[14][2] = 0o200;
    case.m[0o200] = 0o150004; // TRA PVL
    case.m[0o201] = 0o150005; // TRA IIC
    case.m[0o202] = 0o151000; // WAIT
    case.s.interrupts_on = 1;
    case.s.pid = 2;
    case.s.pie = 0o40002;
    case.s.iie = 1 << 4;
    assert_eq!(case.step(), 4);
    assert_eq!((case.s.level, case.s.pid), (1, 0o40002));
    assert_eq!(case.step(), 0);
    assert_eq!((case.s.level, case.s.pvl), (14, 1));
    let mut case = case.ok().has(&[(A, 0o153612)]);
    assert_eq!(case.step(), 0);
    let mut case = case.has(&[(A, 4)]);
    assert_eq!(case.step(), 0); // WAIT
    assert_eq!(case.s.pid, 2);
    assert_eq!(case.step(), 0);
    assert_eq!((case.s.level, case.s.pvl), (1, 14));
    case.has(&[(P, 0o101)]);
}

#[test]
fn mon() {
    for (number, t) in [(0, 0), (0o177, 0o177), (0o200, 0o177600), (0o377, ALL)] {
        let mut case = Case::of(0o153000 | number).with(T, 9).with(STS, 0o376);
        case.s.iie = 2;
        let case = case.gives(1);
        assert_eq!(case.s.files[14][6], t);
        assert_eq!((case.s.iid, case.s.pid), (2, 1 << 14));
        case.has(&[(P, 0o101), (T, 9), (STS, 0o376)]);
    }
    // Not enabled: IID only. On ring 0 it is permitted.
    let case = Case::paged(0o153001, 0).gives(1);
    assert_eq!((case.s.iid, case.s.pid, case.s.files[14][6]), (2, 0, 1));
    // When level 14 runs itself.
    let mut case = Case::of(0o153005);
    case.s.level = 14;
    case.s.files[14][2] = 0o100;
    case.gives(1).has(&[(T, 5), (P, 0o101)]);
}

#[test]
fn irr() {
    let mut start = Case::of(0).with(A, ALL);
    start.s.files[9] = [0o201, 1, 2, 3, 4, 5, 6, 7];
    for (reg, value) in (0..).zip([0o201, 1, 2, 3, 4, 5, 6, 7]) {
        let mut case = start.clone();
        case.m[0o100] = 0o153600 | 9 << 3 | reg;
        case.ok().has(&[(A, value), (P, 0o101)]);
    }
    // Of the running level: STS, P one further, A itself.
    Case::of(0o153600).with(STS, 0o376).ok().has(&[(A, 0o376)]);
    Case::of(0o153602).ok().has(&[(A, 0o101), (P, 0o101)]);
    Case::of(0o153605).with(A, 7).ok().has(&[(A, 7)]);
}

#[test]
fn irw() {
    for reg in 0..8 {
        let case = Case::of(0o153400 | 9 << 3 | reg).with(A, 0o123456).ok();
        let mut expected = [0; 8];
        expected[usize::from(reg)] = if reg == 0 { 0o056 } else { 0o123456 };
        assert_eq!(case.s.files[9], expected);
        case.has(&[(P, 0o101), (A, 0o123456), (STS, 0)]);
    }
    // To the running level: P only goes one further, others are written.
    Case::of(0o153402).with(A, 0o3000).ok().has(&[(P, 0o101)]);
    Case::of(0o153400).with(A, 0o1777).ok().has(&[(STS, 0o377)]);
    Case::of(0o153407).with(A, 0o3000).ok().has(&[(X, 0o3000)]);
    Case::of(0o153405).with(A, 0o3000).ok().has(&[(A, 0o3000)]);
}

#[test]
fn register_blocks_of_the_running_level() {
    // SRB 0: P one further.
    let case = Case::of(0o152402)
        .with(X, 0o300)
        .with(STS, 0o376)
        .with(A, 5)
        .ok();
    assert_eq!(case.m[0o300..0o310], [0o101, 0o300, 0, 5, 0, 0, 0o376, 0]);
    // LRB 0: P goes one further, the rest is loaded; of STS bits 7-0.
    let mut case = Case::of(0o152600).with(X, 0o300);
    case.m[0o300..0o310].copy_from_slice(&[0o7000, 1, 2, 3, 4, 5, 0o177606, 7]);
    case.ok().has(&[
        (P, 0o101),
        (X, 1),
        (T, 2),
        (A, 3),
        (D, 4),
        (L, 5),
        (STS, 0o206),
        (B, 7),
    ]);
    // Still eight accesses: the word for P fails.
    Case::paged(0o152600, 2)
        .with(X, 0o2000)
        .table(1, 0)
        .gives(3)
        .has(&[(X, 0o2000)]);
}
