//! The vector generator reaches every instruction, mode, fault and change.

use second::random::Random;
use second::vectors::{self, start};
use second::*;
use std::collections::HashSet;

#[test]
fn vectors_reach_everything() {
    let mut random = Random::new(7);
    let mut seen: HashSet<String> = HashSet::new();
    for _ in 0..20_000 {
        let begin = start(&mut random);
        assert!(begin.state.in_range());
        let mut end = begin.clone();
        let word = next_word(&begin.state, &mut end.memory, &begin.tables);
        let answer = step(&mut end.state, &mut end.memory, &mut end.tables).expect("in range");
        // A step keeps the state in range.
        assert!(end.state.in_range());
        let number = answer.map_or(0, Interrupt::number);
        let (s, level) = (&begin.state, usize::from(begin.state.level));
        let paging = s.paging_on == 1;
        if s.stopped == 1 {
            assert_eq!(end, begin);
            seen.insert("stopped".into());
            continue;
        }
        if end.state.level != s.level {
            seen.insert("level".into());
            continue;
        }
        let held = (s.pgs_held, end.state.pgs_held);
        seen.insert(format!("held {held:?} by {number}"));
        let Some(word) = word else {
            assert_eq!(end.memory, begin.memory);
            seen.insert(format!("fetch {number}"));
            continue;
        };
        if paging && end.state.pcr[level] & 3 < s.pcr[level] & 3 {
            seen.insert(format!("lowered {number}"));
        }
        let name = match decode(word) {
            Instr::Memory { op, mode, .. } => {
                let ptm = s.reg(Reg::Sts) & 1 == 1 && s.pcr[level] >> 9 != s.pcr[level] >> 7 & 3;
                if paging && number == 0 {
                    seen.insert(format!("{mode:?} ptm {ptm}"));
                }
                if number != 0 {
                    seen.insert(format!("{op:?} fault {number}"));
                }
                format!("{op:?} {mode:?}")
            }
            Instr::Jump { cond, .. } => format!("{cond:?}"),
            Instr::Skip { cond, .. } => format!("{cond:?}"),
            Instr::Logic { op, cm1, cld, .. } => format!("{op:?} {cm1} {cld}"),
            Instr::Radd { one, cm1, cld, .. } => format!("{one:?} {cm1} {cld}"),
            Instr::Shift { reg, kind, count } => format!("{reg:?} {kind:?} {}", count > 0),
            Instr::SetArg { reg, .. } => format!("set {reg:?}"),
            Instr::AddArg { reg, .. } => format!("add {reg:?}"),
            Instr::Bit { op, .. } => format!("{op:?}"),
            Instr::Transfer(transfer) => format!("{transfer:?}"),
            Instr::Physical { op, disp } => {
                let bank = u64::from(s.reg(Reg::T)) << 16;
                let p = bank + u64::from(s.reg(Reg::X)) + u64::from(disp);
                if number == 0 {
                    let table = (u64::from(vectors::window(s))..0o200000).contains(&p);
                    seen.insert(format!("{op:?} of tables {table}, mode {}", s.extended));
                }
                format!("{op:?}")
            }
            Instr::Iox { device } => {
                seen.insert(format!("IOX {device:o} = {number}"));
                "Iox".into()
            }
            Instr::Ioxt => {
                seen.insert(format!("IOXT {:o} = {number}", s.reg(Reg::T)));
                "Ioxt".into()
            }
            Instr::Ident { code } => {
                seen.insert(format!("IDENT {code:o} = {number}"));
                "Ident".into()
            }
            other => {
                let text = format!("{other:?}");
                text.split([' ', '(']).next().unwrap_or("").to_string()
            }
        };
        let (old, new) = (s.devices.to_words(), end.state.devices.to_words());
        for (index, (old, new)) in old.iter().zip(new).enumerate() {
            seen.insert(format!("device word {index} from {old} to {new}"));
        }
        seen.insert(format!("{name} = {number}"));
        seen.insert(format!("{number} in mode {}", s.extended));
        let changed = |(new, old): (&u16, &u16)| (new ^ old) & !0o014000 != 0;
        if end.tables.iter().zip(&begin.tables).any(changed) {
            seen.insert(format!(
                "window write, paging {paging}, mode {}",
                s.extended
            ));
        }
        let p = s.reg(Reg::P);
        if p >= vectors::window(s) && (!paging || s.pcr[level] & 3 == 3) {
            seen.insert(format!("window fetch, mode {}", s.extended));
        }
        if (0o177000..0o177400).contains(&p) && paging {
            seen.insert(format!("fetch below the window, mode {}", s.extended));
        }
    }
    let mut wanted: Vec<String> = vec!["stopped".into(), "level".into()];
    for mode in [0, 1] {
        for number in [0, 2, 3, 4, 6, 9] {
            wanted.push(format!("{number} in mode {mode}"));
        }
        wanted.push(format!("window fetch, mode {mode}"));
        wanted.push(format!("fetch below the window, mode {mode}"));
        wanted.push(format!("window write, paging false, mode {mode}"));
        wanted.push(format!("window write, paging true, mode {mode}"));
        for op in "Ldatx Ldxtx Lddtx Ldbtx Statx Stztx Stdtx".split(' ') {
            wanted.push(format!("{op} of tables false, mode {mode}"));
            wanted.push(format!("{op} of tables true, mode {mode}"));
            wanted.push(format!("{op} = 9"));
        }
    }
    for number in [2, 3, 9] {
        wanted.push(format!("fetch {number}"));
    }
    // A fault taken and one not, TRA PGS, and 9 with PGS held and not.
    for held in ["(0, 1) by 2", "(0, 1) by 3", "(1, 1) by 2", "(1, 1) by 3"] {
        wanted.push(format!("held {held}"));
    }
    for held in ["(1, 0) by 0", "(0, 0) by 9", "(1, 1) by 9", "(1, 1) by 6"] {
        wanted.push(format!("held {held}"));
    }
    wanted.push("lowered 0".into());
    wanted.push("lowered 6".into());
    let ops = "Stz Sta Stt Stx Std Ldd Stf Ldf Min Lda Ldt Ldx Add Sub And Ora Mpy Jmp Jpl";
    let modes = "P B PIndirect BIndirect X BX PIndirectX BIndirectX";
    for op in ops.split(' ') {
        for mode in modes.split(' ') {
            wanted.push(format!("{op} {mode} = 0"));
        }
        for number in [2, 3, 9] {
            wanted.push(format!("{op} fault {number}"));
        }
    }
    for mode in modes.split(' ') {
        wanted.push(format!("{mode} ptm true"));
        wanted.push(format!("{mode} ptm false"));
    }
    let plain = "Jap Jan Jaz Jaf Jpc Jnc Jxz Jxn Eql Geq Gre Mgre Ueq Lss Lst Mlst Exr Rmpy Rdiv \
                 Lbyt Sbyt Mix3 SetZero SetOne SetComplement SetK SkipZero SkipOne \
                 SkipComplement SkipK StoreComplement Store LoadComplement Load AndComplement \
                 And OrComplement Or";
    let system = "TraSts TraPgs TraPvl TraIic TraPid TraPie TraActl TraPgc TrrSts TrrPcr TrrIie \
                  TrrPid TrrPie MclSts MclPid MclPie MstSts MstPid MstPie Iof Ion Pof Piof Pon \
                  Pion Sex Rex Wait Srb Lrb Irw Irr Exam Depo Ldatx Ldxtx Lddtx Ldbtx Statx Stztx \
                  Stdtx";
    for name in plain.split_whitespace().chain(system.split_whitespace()) {
        wanted.push(format!("{name} = 0"));
    }
    for name in system.split_whitespace() {
        wanted.push(format!("{name} = 6"));
    }
    for name in ["Iox", "Ioxt", "Ident"] {
        wanted.push(format!("{name} = 6"));
        wanted.push(format!("{name} = 7"));
    }
    for address in device::ALL {
        wanted.push(format!("IOX {address:o} = 0"));
        wanted.push(format!("IOXT {address:o} = 0"));
    }
    for code in ["4", "22", "43"] {
        wanted.push(format!("IDENT {code} = 0"));
        wanted.push(format!("IDENT {code} = 7"));
    }
    // Every flip-flop is set and reset.
    for asks in [2, 5, 10] {
        wanted.push(format!("device word {asks} from 0 to 1"));
        wanted.push(format!("device word {asks} from 1 to 0"));
    }
    for name in ["Srb", "Lrb", "Lbyt", "Sbyt", "Exr"] {
        for number in [2, 3, 9] {
            wanted.push(format!("{name} = {number}"));
        }
    }
    for name in [
        "Exr = 4",
        "Exr = 6",
        "Mon = 1",
        "Rdiv = 5",
        "Exam = 9",
        "Depo = 9",
        "Illegal = 4",
    ] {
        wanted.push(name.into());
    }
    for flags in ["false false", "false true", "true false", "true true"] {
        for op in "Swap Rand Rexo Rora Nothing One Carry Both".split(' ') {
            wanted.push(format!("{op} {flags} = 0"));
        }
    }
    for reg in ["T", "D", "A", "AD"] {
        for kind in ["Arithmetic", "Rotate", "Zero", "Link"] {
            wanted.push(format!("{reg} {kind} true = 0"));
            wanted.push(format!("{reg} {kind} false = 0"));
        }
    }
    for reg in ["B", "A", "T", "X"] {
        wanted.push(format!("set {reg} = 0"));
        wanted.push(format!("add {reg} = 0"));
    }
    let missing: Vec<_> = wanted.iter().filter(|w| !seen.contains(*w)).collect();
    assert!(missing.is_empty(), "not reached: {missing:?}");
}
