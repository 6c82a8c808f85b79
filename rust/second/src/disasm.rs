//! Words to assembler text, numbers in octal.

use crate::decode::{
    AddOne, BitOp, Instr, JumpCond, Logic, MemOp, Mode, PhysicalOp, Reg, ShiftKind, ShiftReg,
    SkipCond, Transfer, decode,
};

/// Text of a word, or `???` with the word if it is illegal.
pub fn disassemble(word: u16) -> String {
    match decode(word) {
        Instr::Memory { op, mode, disp } => {
            format!("{} {}{}", mem_name(op), mode_name(mode), signed(disp))
        }
        Instr::Jump { cond, disp } => format!("{} *{}", jump_name(cond), signed(disp)),
        Instr::Skip { cond, src, dst } => join(&["SKP", &dest(dst), skip_name(cond), &source(src)]),
        Instr::Exr { src } => join(&["EXR", &source(src)]),
        Instr::Rmpy { src, dst } => join(&["RMPY", &source(src), &dest(dst)]),
        Instr::Rdiv { src } => join(&["RDIV", &source(src)]),
        Instr::Lbyt => "LBYT".to_string(),
        Instr::Sbyt => "SBYT".to_string(),
        Instr::Mix3 => "MIX3".to_string(),
        Instr::Logic {
            op,
            cm1,
            cld,
            src,
            dst,
        } => join(&[
            logic_name(op),
            if cm1 { "CM1" } else { "" },
            if cld { "CLD" } else { "" },
            &source(src),
            &dest(dst),
        ]),
        Instr::Radd { .. } if word == 0o146142 => "EXIT".to_string(),
        Instr::Radd {
            one,
            cm1,
            cld,
            src,
            dst,
        } => join(&[
            if cld { "COPY" } else { "RADD" },
            if cm1 { "CM1" } else { "" },
            match one {
                AddOne::Nothing => "",
                AddOne::One => "AD1",
                AddOne::Carry => "ADC",
                AddOne::Both => "ADC AD1",
            },
            &source(src),
            &dest(dst),
        ]),
        Instr::Shift { reg, kind, count } => {
            let count = if count < 0 {
                format!("SHR {:o}", -count)
            } else {
                format!("{count:o}")
            };
            join(&[shift_name(reg), kind_name(kind), &count])
        }
        Instr::SetArg { reg, value } => format!("SA{} {}", reg.name(), signed(value)),
        Instr::AddArg { reg, value } => format!("AA{} {}", reg.name(), signed(value)),
        Instr::Bit { op, bit, reg } => {
            let operand = match (reg, bit) {
                (Reg::Sts, 0..=7) => {
                    let names = ["PTM", "TG", "K", "Z", "Q", "O", "C", "M"];
                    format!("SS{}", names[usize::from(bit)])
                }
                (Reg::Sts, _) => format!("{:o}", bit * 8),
                _ => format!("{:o} {}", bit * 8, dest(reg)),
            };
            format!("{} {operand}", bit_name(op))
        }
        Instr::Mon { number } => format!("MON {:o}", number & 0o377),
        Instr::Transfer(transfer) => transfer_name(transfer).to_string(),
        Instr::Iof => "IOF".to_string(),
        Instr::Ion => "ION".to_string(),
        Instr::Pof => "POF".to_string(),
        Instr::Piof => "PIOF".to_string(),
        Instr::Pon => "PON".to_string(),
        Instr::Pion => "PION".to_string(),
        Instr::Sex => "SEX".to_string(),
        Instr::Rex => "REX".to_string(),
        Instr::Wait if word & 0o377 == 0 => "WAIT".to_string(),
        Instr::Wait => format!("WAIT {:o}", word & 0o377),
        Instr::Srb { level } => format!("SRB {:o}", level * 8),
        Instr::Lrb { level } => format!("LRB {:o}", level * 8),
        Instr::Irw { level, reg } => join(&["IRW", &format!("{:o}", level * 8), &file_reg(reg)]),
        Instr::Irr { level, reg } => join(&["IRR", &format!("{:o}", level * 8), &file_reg(reg)]),
        Instr::Exam => "EXAM".to_string(),
        Instr::Depo => "DEPO".to_string(),
        Instr::Physical { op, disp } => format!("{} {:o}", physical_name(op), disp * 8),
        Instr::Iox { device } => format!("IOX {device:o}"),
        Instr::Ioxt => "IOXT".to_string(),
        Instr::Ident { code } => match code {
            0o04 => "IDENT PL10".to_string(),
            0o11 => "IDENT PL11".to_string(),
            0o22 => "IDENT PL12".to_string(),
            0o43 => "IDENT PL13".to_string(),
            code => format!("IDENT {code:o}"),
        },
        Instr::Illegal => format!("??? {word:06o}"),
    }
}

/// The parts that are not empty, with single spaces.
fn join(parts: &[&str]) -> String {
    let parts: Vec<&str> = parts.iter().copied().filter(|p| !p.is_empty()).collect();
    parts.join(" ")
}

fn signed(value: i16) -> String {
    if value < 0 {
        format!("-{:o}", -i32::from(value))
    } else {
        format!("{value:o}")
    }
}

fn source(reg: Reg) -> String {
    match reg {
        Reg::Sts => String::new(),
        reg => format!("S{}", reg.name()),
    }
}

fn dest(reg: Reg) -> String {
    match reg {
        Reg::Sts => String::new(),
        reg => format!("D{}", reg.name()),
    }
}

/// Register of IRR and IRW, where number 0 is STS.
fn file_reg(reg: Reg) -> String {
    match reg {
        Reg::Sts => "STS".to_string(),
        reg => dest(reg),
    }
}

fn mem_name(op: MemOp) -> &'static str {
    match op {
        MemOp::Stz => "STZ",
        MemOp::Sta => "STA",
        MemOp::Stt => "STT",
        MemOp::Stx => "STX",
        MemOp::Std => "STD",
        MemOp::Ldd => "LDD",
        MemOp::Stf => "STF",
        MemOp::Ldf => "LDF",
        MemOp::Min => "MIN",
        MemOp::Lda => "LDA",
        MemOp::Ldt => "LDT",
        MemOp::Ldx => "LDX",
        MemOp::Add => "ADD",
        MemOp::Sub => "SUB",
        MemOp::And => "AND",
        MemOp::Ora => "ORA",
        MemOp::Mpy => "MPY",
        MemOp::Jmp => "JMP",
        MemOp::Jpl => "JPL",
    }
}

fn physical_name(op: PhysicalOp) -> &'static str {
    match op {
        PhysicalOp::Ldatx => "LDATX",
        PhysicalOp::Ldxtx => "LDXTX",
        PhysicalOp::Lddtx => "LDDTX",
        PhysicalOp::Ldbtx => "LDBTX",
        PhysicalOp::Statx => "STATX",
        PhysicalOp::Stztx => "STZTX",
        PhysicalOp::Stdtx => "STDTX",
    }
}

fn mode_name(mode: Mode) -> &'static str {
    match mode {
        Mode::P => "*",
        Mode::B => ",B ",
        Mode::PIndirect => "I *",
        Mode::BIndirect => "I ,B ",
        Mode::X => ",X ",
        Mode::BX => ",X ,B ",
        Mode::PIndirectX => ",X I *",
        Mode::BIndirectX => ",X I ,B ",
    }
}

fn jump_name(cond: JumpCond) -> &'static str {
    match cond {
        JumpCond::Jap => "JAP",
        JumpCond::Jan => "JAN",
        JumpCond::Jaz => "JAZ",
        JumpCond::Jaf => "JAF",
        JumpCond::Jpc => "JPC",
        JumpCond::Jnc => "JNC",
        JumpCond::Jxz => "JXZ",
        JumpCond::Jxn => "JXN",
    }
}

fn skip_name(cond: SkipCond) -> &'static str {
    match cond {
        SkipCond::Eql => "EQL",
        SkipCond::Geq => "GEQ",
        SkipCond::Gre => "GRE",
        SkipCond::Mgre => "MGRE",
        SkipCond::Ueq => "UEQ",
        SkipCond::Lss => "LSS",
        SkipCond::Lst => "LST",
        SkipCond::Mlst => "MLST",
    }
}

fn logic_name(op: Logic) -> &'static str {
    match op {
        Logic::Swap => "SWAP",
        Logic::Rand => "RAND",
        Logic::Rexo => "REXO",
        Logic::Rora => "RORA",
    }
}

fn shift_name(reg: ShiftReg) -> &'static str {
    match reg {
        ShiftReg::T => "SHT",
        ShiftReg::D => "SHD",
        ShiftReg::A => "SHA",
        ShiftReg::AD => "SAD",
    }
}

fn kind_name(kind: ShiftKind) -> &'static str {
    match kind {
        ShiftKind::Arithmetic => "",
        ShiftKind::Rotate => "ROT",
        ShiftKind::Zero => "ZIN",
        ShiftKind::Link => "LIN",
    }
}

fn bit_name(op: BitOp) -> &'static str {
    match op {
        BitOp::SetZero => "BSET ZRO",
        BitOp::SetOne => "BSET ONE",
        BitOp::SetComplement => "BSET BCM",
        BitOp::SetK => "BSET BAC",
        BitOp::SkipZero => "BSKP ZRO",
        BitOp::SkipOne => "BSKP ONE",
        BitOp::SkipComplement => "BSKP BCM",
        BitOp::SkipK => "BSKP BAC",
        BitOp::StoreComplement => "BSTC",
        BitOp::Store => "BSTA",
        BitOp::LoadComplement => "BLDC",
        BitOp::Load => "BLDA",
        BitOp::AndComplement => "BANC",
        BitOp::And => "BAND",
        BitOp::OrComplement => "BORC",
        BitOp::Or => "BORA",
    }
}

fn transfer_name(transfer: Transfer) -> &'static str {
    match transfer {
        Transfer::TraSts => "TRA STS",
        Transfer::TraPgs => "TRA PGS",
        Transfer::TraPvl => "TRA PVL",
        Transfer::TraIic => "TRA IIC",
        Transfer::TraPid => "TRA PID",
        Transfer::TraPie => "TRA PIE",
        Transfer::TraActl => "TRA ACTL",
        Transfer::TraPgc => "TRA PGC",
        Transfer::TrrSts => "TRR STS",
        Transfer::TrrPcr => "TRR PCR",
        Transfer::TrrIie => "TRR IIE",
        Transfer::TrrPid => "TRR PID",
        Transfer::TrrPie => "TRR PIE",
        Transfer::MclSts => "MCL STS",
        Transfer::MclPid => "MCL PID",
        Transfer::MclPie => "MCL PIE",
        Transfer::MstSts => "MST STS",
        Transfer::MstPid => "MST PID",
        Transfer::MstPie => "MST PIE",
    }
}
