//! Words to instructions: sorted by the top bits, then where needed by the
//! low ones.

/// Registers of a file, by number.
#[derive(Clone, Copy, Debug, PartialEq, Eq)]
pub enum Reg {
    Sts,
    D,
    P,
    B,
    L,
    A,
    T,
    X,
}

impl Reg {
    pub const ALL: [Reg; 8] = [
        Reg::Sts,
        Reg::D,
        Reg::P,
        Reg::B,
        Reg::L,
        Reg::A,
        Reg::T,
        Reg::X,
    ];

    /// The register named by the low three bits.
    #[cfg_attr(feature = "inlined", inline(always))]
    fn low(bits: u16) -> Reg {
        match bits & 7 {
            0 => Reg::Sts,
            1 => Reg::D,
            2 => Reg::P,
            3 => Reg::B,
            4 => Reg::L,
            5 => Reg::A,
            6 => Reg::T,
            _ => Reg::X,
        }
    }

    pub fn name(self) -> &'static str {
        ["STS", "D", "P", "B", "L", "A", "T", "X"][self as usize]
    }
}

/// Address modes, from bits 10 (X), 9 (I) and 8 (B).
#[derive(Clone, Copy, Debug, PartialEq, Eq)]
pub enum Mode {
    P,
    B,
    PIndirect,
    BIndirect,
    X,
    BX,
    PIndirectX,
    BIndirectX,
}

impl Mode {
    #[cfg_attr(feature = "inlined", inline(always))]
    fn of(word: u16) -> Mode {
        match word >> 8 & 7 {
            0 => Mode::P,
            1 => Mode::B,
            2 => Mode::PIndirect,
            3 => Mode::BIndirect,
            4 => Mode::X,
            5 => Mode::BX,
            6 => Mode::PIndirectX,
            _ => Mode::BIndirectX,
        }
    }
}

/// Operations with an effective address, the two jumps included.
#[derive(Clone, Copy, Debug, PartialEq, Eq)]
pub enum MemOp {
    Stz,
    Sta,
    Stt,
    Stx,
    Std,
    Ldd,
    Stf,
    Ldf,
    Min,
    Lda,
    Ldt,
    Ldx,
    Add,
    Sub,
    And,
    Ora,
    Mpy,
    Jmp,
    Jpl,
}

#[derive(Clone, Copy, Debug, PartialEq, Eq)]
pub enum JumpCond {
    Jap,
    Jan,
    Jaz,
    Jaf,
    Jpc,
    Jnc,
    Jxz,
    Jxn,
}

#[derive(Clone, Copy, Debug, PartialEq, Eq)]
pub enum SkipCond {
    Eql,
    Geq,
    Gre,
    Mgre,
    Ueq,
    Lss,
    Lst,
    Mlst,
}

#[derive(Clone, Copy, Debug, PartialEq, Eq)]
pub enum Logic {
    Swap,
    Rand,
    Rexo,
    Rora,
}

/// Transfers to and from a physical address by T and X.
#[derive(Clone, Copy, Debug, PartialEq, Eq)]
pub enum PhysicalOp {
    Ldatx,
    Ldxtx,
    Lddtx,
    Ldbtx,
    Statx,
    Stztx,
    Stdtx,
}

/// What an adding register operation adds to its two operands.
#[derive(Clone, Copy, Debug, PartialEq, Eq)]
pub enum AddOne {
    Nothing,
    One,
    Carry,
    /// ADC and AD1 together: no operation.
    Both,
}

#[derive(Clone, Copy, Debug, PartialEq, Eq)]
pub enum ShiftReg {
    T,
    D,
    A,
    AD,
}

#[derive(Clone, Copy, Debug, PartialEq, Eq)]
pub enum ShiftKind {
    Arithmetic,
    Rotate,
    Zero,
    Link,
}

#[derive(Clone, Copy, Debug, PartialEq, Eq)]
pub enum BitOp {
    SetZero,
    SetOne,
    SetComplement,
    SetK,
    SkipZero,
    SkipOne,
    SkipComplement,
    SkipK,
    StoreComplement,
    Store,
    LoadComplement,
    Load,
    AndComplement,
    And,
    OrComplement,
    Or,
}

/// Internal registers of TRA, TRR, MCL and MST.
#[derive(Clone, Copy, Debug, PartialEq, Eq)]
pub enum Transfer {
    TraSts,
    TraPgs,
    TraPvl,
    TraIic,
    TraPid,
    TraPie,
    TraActl,
    TraPgc,
    TrrSts,
    TrrPcr,
    TrrIie,
    TrrPid,
    TrrPie,
    MclSts,
    MclPid,
    MclPie,
    MstSts,
    MstPid,
    MstPie,
}

#[derive(Clone, Copy, Debug, PartialEq, Eq)]
pub enum Instr {
    Memory {
        op: MemOp,
        mode: Mode,
        disp: i16,
    },
    Jump {
        cond: JumpCond,
        disp: i16,
    },
    Skip {
        cond: SkipCond,
        src: Reg,
        dst: Reg,
    },
    Exr {
        src: Reg,
    },
    Rmpy {
        src: Reg,
        dst: Reg,
    },
    Rdiv {
        src: Reg,
    },
    Lbyt,
    Sbyt,
    Mix3,
    Logic {
        op: Logic,
        cm1: bool,
        cld: bool,
        src: Reg,
        dst: Reg,
    },
    Radd {
        one: AddOne,
        cm1: bool,
        cld: bool,
        src: Reg,
        dst: Reg,
    },
    Shift {
        reg: ShiftReg,
        kind: ShiftKind,
        count: i16,
    },
    SetArg {
        reg: Reg,
        value: i16,
    },
    AddArg {
        reg: Reg,
        value: i16,
    },
    Bit {
        op: BitOp,
        bit: u16,
        reg: Reg,
    },
    Mon {
        number: i16,
    },
    // Privileged from here on.
    Transfer(Transfer),
    Iof,
    Ion,
    Pof,
    Piof,
    Pon,
    Pion,
    Sex,
    Rex,
    Wait,
    Srb {
        level: u16,
    },
    Lrb {
        level: u16,
    },
    Irw {
        level: u16,
        reg: Reg,
    },
    Irr {
        level: u16,
        reg: Reg,
    },
    Exam,
    Depo,
    Physical {
        op: PhysicalOp,
        disp: u16,
    },
    Iox {
        device: u16,
    },
    Ioxt,
    Ident {
        code: u16,
    },
    Illegal,
}

impl Instr {
    /// Whether ring 2 or 3 is needed while paging is on.
    pub fn privileged(self) -> bool {
        use Instr::*;
        matches!(
            self,
            Transfer(_)
                | Iof
                | Ion
                | Pof
                | Piof
                | Pon
                | Pion
                | Sex
                | Rex
                | Wait
                | Srb { .. }
                | Lrb { .. }
                | Irw { .. }
                | Irr { .. }
                | Exam
                | Depo
                | Physical { .. }
                | Iox { .. }
                | Ioxt
                | Ident { .. }
        )
    }
}

/// Bits 7-0, sign-extended.
#[cfg_attr(feature = "inlined", inline(always))]
fn low_byte(word: u16) -> i16 {
    i16::from(word as u8 as i8)
}

/// Decodes a word: bits 15-11 sort, then what each class needs.
#[cfg_attr(not(feature = "inlined"), inline)]
#[cfg_attr(feature = "inlined", inline(always))]
pub fn decode(word: u16) -> Instr {
    let memory = |op| Instr::Memory {
        op,
        mode: Mode::of(word),
        disp: low_byte(word),
    };
    match word >> 11 {
        0o00 => memory(MemOp::Stz),
        0o01 => memory(MemOp::Sta),
        0o02 => memory(MemOp::Stt),
        0o03 => memory(MemOp::Stx),
        0o04 => memory(MemOp::Std),
        0o05 => memory(MemOp::Ldd),
        0o06 => memory(MemOp::Stf),
        0o07 => memory(MemOp::Ldf),
        0o10 => memory(MemOp::Min),
        0o11 => memory(MemOp::Lda),
        0o12 => memory(MemOp::Ldt),
        0o13 => memory(MemOp::Ldx),
        0o14 => memory(MemOp::Add),
        0o15 => memory(MemOp::Sub),
        0o16 => memory(MemOp::And),
        0o17 => memory(MemOp::Ora),
        0o24 => memory(MemOp::Mpy),
        0o25 => memory(MemOp::Jmp),
        0o26 => Instr::Jump {
            cond: jump_cond(word),
            disp: low_byte(word),
        },
        0o27 => memory(MemOp::Jpl),
        0o30 => skips(word),
        0o31 => register(word),
        0o32 => system(word),
        0o33 => shift(word),
        0o35 => Instr::Iox {
            device: word & 0o3777,
        },
        0o36 => argument(word),
        0o37 => Instr::Bit {
            op: bit_op(word),
            bit: word >> 3 & 15,
            reg: Reg::low(word),
        },
        // 100000 to 117777 floating, 160000 to 163777.
        _ => Instr::Illegal,
    }
}

/// 140000 to 143777: skips, and eight codes of bits 10-6.
#[cfg_attr(feature = "inlined", inline(always))]
fn skips(word: u16) -> Instr {
    let dst = Reg::low(word);
    let src = Reg::low(word >> 3);
    match word >> 6 & 0o37 {
        0o06 => Instr::Exr { src },
        0o12 => Instr::Rmpy { src, dst },
        0o16 => Instr::Rdiv { src },
        0o22 => Instr::Lbyt,
        0o26 => Instr::Sbyt,
        0o32 => Instr::Mix3,
        0o33 => physical(word),
        0o36 => Instr::Ident { code: word & 0o77 },
        code if code & 3 == 0 => Instr::Skip {
            cond: skip_cond(word),
            src,
            dst,
        },
        _ => Instr::Illegal,
    }
}

/// 143300 to 143377: bits 5-3 the displacement, 2-0 the operation.
#[cfg_attr(feature = "inlined", inline(always))]
fn physical(word: u16) -> Instr {
    let op = match word & 7 {
        0 => PhysicalOp::Ldatx,
        1 => PhysicalOp::Ldxtx,
        2 => PhysicalOp::Lddtx,
        3 => PhysicalOp::Ldbtx,
        4 => PhysicalOp::Statx,
        5 => PhysicalOp::Stztx,
        6 => PhysicalOp::Stdtx,
        _ => return Instr::Illegal,
    };
    let disp = word >> 3 & 7;
    Instr::Physical { op, disp }
}

/// 150000 to 153777.
#[cfg_attr(feature = "inlined", inline(always))]
fn system(word: u16) -> Instr {
    let level = word >> 3 & 15;
    let reg = Reg::low(word);
    match word >> 7 & 15 {
        0o00 | 0o01 => transfer(word),
        0o02 => control(word),
        0o04 | 0o05 => Instr::Wait,
        0o12 if word & 7 == 2 => Instr::Srb { level },
        0o13 if word & 7 == 0 => Instr::Lrb { level },
        0o14 | 0o15 => Instr::Mon {
            number: low_byte(word),
        },
        0o16 => Instr::Irw { level, reg },
        0o17 => Instr::Irr { level, reg },
        // NLZ, DNZ and the rest.
        _ => Instr::Illegal,
    }
}

/// 150400 to 150577: eleven codes.
#[cfg_attr(feature = "inlined", inline(always))]
fn control(word: u16) -> Instr {
    match word & 0o177 {
        0o01 => Instr::Iof,
        0o02 => Instr::Ion,
        0o04 => Instr::Pof,
        0o05 => Instr::Piof,
        0o06 => Instr::Sex,
        0o07 => Instr::Rex,
        0o10 => Instr::Pon,
        0o12 => Instr::Pion,
        0o15 => Instr::Ioxt,
        0o16 => Instr::Exam,
        0o17 => Instr::Depo,
        _ => Instr::Illegal,
    }
}

#[cfg_attr(feature = "inlined", inline(always))]
fn jump_cond(word: u16) -> JumpCond {
    match word >> 8 & 7 {
        0 => JumpCond::Jap,
        1 => JumpCond::Jan,
        2 => JumpCond::Jaz,
        3 => JumpCond::Jaf,
        4 => JumpCond::Jpc,
        5 => JumpCond::Jnc,
        6 => JumpCond::Jxz,
        _ => JumpCond::Jxn,
    }
}

#[cfg_attr(feature = "inlined", inline(always))]
fn skip_cond(word: u16) -> SkipCond {
    match word >> 8 & 7 {
        0 => SkipCond::Eql,
        1 => SkipCond::Geq,
        2 => SkipCond::Gre,
        3 => SkipCond::Mgre,
        4 => SkipCond::Ueq,
        5 => SkipCond::Lss,
        6 => SkipCond::Lst,
        _ => SkipCond::Mlst,
    }
}

/// 144000 to 147777: register operations.
#[cfg_attr(feature = "inlined", inline(always))]
fn register(word: u16) -> Instr {
    let dst = Reg::low(word);
    let src = Reg::low(word >> 3);
    let cm1 = word & 0o200 != 0;
    let cld = word & 0o100 != 0;
    let logic = |op| Instr::Logic {
        op,
        cm1,
        cld,
        src,
        dst,
    };
    let radd = |one| Instr::Radd {
        one,
        cm1,
        cld,
        src,
        dst,
    };
    match word >> 8 & 7 {
        0 => logic(Logic::Swap),
        1 => logic(Logic::Rand),
        2 => logic(Logic::Rexo),
        3 => logic(Logic::Rora),
        4 => radd(AddOne::Nothing),
        5 => radd(AddOne::One),
        6 => radd(AddOne::Carry),
        _ => radd(AddOne::Both),
    }
}

/// 150000 to 150377: bits 7-6 the operation, 5-4 zero, 3-0 the number.
#[cfg_attr(feature = "inlined", inline(always))]
fn transfer(word: u16) -> Instr {
    let transfer = match word & 0o377 {
        0o001 => Transfer::TraSts,
        0o003 => Transfer::TraPgs,
        0o004 => Transfer::TraPvl,
        0o005 => Transfer::TraIic,
        0o006 => Transfer::TraPid,
        0o007 => Transfer::TraPie,
        0o011 => Transfer::TraActl,
        0o014 => Transfer::TraPgc,
        0o101 => Transfer::TrrSts,
        0o103 => Transfer::TrrPcr,
        0o105 => Transfer::TrrIie,
        0o106 => Transfer::TrrPid,
        0o107 => Transfer::TrrPie,
        0o201 => Transfer::MclSts,
        0o206 => Transfer::MclPid,
        0o207 => Transfer::MclPie,
        0o301 => Transfer::MstSts,
        0o306 => Transfer::MstPid,
        0o307 => Transfer::MstPie,
        _ => return Instr::Illegal,
    };
    Instr::Transfer(transfer)
}

/// Bits 10-9 the kind, 8-7 the register, 6 zero, 5-0 the signed count.
#[cfg_attr(feature = "inlined", inline(always))]
fn shift(word: u16) -> Instr {
    if word & 0o100 != 0 {
        return Instr::Illegal;
    }
    let reg = match word >> 7 & 3 {
        0 => ShiftReg::T,
        1 => ShiftReg::D,
        2 => ShiftReg::A,
        _ => ShiftReg::AD,
    };
    let kind = match word >> 9 & 3 {
        0 => ShiftKind::Arithmetic,
        1 => ShiftKind::Rotate,
        2 => ShiftKind::Zero,
        _ => ShiftKind::Link,
    };
    let low = (word & 0o77) as i16;
    let count = if low < 32 { low } else { low - 64 };
    Instr::Shift { reg, kind, count }
}

/// Bit 10 set or add, 9-8 the register.
#[cfg_attr(feature = "inlined", inline(always))]
fn argument(word: u16) -> Instr {
    let value = low_byte(word);
    let reg = match word >> 8 & 3 {
        0 => Reg::B,
        1 => Reg::A,
        2 => Reg::T,
        _ => Reg::X,
    };
    if word & 0o2000 == 0 {
        Instr::SetArg { reg, value }
    } else {
        Instr::AddArg { reg, value }
    }
}

#[cfg_attr(feature = "inlined", inline(always))]
fn bit_op(word: u16) -> BitOp {
    match word >> 7 & 15 {
        0 => BitOp::SetZero,
        1 => BitOp::SetOne,
        2 => BitOp::SetComplement,
        3 => BitOp::SetK,
        4 => BitOp::SkipZero,
        5 => BitOp::SkipOne,
        6 => BitOp::SkipComplement,
        7 => BitOp::SkipK,
        8 => BitOp::StoreComplement,
        9 => BitOp::Store,
        10 => BitOp::LoadComplement,
        11 => BitOp::Load,
        12 => BitOp::AndComplement,
        13 => BitOp::And,
        14 => BitOp::OrComplement,
        _ => BitOp::Or,
    }
}
