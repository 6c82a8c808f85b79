//! Which words are which instruction, and the disassembler.

use second::*;

#[test]
fn counts() {
    let words = || 0..=0o177777u16;
    let illegal = words()
        .filter(|&word| decode(word) == Instr::Illegal)
        .count();
    // Floating 8192; 140000-143777 less 512 skips, 7 x 64 and 7 x 8 by T and X;
    // 256 - 19 transfers; 256 - 11; NLZ and DNZ 512; 256 - 32; shifts 1024; 2048.
    assert_eq!(illegal, 8192 + 1032 + 237 + 245 + 512 + 224 + 1024 + 2048);
    let privileged = words().filter(|&word| decode(word).privileged()).count();
    // Transfers, eleven codes, WAIT, SRB and LRB, IRW and IRR, IOX, IDENT, by T and X.
    assert_eq!(privileged, 19 + 11 + 256 + 32 + 256 + 2048 + 64 + 56);
    let memory = words()
        .filter(|&word| matches!(decode(word), Instr::Memory { .. }))
        .count();
    assert_eq!(memory, 19 * 2048);
}

#[test]
fn ranges() {
    for word in 0o140600..=0o140677 {
        assert!(matches!(decode(word), Instr::Exr { .. }));
    }
    for word in 0o141600..=0o141677 {
        assert!(matches!(decode(word), Instr::Rdiv { .. }));
    }
    for low in 0..64 {
        assert_eq!(decode(0o142200 + low), Instr::Lbyt);
        assert_eq!(decode(0o142600 + low), Instr::Sbyt);
        assert_eq!(decode(0o143200 + low), Instr::Mix3);
        assert_eq!(decode(0o143600 + low), Instr::Ident { code: low });
        assert!(matches!(decode(0o141200 + low), Instr::Rmpy { .. }));
    }
    for word in 0o151000..=0o151377 {
        assert_eq!(decode(word), Instr::Wait);
    }
    for word in (0o160000..=0o163777)
        .chain(0o100000..=0o117777)
        .chain(0o151400..=0o152377)
    {
        assert_eq!(decode(word), Instr::Illegal);
    }
    for word in 0o152400..=0o152577 {
        let srb = matches!(decode(word), Instr::Srb { .. });
        assert_eq!(srb, word & 7 == 2);
    }
    for word in 0o152600..=0o152777 {
        let lrb = matches!(decode(word), Instr::Lrb { .. });
        assert_eq!(lrb, word & 7 == 0);
    }
    let codes = [
        0o01, 0o02, 0o04, 0o05, 0o06, 0o07, 0o10, 0o12, 0o15, 0o16, 0o17,
    ];
    for low in 0..256 {
        let legal = decode(0o150400 + low) != Instr::Illegal;
        assert_eq!(legal, codes.contains(&low));
    }
    for word in 0o143300..=0o143377 {
        let physical = matches!(decode(word), Instr::Physical { .. });
        assert_eq!(physical, word & 7 != 7);
    }
    // LWCS, SINTRAN, decimal, stack, byte and word block codes.
    for word in [
        0o143500, 0o143307, 0o140300, 0o140500, 0o140700, 0o140120, 0o140130, 0o140134, 0o143100,
        0o140123, 0o140127, 0o140133, 0o150400, 0o150403, 0o150606,
    ] {
        assert_eq!(decode(word), Instr::Illegal, "{word:o}");
    }
}

#[test]
fn fields() {
    let memory = |op, mode, disp| Instr::Memory { op, mode, disp };
    assert_eq!(decode(0o044376), memory(MemOp::Lda, Mode::P, -2));
    assert_eq!(decode(0o137577), memory(MemOp::Jpl, Mode::BIndirectX, 127));
    assert_eq!(decode(0o122200), memory(MemOp::Mpy, Mode::X, -128));
    let shift = |reg, kind, count| Instr::Shift { reg, kind, count };
    assert_eq!(
        decode(0o154040),
        shift(ShiftReg::T, ShiftKind::Arithmetic, -32)
    );
    assert_eq!(decode(0o155237), shift(ShiftReg::D, ShiftKind::Rotate, 31));
    assert_eq!(decode(0o156477), shift(ShiftReg::A, ShiftKind::Zero, -1));
    assert_eq!(decode(0o157600), shift(ShiftReg::AD, ShiftKind::Link, 0));
    assert_eq!(decode(0o154100), Instr::Illegal);
    let bit = |op, bit, reg| Instr::Bit { op, bit, reg };
    assert_eq!(decode(0o174000), bit(BitOp::SetZero, 0, Reg::Sts));
    assert_eq!(decode(0o177777), bit(BitOp::Or, 15, Reg::X));
    assert_eq!(decode(0o153377), Instr::Mon { number: -1 });
    assert_eq!(decode(0o165234), Instr::Iox { device: 0o1234 });
    let irw = Instr::Irw {
        level: 15,
        reg: Reg::Sts,
    };
    assert_eq!(decode(0o153570), irw);
    let physical = |op, disp| Instr::Physical { op, disp };
    assert_eq!(decode(0o143320), physical(PhysicalOp::Ldatx, 2));
    assert_eq!(decode(0o143371), physical(PhysicalOp::Ldxtx, 7));
    assert_eq!(decode(0o143312), physical(PhysicalOp::Lddtx, 1));
    assert_eq!(decode(0o143303), physical(PhysicalOp::Ldbtx, 0));
    assert_eq!(decode(0o143344), physical(PhysicalOp::Statx, 4));
    assert_eq!(decode(0o143355), physical(PhysicalOp::Stztx, 5));
    assert_eq!(decode(0o143366), physical(PhysicalOp::Stdtx, 6));
}

#[test]
fn text() {
    for (word, text) in [
        (0o000000, "STZ *0"),
        (0o004401, "STA ,B 1"),
        (0o011377, "STT I *-1"),
        (0o015402, "STX I ,B 2"),
        (0o022200, "STD ,X -200"),
        (0o026577, "LDD ,X ,B 177"),
        (0o033000, "STF ,X I *0"),
        (0o037401, "LDF ,X I ,B 1"),
        (0o040001, "MIN *1"),
        (0o050001, "LDT *1"),
        (0o054001, "LDX *1"),
        (0o060001, "ADD *1"),
        (0o064001, "SUB *1"),
        (0o070001, "AND *1"),
        (0o074001, "ORA *1"),
        (0o120001, "MPY *1"),
        (0o124374, "JMP *-4"),
        (0o130001, "JAP *1"),
        (0o130401, "JAN *1"),
        (0o131001, "JAZ *1"),
        (0o131401, "JAF *1"),
        (0o132001, "JPC *1"),
        (0o132401, "JNC *1"),
        (0o133001, "JXZ *1"),
        (0o133401, "JXN *1"),
        (0o141452, "SKP DP MGRE SA"),
        (0o141670, "RDIV SX"),
        (0o142600, "SBYT"),
        (0o143200, "MIX3"),
        (0o143300, "LDATX 0"),
        (0o143301, "LDXTX 0"),
        (0o143322, "LDDTX 20"),
        (0o143313, "LDBTX 10"),
        (0o143374, "STATX 70"),
        (0o143345, "STZTX 40"),
        (0o143306, "STDTX 0"),
        (0o143307, "??? 143307"),
        (0o144351, "SWAP CM1 CLD SA DD"),
        (0o147061, "RADD ADC ST DD"),
        (0o147461, "RADD ADC AD1 ST DD"),
        (0o146500, "COPY AD1"),
        (0o150001, "TRA STS"),
        (0o150103, "TRR PCR"),
        (0o150401, "IOF"),
        (0o150402, "ION"),
        (0o150404, "POF"),
        (0o150405, "PIOF"),
        (0o150406, "SEX"),
        (0o150407, "REX"),
        (0o150410, "PON"),
        (0o150412, "PION"),
        (0o150415, "IOXT"),
        (0o150416, "EXAM"),
        (0o150417, "DEPO"),
        (0o151000, "WAIT"),
        (0o151005, "WAIT 5"),
        (0o152402, "SRB 0"),
        (0o153377, "MON 377"),
        (0o153600, "IRR 0 STS"),
        (0o154004, "SHT 4"),
        (0o155201, "SHD ROT 1"),
        (0o156640, "SAD ZIN SHR 40"),
        (0o157477, "SHA LIN SHR 1"),
        (0o164015, "IOX 15"),
        (0o170777, "SAA -1"),
        (0o171401, "SAX 1"),
        (0o173200, "AAT -200"),
        (0o174575, "BSET BCM 170 DA"),
        (0o176100, "BSTC 100"),
        (0o176670, "BLDA SSM"),
        (0o100000, "??? 100000"),
    ] {
        assert_eq!(disassemble(word), text, "{word:o}");
    }
    // Every legal word has a text, one of each kind at least.
    for word in 0..=0o177777 {
        let illegal = decode(word) == Instr::Illegal;
        assert_eq!(disassemble(word).starts_with("???"), illegal);
    }
}
