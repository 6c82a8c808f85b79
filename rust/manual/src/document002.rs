//! Every instruction that an example of document 002, the instruction set, writes.
//!
//! The pages print few numbers. Those printed are used, and so are the printed words; where a page says in a sentence
//! what is done with a register, the register's number is chosen here and what must come is that sentence, done by
//! hand. Page 84 and others print no word: it is put together by the page's table of codes. Where the manual slips,
//! docs/DECISIONS.md, part 2, point 15, says what holds, and the comment says "slip".

use crate::Place::{Interrupt, Memory, Table};
use crate::words::*;
use crate::{Example, Source, Words, program};

const fn row(page: u16, text: &'static str, word: u16, before: Words, after: Words) -> Example {
    Example::one(Source::Page(page), text, word, before, after)
}

#[rustfmt::skip]
pub const EXAMPLES: &[Example] = &[
    // Store A two words ahead of this instruction.
    row(19, "STA *2", 0o004002, &[(A, 0o777)], &[(Memory(0o102), 0o777)]),
    // Load A from B minus 4.
    row(20, "LDA -4,B", 0o044774, &[(B, 0o300), (Memory(0o274), 5)], &[(A, 5)]),
    // Load A; its address is the word two words ahead.
    row(21, "LDA I *2", 0o045002, &[(Memory(0o102), 0o300), (Memory(0o300), 6)], &[(A, 6)]),
    // Jump to the address at B + 3; L gets P, one further as on page 78.
    row(22, "JPL I 3,B", 0o135403, &[(B, 0o300), (Memory(0o303), 0o1000)], &[(P, 0o1000), (L, 0o101)]),
    // Slip: page 19's sentence with X for A. A is stored at X + 2.
    row(23, "STA 2,X", 0o006002, &[(X, 0o300), (A, 7)], &[(Memory(0o302), 7)]),
    // d = 1, (B) = 304, (X) = 4.
    row(24, "LDA 1,B ,X", 0o046401, &[(B, 0o304), (X, 4), (Memory(0o311), 8)], &[(A, 8)]),
    // Slip: the displacement of both is 1, not 2. X is added to the word there.
    row(25, "LDA ,X I *1", 0o047001, &[(X, 4), (Memory(0o101), 0o300), (Memory(0o304), 9)], &[(A, 9)]),
    row(26, "LDA ,X I ,B *1", 0o047401,
        &[(B, 0o200), (X, 4), (Memory(0o201), 0o300), (Memory(0o304), 10)], &[(A, 10)]),
    // The byte to the lower half of A, zero to the higher; page 4: an even byte address is the more significant half.
    row(27, "LBYT", 0o142200, &[(T, 0o300), (X, 2), (Memory(0o301), 0xab12)], &[(A, 0xab)]),
    row(27, "LBYT", 0o142200, &[(T, 0o300), (X, 3), (Memory(0o301), 0xab12)], &[(A, 0x12)]),
    row(28, "LDATX", 0o143320, &[(T, 0), (X, 0o300), (Memory(0o302), 11)], &[(A, 11)]),

    // Copy A into D. As a RADD it sets C by the carry and clears O, and Q stays.
    row(43, "COPY SA DD", 0o146151, &[(A, 5), (D, 9), (STS, C | O | Q)], &[(D, 5), (STS, Q)]),
    // Slip: "2's complement the A register" is 146755, COPY CM2 SA DD 146751; the printed 146655 is A - A.
    row(43, "COPY CM2 SA DD", 0o146655, &[(A, 5)], &[(A, 0), (STS, C)]),
    row(43, "COPY CM2 SA DA", 0o146755, &[(A, 5)], &[(A, word(-5))]),
    row(43, "COPY CM2 SA DD", 0o146751, &[(A, 5)], &[(D, word(-5))]),
    // Return to the location in L. Slip: (L) = 108 and (P) = 190 are no octal numbers; 110 and 100 stand for them.
    row(44, "EXIT", 0o146142, &[(L, 0o110)], &[(P, 0o110)]),
    // (A) = 014177, STX *177: X to P + 177.
    row(45, "EXR SA", 0o140650, &[(A, 0o014177), (X, 3)], &[(Memory(0o277), 3)]),
    // (B) = 134020, JPL *20: to P + 20; L gets the address of the instruction after EXR.
    row(45, "EXR SB", 0o140630, &[(B, 0o134020)], &[(P, 0o120), (L, 0o101)]),
    // Subtract one from A, multiply by three, to X.
    row(46, "MIX3", 0o143200, &[(A, 5)], &[(X, 12)]),
    // A and X added, to X.
    row(48, "RADD SA DX", 0o146057, &[(A, 5), (X, 7), (STS, C | O | Q)], &[(X, 12), (STS, Q)]),
    // Copy X into B (slip: "into A").
    row(48, "RADD CLD SX DB", 0o146173, &[(X, 7), (B, 100)], &[(B, 7)]),
    // Copy the negative of X into B.
    row(48, "RADD CM1 CLD AD1 SX DB", 0o146773, &[(X, 7), (B, 100)], &[(B, word(-7))]),
    // AND L with X, to X. AND the complement of T with B.
    row(49, "RAND SL DX", 0o144447, &[(L, 0b1100), (X, 0b1010)], &[(X, 0b1000)]),
    row(49, "RAND CM1 ST DB", 0o144663, &[(T, 0b1100), (B, 0b1010)], &[(B, 0b0010)]),
    row(50, "RCLR DP", 0o146102, &[], &[(P, 0)]),
    row(51, "RDCR DB", 0o146203, &[(B, 5)], &[(B, 4), (STS, C)]),

    // The table of page 52: AD and sr before, A, D and Z after, all decimal. sr is T.
    row(52, "RDIV ST", 0o141660, &[(A, high(22)), (D, low(22)), (T, 4)], &[(A, 5), (D, 2)]),
    row(52, "RDIV ST", 0o141660, &[(A, high(-22)), (D, low(-22)), (T, 4)], &[(A, word(-5)), (D, word(-2))]),
    row(52, "RDIV ST", 0o141660,
        &[(A, high(378_452)), (D, low(378_452)), (T, word(-16))], &[(A, word(-23_653)), (D, 4)]),
    row(52, "RDIV ST", 0o141660, &[(A, high(32_767)), (D, low(32_767)), (T, 1)], &[(A, 32_767), (D, 0)]),
    // Z is 1, and A and D have no number. Document 01: they stay, and interrupt 5.
    row(52, "RDIV ST", 0o141660,
        &[(A, high(32_768)), (D, low(32_768)), (T, 1)], &[(STS, Z), (Interrupt, 5), (IID, 0o40)]),
    // Slip: 32762.
    row(52, "RDIV ST", 0o141660, &[(A, high(65_535)), (D, low(65_535)), (T, 2)], &[(A, 32_767), (D, 1)]),

    row(53, "REXO ST DB", 0o145063, &[(T, 0b1100), (B, 0b1010)], &[(B, 0b0110)]),
    row(54, "RINC DA", 0o146405, &[(A, 5), (STS, C | O | Q)], &[(A, 6), (STS, Q)]),
    // A and X multiplied, to A and D, the more significant half in A.
    row(55, "RMPY SA DX", 0o141257, &[(A, word(-2)), (X, 3)], &[(A, high(-6)), (D, low(-6))]),
    row(55, "RMPY SA DX", 0o141257, &[(A, 300), (X, 300)], &[(A, high(90_000)), (D, low(90_000))]),
    row(56, "RORA ST DB", 0o145463, &[(T, 0b1100), (B, 0b1010)], &[(B, 0b1110)]),
    // T subtracted from B.
    row(57, "RSUB ST DB", 0o146663, &[(T, 5), (B, 7)], &[(B, 2), (STS, C)]),
    row(58, "SWAP SA DD", 0o144051, &[(A, 1), (D, 2)], &[(A, 2), (D, 1)]),
    // A is zero, X what A was.
    row(58, "SWAP CLD SA DX", 0o144157, &[(A, 1), (X, 2)], &[(A, 0), (X, 1)]),

    // The test for 32- or 48-bit floating point.
    row(72, "SAT 0", 0o171000, &[], &[(T, 0)]),
    row(72, "SAA 1", 0o170401, &[], &[(A, 1)]),
    row(72, "NLZ 20", 0o151420, &[], ILLEGAL),

    // A three places to the right, the last bit discarded to M (slip: bit 8). The type is arithmetic.
    row(74, "SHA 75", 0o154475, &[(A, 0o104)], &[(A, 0o10), (STS, M)]),
    row(74, "SHA 75", 0o154475, &[(A, 0o100003), (STS, M)], &[(A, 0o170000), (STS, 0)]),

    // Skip if D equals L (slip: A).
    row(84, "SKP DD EQL SL", 0o140041, &[(D, 5), (L, 5)], &[(P, 0o102)]),
    row(84, "SKP DD EQL SL", 0o140041, &[(D, 5), (L, 6)], &[]),
    // Slip: both sentences have B and A the wrong way round. By page 83's table, if B is less than A.
    row(84, "SKP DB LSS SA", 0o142453, &[(B, 4), (A, 5)], &[(P, 0o102)]),
    row(84, "SKP DB LSS SA", 0o142453, &[(B, 6), (A, 5)], &[]),
    // Skip if L does not equal zero.
    row(84, "SKP DL UEQ", 0o142004, &[(L, 1)], &[(P, 0o102)]),
    row(84, "SKP DL UEQ", 0o142004, &[(L, 0)], &[]),
    // Slip: with no destination page 82 has a no-operation (part 2, point 7).
    row(84, "SKP LSS SD", 0o142410, &[(D, 1)], &[]),
    row(84, "SKP LSS SD", 0o142410, &[(D, word(-1))], &[]),

    row(86, "SAT 13", 0o171013, &[(T, 0o177777)], &[(T, 0o13)]),
    row(86, "SAB -26", 0o170352, &[], &[(B, 0o177752)]),
    // Add 3 to A; carry and overflow may be affected.
    row(86, "AAA 3", 0o172403, &[(A, 5)], &[(A, 8)]),
    row(86, "AAA 3", 0o172403, &[(A, 0o077775)], &[(A, 0o100000), (STS, O | Q)]),
    row(86, "AAA 3", 0o172403, &[(A, 0o177776), (STS, O | Q)], &[(A, 1), (STS, C | Q)]),

    // Skip if the carry flag is set.
    row(89, "BSKP ONE SSC", 0o175260, &[(STS, C)], &[(P, 0o102)]),
    row(89, "BSKP ONE SSC", 0o175260, &[(STS, K | Z | Q | O | M)], &[]),
    // Reset SSO, bit 5 (slip: "static").
    row(89, "BSET ZRO SSO", 0o174050, &[(STS, 0o377)], &[(STS, 0o337)]),
    // The complement of bit 6 of X or K, to K.
    row(89, "BORC 60 DX", 0o177467, &[(X, 0o100)], &[]),
    row(89, "BORC 60 DX", 0o177467, &[(X, 0)], &[(STS, K)]),
    row(89, "BORC 60 DX", 0o177467, &[(X, 0o100), (STS, K)], &[]),

    // Each decimal instruction is followed by a jump on error and by another instruction.
    row(101, "ADDD", 0o140120, &[], ILLEGAL),
    row(101, "JMP *12", 0o124012, &[], &[(P, 0o112)]),
    row(101, "STX 20", 0o014020, &[(X, 3)], &[(Memory(0o120), 3)]),
    row(102, "COMD", 0o140122, &[], ILLEGAL),
    row(102, "JMP *30", 0o124030, &[], &[(P, 0o130)]),
    row(102, "AAA 20", 0o172420, &[(A, 5)], &[(A, 0o25)]),
    row(105, "SHDE", 0o140126, &[], ILLEGAL),
    row(105, "JMP *10", 0o124010, &[], &[(P, 0o110)]),
    row(105, "SAD 20", 0o154620, &[(A, 1), (D, 0o123456)], &[(A, 0o123456), (D, 0), (STS, M)]),
    row(106, "SUBD", 0o140121, &[], ILLEGAL),
    // Slip: "(P) + 15".
    row(106, "JPL *30", 0o134030, &[], &[(P, 0o130), (L, 0o101)]),
    row(106, "ADD *15", 0o060015, &[(A, 5), (Memory(0o115), 3)], &[(A, 8)]),

    // P of level 14 to A. A to B of level 8.
    row(114, "IRR 160 DP", 0o153762, &[(of(14, P), 0o4321)], &[(A, 0o4321)]),
    row(114, "IRW 100 DB", 0o153503, &[(A, 0o1234)], &[(of(8, B), 0o1234)]),
    // P, X, T, A, D, L, STS and B of level 14 from the block at X; of STS the lower byte (page 115).
    row(116, "LRB 160", 0o152760,
        &[(X, 0o300), (Memory(0o300), 0o1001), (Memory(0o301), 0o1002), (Memory(0o302), 0o1003),
          (Memory(0o303), 0o1004), (Memory(0o304), 0o1005), (Memory(0o305), 0o1006), (Memory(0o306), 0o1007),
          (Memory(0o307), 0o1010)],
        &[(of(14, P), 0o1001), (of(14, X), 0o1002), (of(14, T), 0o1003), (of(14, A), 0o1004), (of(14, D), 0o1005),
          (of(14, L), 0o1006), (of(14, STS), 0o007), (of(14, B), 0o1010)]),
    // Slip: for SRB of level 8 the page has LRB, and 152702, which is illegal. SRB 100 is 152502.
    row(116, "LRB 100", 0o152702, &[(X, 0o300)], ILLEGAL),
    row(116, "SRB 100", 0o152502,
        &[(X, 0o300), (of(8, P), 0o1001), (of(8, X), 0o1002), (of(8, T), 0o1003), (of(8, A), 0o1004),
          (of(8, D), 0o1005), (of(8, L), 0o1006), (of(8, STS), 0o007), (of(8, B), 0o1010)],
        &[(Memory(0o300), 0o1001), (Memory(0o301), 0o1002), (Memory(0o302), 0o1003), (Memory(0o303), 0o1004),
          (Memory(0o304), 0o1005), (Memory(0o305), 0o1006), (Memory(0o306), 0o007), (Memory(0o307), 0o1010)]),

    // (A) = 000100: clear the carry flag. (A) = 000140: set bits 5 and 6.
    row(118, "MCL STS", 0o150201, &[(A, 0o000100), (STS, 0o377)], &[(STS, 0o277)]),
    row(118, "MST PIE", 0o150307, &[(A, 0o000140), (PIE, 1)], &[(PIE, 0o141)]),
    row(119, "TRA", 0o150012, &[], ILLEGAL),
    // A to PID. Slip: the printed 150306 is MST PID; TRR PID is 150106.
    row(119, "TRR", 0o150306, &[(A, 0o140), (PID, 1)], &[(PID, 0o141)]),
    row(119, "TRR PID", 0o150106, &[(A, 0o140), (PID, 1)], &[(PID, 0o140)]),

    // To a device, from a device.
    row(122, "IOX 1", 0o164001, &[], NO_DEVICE),
    row(122, "IOX 0", 0o164000, &[], NO_DEVICE),
    // The four codes. Without a device that asks A is unchanged.
    row(125, "IDENT PL10", 0o143604, &[], NO_DEVICE),
    row(125, "IDENT PL11", 0o143611, &[], NO_DEVICE),
    row(125, "IDENT PL12", 0o143622, &[], NO_DEVICE),
    row(125, "IDENT PL13", 0o143643, &[], NO_DEVICE),

    row(129, "REX", 0o150407, &[(EXTENDED, 1)], &[(EXTENDED, 0)]),
    row(129, "SEX", 0o150406, &[], &[(EXTENDED, 1)]),
    // The seven, the address being T x 65,536 + X + displacement. Slips: page 134's "twice the effective address" is
    // twice its contents; page 135 prints LDBTX's code for STATX, and STDIX; page 136 prints 143345, displacement 4.
    row(134, "LDATX 0", 0o143300, &[(T, 0), (X, 0o300), (Memory(0o300), 5)], &[(A, 5)]),
    row(134, "LDBTX 10", 0o143313, &[(T, 0), (X, 0o300), (Memory(0o301), 0o123)], &[(B, 0o177246)]),
    row(134, "LDDTX 20", 0o143322, &[(T, 0), (X, 0o300), (Memory(0o302), 5), (Memory(0o303), 6)], &[(A, 5), (D, 6)]),
    row(135, "LDXTX 0", 0o143301, &[(T, 0), (X, 0o300), (Memory(0o300), 5)], &[(X, 5)]),
    row(135, "STATX 20", 0o143324, &[(T, 0), (X, 0o300), (A, 5)], &[(Memory(0o302), 5)]),
    row(135, "STDTX 0", 0o143306, &[(T, 0), (X, 0o300), (A, 5), (D, 6)], &[(Memory(0o300), 5), (Memory(0o301), 6)]),
    row(136, "STZTX 40", 0o143345, &[(T, 0), (X, 0o300)], &[(Memory(0o304), 0)]),
    // What CLEPT replaces, for one element: link, page table word, place for the entry. Slip: LDETX for LDBTX.
    program(&[0o143313, 0o044400, 0o131003, 0o143324, 0o000400, 0o143301, 0o124371], 9,
        row(137, "JXZ *10; LDBTX 10; LDA ,B 0; JAZ *3; STATX 20; STZ ,B 0; LDXTX 0; JMP *-7", 0o133010,
            &[(EXTENDED, 1), (T, 0), (X, 0o300), (Memory(0o300), 0), (Memory(0o301), 0o123), (Table(0o246), 0o166000)],
            &[(A, 0o166000), (B, 0o177246), (X, 0), (Memory(0o302), 0o166000), (Table(0o246), 0), (P, 0o110)])),
    // What SETPT replaces: link, page table word, and the entry, of which PGU is cleared.
    program(&[0o143322, 0o174135, 0o143313, 0o020400, 0o143301, 0o124372], 8,
        row(145, "JXZ *7; LDDTX 20; BSET ZRO 130 DA; LDBTX 10; STD ,B 0; LDXTX 0; JMP *-6", 0o133007,
            &[(EXTENDED, 1), (T, 0), (X, 0o300), (Memory(0o300), 0), (Memory(0o301), 0o123),
              (Memory(0o302), 0o166000), (Memory(0o303), 0o1777)],
            &[(A, 0o162000), (D, 0o1777), (B, 0o177246), (X, 0), (Table(0o246), 0o162000), (Table(0o247), 0o1777),
              (P, 0o107)])),
];
