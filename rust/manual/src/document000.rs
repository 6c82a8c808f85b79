//! The examples of document 000, the functional description, that a machine with a clock and a terminal can execute.
//!
//! It prints no words: they are put together by document 002's tables of codes. Numbers that it does not print are
//! chosen, as the physical pages of section 3.8.

use crate::Place::{Interrupt, Memory, Table};
use crate::words::*;
use crate::{Example, Source, Words, program};

const fn row(
    at: &'static str,
    text: &'static str,
    word: u16,
    before: Words,
    after: Words,
) -> Example {
    Example::one(Source::Section(at), text, word, before, after)
}

#[rustfmt::skip]
pub const EXAMPLES: &[Example] = &[
    // "STA * +1 is legal": the word stored, here SAA 5, is the next instruction.
    program(&[], 2, row("2.4.2", "STA * +1", 0o004001,
        &[(A, 0o170405)], &[(Memory(0o101), 0o170405), (A, 5), (P, 0o102)])),
    // R + S to B.
    row("2.8.2", "RADD SA DB", 0o146053, &[(A, 5), (B, 7)], &[(B, 12)]),

    row("2.9.2.3.1", "IDENT PL13", 0o143643, &[], NO_DEVICE),
    // Computed GO TO: code 2 goes to the third of the JMPs that follow.
    row("2.9.2.3.1", "RADD SA DP", 0o146052, &[(A, 2)], &[(P, 0o103)]),
    // LEV13 with the clock, whose code is 1: the second JMP. IDENT resets its interrupt condition.
    program(&[0o146052, 0o124010, 0o124020], 3,
        row("2.9.2.3.1", "IDENT PL13; RADD SA DP; JMP *10; JMP *20", 0o143643,
            &[(LEVEL, 13), (PID, 0o20000), (CLOCK_ENABLED, 1), (CLOCK_READY, 1), (CLOCK_ASKS, 1)],
            &[(of(13, A), 1), (CLOCK_ASKS, 0), (of(13, P), 0o123)])),

    // LEV14 with interrupt code 3, page fault: the fourth JMP. TRA IIC resets it.
    program(&[0o146052, 0o124010, 0o124020, 0o124030, 0o124040], 3,
        row("2.9.2.4.2", "TRA IIC; RADD SA DP; JMP *10; JMP *20; JMP *30; JMP *40", 0o150005,
            &[(LEVEL, 14), (IID, 0o10)], &[(of(14, A), 3), (IID, 0), (of(14, P), 0o145)])),
    // P points after WAIT when level 14 is entered again.
    program(&[], 2, row("2.9.2.4.2", "WAIT", 0o151000,
        &[(LEVEL, 14), (ION, 1), (PID, 0o40000), (PIE, 0o40000)],
        &[(of(14, P), 0o101), (PID, 0), (LEVEL, 0), (PVL, 14)])),

    // To a higher level: 9 is enabled, its PID bit is set.
    program(&[0o174315, 0o150306], 4, row("2.9.2.5.2", "SAA 0; BSET ONE 110 DA; MST PID", 0o170400,
        &[(ION, 1), (PIE, 0o1000)], &[(A, 0o1000), (PID, 0o1000), (P, 0o103), (LEVEL, 9), (PVL, 0)])),
    // From level 10 to a lower one, 5.
    program(&[0o174255, 0o150306, 0o151000], 5, row("2.9.2.5.2", "SAA 0; BSET ONE 50 DA; MST PID; WAIT", 0o170400,
        &[(LEVEL, 10), (ION, 1), (PID, 0o2000), (PIE, 0o2040)],
        &[(of(10, A), 0o40), (PID, 0o40), (of(10, P), 0o104), (LEVEL, 5), (PVL, 10)])),

    // A holds IRR (previous level) DP; executed, P of the level that caused the interrupt.
    row("2.9.2.5.4", "TRA PVL", 0o150004, &[(PVL, 5)], &[(A, 0o153652)]),
    program(&[0o140650], 2, row("2.9.2.5.4", "TRA PVL; EXR SA", 0o150004,
        &[(LEVEL, 14), (PVL, 5), (of(5, P), 0o4321)], &[(of(14, A), 0o4321), (of(14, P), 0o102)])),

    // Levels 1, 3, 4 and 10 to 14. All internal interrupts but Z. The saved P of levels 1 and 3.
    row("2.9.2.6", "TRR PIE", 0o150107, &[(A, 0o076032)], &[(PIE, 0o076032)]),
    row("2.9.2.6", "TRR IIE", 0o150105, &[(A, 0o003736)], &[(IIE, 0o003736)]),
    row("2.9.2.6", "IRW 10 DP", 0o153412, &[(A, 0o1234)], &[(of(1, P), 0o1234)]),
    row("2.9.2.6", "IRW 30 DP", 0o153432, &[(A, 0o1234)], &[(of(3, P), 0o1234)]),
    row("2.9.2.6", "TRA PEA", 0o150015, &[], ILLEGAL),
    row("2.9.2.6", "ION", 0o150402, &[], &[(ION, 1)]),

    // The eight modes of its table.
    row("2.10.2", "STA * +2", 0o004002, &[(A, 5)], &[(Memory(0o102), 5)]),
    row("2.10.2", "STA I * +2", 0o005002, &[(A, 5), (Memory(0o102), 0o300)], &[(Memory(0o300), 5)]),
    row("2.10.2", "STA +2 ,B", 0o004402, &[(A, 5), (B, 0o300)], &[(Memory(0o302), 5)]),
    row("2.10.2", "STA I +2 ,B", 0o005402, &[(A, 5), (B, 0o200), (Memory(0o202), 0o300)], &[(Memory(0o300), 5)]),
    row("2.10.2", "STA +2,X", 0o006002, &[(A, 5), (X, 0o300)], &[(Memory(0o302), 5)]),
    row("2.10.2", "STA +2, X, B", 0o006402, &[(A, 5), (B, 0o300), (X, 4)], &[(Memory(0o306), 5)]),
    row("2.10.2", "STA I * +2 ,X", 0o007002, &[(A, 5), (X, 4), (Memory(0o102), 0o300)], &[(Memory(0o304), 5)]),
    row("2.10.2", "STA I * +2,X,B", 0o007402,
        &[(A, 5), (B, 0o200), (X, 4), (Memory(0o202), 0o300)], &[(Memory(0o304), 5)]),
    row("2.10.3", "LDA * +2", 0o044002, &[(Memory(0o102), 5)], &[(A, 5)]),
    row("2.10.3", "LDA I +2, B, X", 0o047402,
        &[(B, 0o200), (X, 4), (Memory(0o202), 0o300), (Memory(0o304), 5)], &[(A, 5)]),

    // Bit 13 of the status register, set and reset.
    program(&[0o150001], 2, row("3.5.2", "SEX; TRA STS", 0o150406,
        &[], &[(EXTENDED, 1), (A, 0o030000), (P, 0o102)])),
    program(&[0o150001], 2, row("3.5.2", "REX; TRA STS", 0o150407,
        &[(EXTENDED, 1)], &[(EXTENDED, 0), (A, 0o010000), (P, 0o102)])),
    // Page 5 of table 2 has no permit: bits 0-7 are 205, multiplied by 2 they are the entry's word.
    row("3.5.4", "LDA ,B", 0o044400,
        &[(EXTENDED, 1), (PON, 1), (pcr(0), 0o2002), (B, 0o012345), (Table(0o400), 0o162000), (Table(0o401), 0),
          (Table(0o412), 0)],
        &[(Interrupt, 3), (IID, 0o10), (PGS, 0o040205), (HELD, 1), (Table(0o400), 0o166000)]),
    // The first address of each page table, in normal mode and in extended mode.
    row("3.6.2", "LDA ,B", 0o044400, &[(B, 0o177400), (Table(0), 0o5001)], &[(A, 0o5001)]),
    row("3.6.2", "LDA ,B", 0o044400, &[(B, 0o177500), (Table(0o100), 0o5002)], &[(A, 0o5002)]),
    row("3.6.2", "LDA ,B", 0o044400, &[(B, 0o177600), (Table(0o200), 0o5003)], &[(A, 0o5003)]),
    row("3.6.2", "LDA ,B", 0o044400, &[(B, 0o177700), (Table(0o300), 0o5004)], &[(A, 0o5004)]),
    row("3.6.2", "LDA ,B", 0o044400, &[(EXTENDED, 1), (B, 0o177000), (Table(0), 0o5001)], &[(A, 0o5001)]),
    row("3.6.2", "LDA ,B", 0o044400, &[(EXTENDED, 1), (B, 0o177200), (Table(0o200), 0o5002)], &[(A, 0o5002)]),
    row("3.6.2", "LDA ,B", 0o044400, &[(EXTENDED, 1), (B, 0o177400), (Table(0o400), 0o5003)], &[(A, 0o5003)]),
    row("3.6.2", "LDA ,B", 0o044400, &[(EXTENDED, 1), (B, 0o177600), (Table(0o600), 0o5004)], &[(A, 0o5004)]),

    // 1: addresses 40000 to 45777 are the virtual pages 20 to 22, here the physical pages 0, 2 and 3. The first and the
    // last are used.
    row("3.8", "LDA I *1", 0o045001,
        &[(PON, 1), (P, 0o40100), (Memory(0o101), 0o45777), (Memory(0o7777), 5),
          (Table(0o20), 0o160000), (Table(0o21), 0o160002), (Table(0o22), 0o160003)],
        &[(A, 5), (Table(0o20), 0o164000), (Table(0o22), 0o164003)]),
    // 2: level 1 with page tables 2 and 3 and PTM: the program from 40000 by table 2, data from 46000 by table 3.
    row("3.8", "LDA ,B", 0o044400,
        &[(PON, 1), (LEVEL, 1), (pcr(1), 0o2601), (of(1, STS), 1), (of(1, P), 0o40100), (of(1, B), 0o46000),
          (Table(0o220), 0o161000), (Table(0o323), 0o161001), (Memory(0o2000), 5)],
        &[(of(1, A), 5), (Table(0o220), 0o165000), (Table(0o323), 0o165001)]),
    // 3: the same on ring 1; a store to virtual page 14, which may be written but is of ring 2, is a memory protect
    // violation.
    row("3.8", "STA ,B", 0o004400,
        &[(PON, 1), (LEVEL, 1), (pcr(1), 0o2601), (of(1, STS), 1), (of(1, P), 0o40100), (of(1, B), 0o30000),
          (Table(0o220), 0o161000), (Table(0o314), 0o162001)],
        &[(Interrupt, 2), (IID, 0o4), (PGS, 0o314), (HELD, 1), (Table(0o220), 0o165000)]),

    // The teletype's routine. Bit 2, "activate device", does nothing here; the rest of the control word is 0.
    row("6.5.2", "SAA 4", 0o170404, &[], &[(A, 4)]),
    row("6.5.2", "IOX 303", 0o164303,
        &[(A, 4), (INPUT_ENABLED, 1), (LENGTH, 3)], &[(INPUT_ENABLED, 0), (LENGTH, 0)]),
    // Bit 3 of the status: the data register has a character; and the output one is empty. Bit 0 is the control's.
    row("6.5.2", "IOX 302", 0o164302, &[(INPUT_UNREAD, 1)], &[(A, 0o10)]),
    row("6.5.2", "IOX 302", 0o164302, &[(INPUT_ENABLED, 1)], &[(A, 1)]),
    row("6.5.2", "IOX 300", 0o164300, &[(INPUT_UNREAD, 1), (INPUT, 0o101)], &[(A, 0o101), (INPUT_UNREAD, 0)]),
    row("6.5.2", "IOX 306", 0o164306, &[], &[(A, 0o10)]),
    row("6.5.2", "IOX 306", 0o164306, &[(OUTPUT_ENABLED, 1), (OUTPUT_WAITS, 1)], &[(A, 1)]),
    row("6.5.2", "IOX 305", 0o164305, &[(A, 0o101)], &[(OUTPUT_WAITS, 1), (OUTPUT, 0o101)]),
    row("6.5.2", "IOX 307", 0o164307, &[(A, 4), (OUTPUT_ENABLED, 1), (OUTPUT_WAITS, 1)], &[(OUTPUT_ENABLED, 0)]),
    row("6.5.2", "BSKP ONE 30 DA", 0o175235, &[(A, 0o10)], &[(P, 0o102)]),
    row("6.5.2", "BSKP ONE 30 DA", 0o175235, &[(A, 0o177767)], &[]),
    row("6.5.2", "JMP * -2", 0o124376, &[], &[(P, 0o76)]),
    row("6.5.2", "COPY SA DX", 0o146157, &[(A, 0o101)], &[(X, 0o101)]),
    row("6.5.2", "COPY SX DA", 0o146175, &[(X, 0o101)], &[(A, 0o101)]),
    // Bit 0 enables: a character that was typed before gives its interrupt now. Levels 10 and 12 identify theirs; PID
    // stays until WAIT.
    row("6.7.5", "IOX 303", 0o164303,
        &[(A, 7), (INPUT_UNREAD, 1)], &[(INPUT_ENABLED, 1), (INPUT_ASKS, 1), (PID, 0o10000)]),
    row("6.7.5", "IOX 307", 0o164307, &[(A, 7)], &[(OUTPUT_ENABLED, 1), (OUTPUT_ASKS, 1), (PID, 0o2000)]),
    row("6.7.5", "IDENT PL10", 0o143604,
        &[(PID, 0o2000), (OUTPUT_ENABLED, 1), (OUTPUT_ASKS, 1)], &[(A, 1), (OUTPUT_ASKS, 0)]),
    row("6.7.5", "IDENT PL12", 0o143622,
        &[(PID, 0o10000), (INPUT_ENABLED, 1), (INPUT_UNREAD, 1), (INPUT_ASKS, 1)], &[(A, 1), (INPUT_ASKS, 0)]),
    // An interrupt to level 1; levels 0, 1, 10 and 12 are enabled.
    program(&[0o150306], 3, row("6.7.5", "SAA 2; MST PID", 0o170402,
        &[(ION, 1), (PIE, 0o12003)], &[(A, 2), (PID, 2), (P, 0o102), (LEVEL, 1), (PVL, 0)])),

    // The clock's registers; bit 13 clears ready, bit 0 enables. The 20 ms of register 11 are the host's.
    row("6.9.2", "IOX 10", 0o164010, &[(CLOCK_READY, 1)], &[(A, 0)]),
    row("6.9.2", "IOX 11", 0o164011, &[(CLOCK_READY, 1)], &[]),
    row("6.9.2", "IOX 12", 0o164012, &[(CLOCK_READY, 1)], &[(A, 0o10)]),
    row("6.9.2", "IOX 12", 0o164012, &[(CLOCK_ENABLED, 1), (CLOCK_READY, 1)], &[(A, 0o11)]),
    row("6.9.2", "IOX 13", 0o164013,
        &[(A, 1), (CLOCK_READY, 1)], &[(CLOCK_ENABLED, 1), (CLOCK_ASKS, 1), (PID, 0o20000)]),
    row("6.9.2", "IOX 13", 0o164013, &[(A, 0o20001), (CLOCK_READY, 1)], &[(CLOCK_ENABLED, 1), (CLOCK_READY, 0)]),

    // Level 12 to 042562 and on, for X = 042562.
    row("9.1.2", "SRB 140", 0o152542,
        &[(X, 0o042562), (of(12, P), 0o1001), (of(12, X), 0o1002), (of(12, T), 0o1003), (of(12, A), 0o1004),
          (of(12, D), 0o1005), (of(12, L), 0o1006), (of(12, STS), 0o007), (of(12, B), 0o1010)],
        &[(Memory(0o042562), 0o1001), (Memory(0o042563), 0o1002), (Memory(0o042564), 0o1003),
          (Memory(0o042565), 0o1004), (Memory(0o042566), 0o1005), (Memory(0o042567), 0o1006),
          (Memory(0o042570), 0o007), (Memory(0o042571), 0o1010)]),
    row("9.1.3", "IRR 160 DP", 0o153762, &[(of(14, P), 0o4321)], &[(A, 0o4321)]),
    // Bits 0-7 of A to STS of level 9.
    row("9.1.3", "IRW 110", 0o153510, &[(A, 0o123456)], &[(of(9, STS), 0o056)]),
];
