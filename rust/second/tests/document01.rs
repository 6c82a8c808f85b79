//! Document 01's twelve cases and its `turn` example.

mod common;
use common::*;
use std::io::Write;
use std::process::{Command, Stdio};

#[test]
fn case_01_p_relative() {
    // 044376 at 000100: ea 000076.
    Case::of(0o044376)
        .mem(0o076, 0o123456)
        .ok()
        .has(&[(A, 0o123456), (P, 0o101)]);
}

#[test]
fn case_02_b_wraps() {
    // B 177777, disp 1: ea 000000.
    Case::of(0o044401)
        .with(B, 0o177777)
        .mem(0, 0o54321)
        .ok()
        .has(&[(A, 0o54321)]);
}

#[test]
fn case_03_add_overflow() {
    Case::of(0o060001)
        .with(A, 0o077777)
        .mem(0o101, 1)
        .ok()
        .has(&[(A, 0o100000), (STS, flags("OQ"))]);
}

#[test]
fn case_04_add_carry() {
    Case::of(0o060001)
        .with(A, 0o177777)
        .mem(0o101, 1)
        .ok()
        .has(&[(A, 0), (STS, flags("C"))]);
}

#[test]
fn case_05_mpy_smallest() {
    Case::of(0o120001)
        .with(A, 0o100000)
        .mem(0o101, 1)
        .ok()
        .has(&[(A, 0o100000), (STS, flags("OQ"))]);
}

#[test]
fn case_06_mpy_181() {
    Case::of(0o120001)
        .with(A, 181)
        .mem(0o101, 181)
        .ok()
        .has(&[(A, 32_761), (STS, 0)]);
    Case::of(0o120001)
        .with(A, 182)
        .mem(0o101, 181)
        .ok()
        .has(&[(A, 0o100256), (STS, flags("OQ"))]);
}

#[test]
fn case_07_gre_geq() {
    // dr 077777, sr 177777: GRE skips, GEQ doesn't. SKP DA GRE SB, SKP DA GEQ SB.
    for (word, p) in [(0o141035, 0o102), (0o140435, 0o101)] {
        Case::of(word)
            .with(A, 0o077777)
            .with(B, 0o177777)
            .ok()
            .has(&[(P, p), (STS, 0)]);
    }
}

#[test]
fn case_08_arithmetic_right() {
    // SHA SHR 1.
    Case::of(0o154477)
        .with(A, 0o100001)
        .ok()
        .has(&[(A, 0o140000), (STS, flags("M"))]);
}

#[test]
fn case_09_rdiv_by_zero() {
    Case::of(0o141630).with(A, 1).with(D, 2).gives(5).has(&[
        (A, 1),
        (D, 2),
        (STS, flags("Z")),
        (P, 0o101),
    ]);
}

#[test]
fn case_10_entry_zero() {
    let case = Case::paged(0o044400, 1)
        .with(B, 0o2000)
        .table(1, 0)
        .gives(3);
    assert_eq!(case.s.pgs, 0o040001);
}

#[test]
fn case_11_store_by_read_entry() {
    let case = Case::paged(0o004400, 1)
        .with(B, 0o2000)
        .table(1, 0o040000)
        .gives(2);
    assert_eq!(case.s.pgs, 0o040001);
}

#[test]
fn case_12_ring() {
    // Ring 1 read by entry 163000: 2, bit 14 clear.
    let case = Case::paged(0o044400, 1)
        .with(B, 0o2000)
        .table(1, 0o163000)
        .gives(2);
    assert_eq!(case.s.pgs, 0o000001);
}

/// Output of `turn` for an input.
fn turn(input: &[u8]) -> String {
    let mut child = Command::new(env!("CARGO_BIN_EXE_second_turn"))
        .stdin(Stdio::piped())
        .stdout(Stdio::piped())
        .spawn()
        .expect("turn starts");
    // The program may stop reading early.
    let _ = child.stdin.take().expect("piped").write_all(input);
    let output = child.wait_with_output().expect("turn ends");
    String::from_utf8(output.stdout).expect("text")
}

fn bytes(words: &[u16]) -> Vec<u8> {
    words.iter().flat_map(|word| word.to_be_bytes()).collect()
}

#[test]
fn turn_example() {
    let input = bytes(&[1, 1, 0, 0, 0, 3, 0o170405, 0o172403, 0o151000]);
    let expected = "ended stopped\nsteps 3\nlevel 0\nSTS 000000\nD 000000\nP 000003\n\
                    B 000000\nL 000000\nA 000010\nT 000000\nX 000000\n";
    assert_eq!(turn(&input), expected);
}

#[test]
fn turn_spent() {
    // JMP *0 for ever.
    let input = bytes(&[1, 1, 0, 0, 0, 1, 0o124000]);
    let expected = "ended spent\nsteps 1000\nlevel 0\nSTS 000000\nD 000000\nP 000000\n\
                    B 000000\nL 000000\nA 000000\nT 000000\nX 000000\n";
    assert_eq!(turn(&input), expected);
}

#[test]
fn turn_prints_the_running_level() {
    // Level 5 (control word 0), stopped at once; its T (46 decimal) is 177777.
    let input = bytes(&[2, 2, 0, 46, 0, 1, 3, 0, 0, 0, 4, 0o177777, 5, 0, 0, 1]);
    let expected = "ended stopped\nsteps 0\nlevel 5\nSTS 000000\nD 000000\nP 000000\n\
                    B 000000\nL 000000\nA 000000\nT 177777\nX 000000\n";
    assert_eq!(turn(&input), expected);
}

/// Faults twice, reads PGS, faults and reads again. Page 1 has no permit, page
/// 2 none to write; B is 002000 and X 004000. More entries come first.
fn faulting(entries: &[u16], bodies: &[u16]) -> Vec<u8> {
    let mut image = vec![6 + entries.len() as u16 / 5];
    image.extend(entries);
    image.extend([
        1, 0, 0, 0, 7, // the program
        2, 0, 3, 0, 1, // B
        2, 0, 7, 0, 1, // X
        3, 0, 2, 0, 1, // paging on
        3, 0, 10, 0, 1, // PCR of level 0: ring 2
        4, 0, 0, 0, 3, // entries of pages 0 to 2
    ]);
    image.extend(bodies);
    // STA ,X; LDA ,B; TRA PGS; COPY SA DT; LDA ,B; TRA PGS; WAIT.
    image.extend([
        0o006000, 0o044400, 0o150003, 0o146156, 0o044400, 0o150003, 0o151000,
    ]);
    image.extend([0o002000, 0o004000, 1, 2, 0o162000, 0o002001, 0o062002]);
    bytes(&image)
}

#[test]
fn turn_reads_the_first_fault() {
    // 2 by the store in page 2, then 3 in page 1: T has the first. Then 3 in
    // page 1 again: A has it.
    let expected = "ended stopped\nsteps 7\nlevel 0\nSTS 000000\nD 000000\nP 000007\n\
                    B 002000\nL 000000\nA 040001\nT 040002\nX 004000\n";
    assert_eq!(turn(&faulting(&[], &[])), expected);
    // PGS 100123, not held: the same. Held: it is what T has.
    let pgs = [3, 0, 9, 0, 1, 3, 0, 26, 0, 1];
    assert_eq!(turn(&faulting(&pgs, &[0o100123, 0])), expected);
    let first = expected.replace("T 040002", "T 100123");
    assert_eq!(turn(&faulting(&pgs, &[0o100123, 1])), first);
    assert_eq!(turn(&faulting(&pgs, &[0o100123, 2])), "refused 2\n");
    // The control words end with word 27.
    assert_eq!(turn(&faulting(&[3, 0, 28, 0, 0], &[])), expected);
    assert_eq!(turn(&faulting(&[3, 0, 27, 0, 1], &[0])), expected);
    assert_eq!(turn(&faulting(&[3, 0, 28, 0, 1], &[0])), "refused 6\n");
}

#[test]
fn turn_in_extended_mode() {
    // SEX or REX; TRA STS; WAIT. Kind 4 may name words 256 to 511.
    for (word, a) in [(0o150406, "030000"), (0o150407, "010000")] {
        let expected = format!(
            "ended stopped\nsteps 3\nlevel 0\nSTS 000000\nD 000000\nP 000003\n\
             B 000000\nL 000000\nA {a}\nT 000000\nX 000000\n"
        );
        let program = [word, 0o150001, 0o151000];
        let mut image = vec![1, 1, 0, 0, 0, 3];
        image.extend(program);
        assert_eq!(turn(&bytes(&image)), expected);
        let mut image = vec![2, 1, 0, 0, 0, 3, 4, 0, 511, 0, 1];
        image.extend(program);
        image.push(7);
        assert_eq!(turn(&bytes(&image)), expected);
    }
    assert_eq!(turn(&bytes(&[1, 4, 0, 512, 0, 1, 7])), "refused 6\n");
    assert_eq!(turn(&bytes(&[1, 3, 0, 27, 0, 1, 2])), "refused 2\n");
    // SEX; LDATX 10 of table word 511, by X 177776; WAIT.
    let mut image = vec![3, 1, 0, 0, 0, 3, 2, 0, 7, 0, 1, 4, 0, 511, 0, 1];
    image.extend([0o150406, 0o143310, 0o151000, 0o177776, 0o4321]);
    assert!(turn(&bytes(&image)).contains("A 004321\nT 000000\nX 177776\n"));
}

#[test]
fn turn_with_devices() {
    // IOX 300; COPY SA DT; IOX 306; WAIT, with A from the image or 0.
    let program = [0o164300, 0o146156, 0o164306, 0o151000];
    let expected = |a: &str, t: &str| {
        format!(
            "ended stopped\nsteps 4\nlevel 0\nSTS 000000\nD 000000\nP 000004\n\
             B 000000\nL 000000\nA {a}\nT {t}\nX 000000\n"
        )
    };
    // No kind 5: no character was typed, and output is ready.
    let mut image = vec![1, 1, 0, 0, 0, 4];
    image.extend(program);
    assert_eq!(turn(&bytes(&image)), expected("000010", "000000"));
    // All twelve words: the character 301, of 7 bits; output enabled, waiting.
    let mut image = vec![2, 1, 0, 0, 0, 4, 5, 0, 0, 0, 12];
    image.extend(program);
    image.extend([0, 0, 0, 0, 1, 0, 0o301, 1, 1, 1, 0, 0]);
    assert_eq!(turn(&bytes(&image)), expected("000001", "000101"));
    assert_eq!(turn(&bytes(&[1, 5, 0, 7, 0, 1, 4])), "refused 2\n");
    assert_eq!(turn(&bytes(&[1, 5, 0, 11, 0, 2, 0, 0])), "refused 6\n");
}

#[test]
fn turn_refuses() {
    assert_eq!(turn(&[]), "refused 4\n");
    assert_eq!(turn(&[0]), "refused 8\n");
    assert_eq!(turn(&vec![0; 65_538]), "refused 8\n");
    assert_eq!(turn(&vec![0; 65_537]), "refused 8\n");
    // 65,536 bytes are read: no entries, so the bodies are not the rest.
    assert_eq!(turn(&vec![0; 65_536]), "refused 8\n");
    assert_eq!(turn(&bytes(&[33])), "refused 4\n");
    assert_eq!(turn(&bytes(&[1, 6, 0, 0, 0, 0])), "refused 5\n");
    assert_eq!(turn(&bytes(&[1, 1, 0, 16_384, 0, 1, 0])), "refused 6\n");
    assert_eq!(turn(&bytes(&[1, 3, 0, 0, 0, 1, 16])), "refused 2\n");
    // No entries at all: STZ *0 writes zero over itself, 1,000 times.
    assert!(turn(&[0, 0]).starts_with("ended spent\nsteps 1000\nlevel 0\n"));
}
