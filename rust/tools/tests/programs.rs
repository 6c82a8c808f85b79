//! What the programs print, and how they take their command lines.

use std::io::Write;
use std::process::{Command, Stdio};

const TRACE: &str = env!("CARGO_BIN_EXE_trace");
const OCTAL: &str = env!("CARGO_BIN_EXE_octal_to_image");
const FLOATING: &str = env!("CARGO_BIN_EXE_convert_floating");

/// What a program does with an input: its exit status, standard output and standard error.
fn run(program: &str, args: &[&str], input: &[u8]) -> (i32, Vec<u8>, String) {
    let mut child = Command::new(program)
        .args(args)
        .stdin(Stdio::piped())
        .stdout(Stdio::piped())
        .stderr(Stdio::piped())
        .spawn()
        .expect("starts");
    // A program that refuses its command line leaves its input.
    let _ = child.stdin.take().expect("piped").write_all(input);
    let output = child.wait_with_output().expect("ends");
    let told = String::from_utf8(output.stderr).expect("text");
    let status = output.status.code().expect("no signal");
    (status, output.stdout, told)
}

/// The lines of a trace, blanks dropped.
fn trace(args: &[&str], image: &[u16]) -> Vec<Vec<String>> {
    let bytes: Vec<u8> = image.iter().flat_map(|word| word.to_be_bytes()).collect();
    let (status, out, told) = run(TRACE, args, &bytes);
    assert_eq!((status, told.as_str()), (0, ""));
    String::from_utf8(out)
        .expect("text")
        .lines()
        .map(|line| line.split_whitespace().map(str::to_string).collect())
        .collect()
}

/// Lines as `trace` gives them.
fn words(lines: &[&str]) -> Vec<Vec<String>> {
    let words = |line: &&str| line.split(' ').map(str::to_string).collect();
    lines.iter().map(words).collect()
}

/// Ends with this exit status and a message that has this text, and prints nothing.
fn ends(program: &str, args: &[&str], input: &[u8], status: i32, why: &str) {
    let (ended, out, told) = run(program, args, input);
    assert_eq!((ended, &out[..]), (status, &b""[..]), "{args:?}");
    assert!(told.contains(why), "{args:?}: {told}");
}

fn fails(program: &str, args: &[&str], input: &[u8], why: &str) {
    ends(program, args, input, 1, why);
}

const ADD: [u16; 9] = [1, 1, 0, 0, 0, 3, 0o170405, 0o172403, 0o151000];

#[test]
fn trace_of_the_turn_example() {
    let steps = [
        "0 000000 170405 SAA 5 1 A=000005",
        "0 000001 172403 AAA 3 1 A=000010",
        "0 000002 151000 WAIT 1 STOPPED=000001",
    ];
    let wanted = |lines: &[&str], end| words(&[lines, &[end]].concat());
    let all = wanted(&steps, "3 steps, 3 references");
    assert_eq!(trace(&[], &ADD), all);
    assert_eq!(trace(&["18446744073709551615", "16384"], &ADD), all);
    let two = wanted(&steps[..2], "2 steps, 2 references");
    assert_eq!(trace(&["2", "1"], &ADD), two);
    assert_eq!(trace(&["0"], &ADD), wanted(&[], "0 steps, 0 references"));
}

/// The column between the mnemonic and what changed.
#[test]
fn trace_of_columns() {
    let bytes: Vec<u8> = ADD.iter().flat_map(|word| word.to_be_bytes()).collect();
    let (_, out, _) = run(TRACE, &["2"], &bytes);
    let wanted = concat!(
        " 0  000000  170405  SAA 5                1  A=000005\n",
        " 0  000001  172403  AAA 3                1  A=000010\n",
        "2 steps, 2 references\n",
    );
    assert_eq!(String::from_utf8(out).as_deref(), Ok(wanted));
}

/// LDA I, MIN, SRB and WAIT: the fetch of each; the indirect word and the operand; a word read and written; eight
/// words.
#[test]
fn trace_of_references() {
    let image = [
        2, // memory 0 to 6; X
        1, 0, 0, 0, 7, //
        2, 0, 7, 0, 1, //
        0o045004, 0o040004, 0o152412, 0o151000, 6, 0, 0o054321, //
        0o000100,
    ];
    let wanted = [
        "0 000000 045004 LDA I *4 3 A=054321",
        "0 000001 040004 MIN *4 3",
        "0 000002 152412 SRB 10 9",
        "0 000003 151000 WAIT 1 STOPPED=000001",
        "4 steps, 16 references",
    ];
    assert_eq!(trace(&[], &image), words(&wanted));
}

/// MON 7 with interrupts on, and interrupt 1 in IIE: level 14 is pending and runs next.
#[test]
fn trace_of_an_interrupt() {
    let image = [
        4, // memory 0; control words 1 (interrupts on), 5 (PIE) and 8 (IIE)
        1, 0, 0, 0, 1, //
        3, 0, 1, 0, 1, //
        3, 0, 5, 0, 1, //
        3, 0, 8, 0, 1, //
        0o153007, 1, 0o040000, 0o000002,
    ];
    let wanted = [
        "0 000000 153007 MON 7 1 T(14)=000007 PID=040000 IID=000002 interrupt 1 MonitorCall",
        "0 000001 ------ change of level 0 LEVEL=000016",
        "14 000000 153007 MON 7 1 interrupt 1 MonitorCall",
        "3 steps, 2 references",
    ];
    assert_eq!(trace(&["3"], &image), words(&wanted));
}

/// A store in page 2, which may not be written, then a read in page 1, which has no entry: PGS holds the first until
/// TRA PGS reads it.
#[test]
fn trace_of_two_faults() {
    let image = [
        6, // memory 0 to 3; B and X; control words 2 (paging on) and 10 (PCR of level 0: ring 2); pages 0 to 2
        1, 0, 0, 0, 4, //
        2, 0, 3, 0, 1, //
        2, 0, 7, 0, 1, //
        3, 0, 2, 0, 1, //
        3, 0, 10, 0, 1, //
        4, 0, 0, 0, 3, //
        0o006000, 0o044400, 0o150003, 0o151000, //
        0o002000, 0o004000, 1, 2, 0o162000, 0o002001, 0o062002,
    ];
    let wanted = [
        "0 000000 006000 STA ,X 0 2 IID=000004 PGS=040002 HELD=000001 interrupt 2 Protect",
        "0 000001 044400 LDA ,B 0 2 IID=000014 interrupt 3 PageFault",
        "0 000002 150003 TRA PGS 1 A=040002 HELD=000000",
        "0 000003 151000 WAIT 1 STOPPED=000001",
        "4 steps, 6 references",
    ];
    assert_eq!(trace(&[], &image), words(&wanted));
}

/// SEX with paging off, STATX of the entry of page 0, and TRA STS with the flag in bit 13.
#[test]
fn trace_of_extended_mode() {
    let image = [
        2, // memory 0 to 3; A and X
        1, 0, 0, 0, 4, //
        2, 0, 5, 0, 3, //
        0o150406, 0o143314, 0o150001, 0o151000, //
        0o162000, 0, 0o176777,
    ];
    let wanted = [
        "0 000000 150406 SEX 1 EXTENDED=000001",
        "0 000001 143314 STATX 10 2",
        "0 000002 150001 TRA STS 1 A=030000",
        "0 000003 151000 WAIT 1 STOPPED=000001",
        "4 steps, 5 references",
    ];
    assert_eq!(trace(&[], &image), words(&wanted));
}

/// A character that an image has as typed: it is read and sent, and the output asks when it is enabled before.
#[test]
fn trace_of_devices() {
    let image = [
        2, // memory 0 to 5; devices' words 4 to 6: unread, asks, the character
        1, 0, 0, 0, 6, //
        5, 0, 4, 0, 3, //
        0o143622, 0o164307, 0o164300, 0o164305, 0o164012, 0o151000, //
        1, 1, 0o101,
    ];
    let wanted = [
        "0 000000 143622 IDENT PL12 1 A=000001 INPUT-ASKS=000000",
        "0 000001 164307 IOX 307 1 PID=002000 OUTPUT-ENABLED=000001 OUTPUT-ASKS=000001",
        "0 000002 164300 IOX 300 1 A=000101 INPUT-UNREAD=000000",
        "0 000003 164305 IOX 305 1 OUTPUT-WAITS=000001 OUTPUT=000101",
        "0 000004 164012 IOX 12 1 A=000000",
        "0 000005 151000 WAIT 1 STOPPED=000001",
        "6 steps, 6 references",
    ];
    assert_eq!(trace(&[], &image), words(&wanted));
}

#[test]
fn trace_refuses() {
    fails(TRACE, &[], &[], "refused 4");
    fails(TRACE, &[], &[0], "refused 8");
    fails(TRACE, &["x"], &[], "STEPS");
    fails(TRACE, &["-1"], &[], "STEPS");
    fails(TRACE, &["18446744073709551616"], &[], "STEPS");
    for pages in ["", "0", "16385", "99999999999999", "18014398509481984"] {
        fails(TRACE, &["1", pages], &[], "PAGES");
    }
    fails(TRACE, &["1", "1", "1"], &[], "one word too many");
}

#[test]
fn octal_to_image() {
    let text = include_bytes!("../../../examples/add.octal");
    let image: &[u8] = include_bytes!("../../../examples/add.image");
    let (status, out, told) = run(OCTAL, &[], text);
    assert_eq!((status, &out[..], told.as_str()), (0, image, ""));
    fails(OCTAL, &[], b"1\n2 200000\n", "line 2: '200000'");
    fails(OCTAL, &[], b"1\n\n# 8\n7 8\n", "line 4: '8'");
    fails(OCTAL, &[], b"1 \xff", "line 1: ");
    fails(OCTAL, &["add.octal"], text, "one word too many");
}

/// Document 002's numbers, +3 as document 02 puts it right, and the ends of what the forms share.
#[test]
fn convert_floating() {
    for (short, long) in [
        ("000000 000000", "000000 000000 000000"),
        ("040100 000000", "040001 100000 000000"),
        ("140100 000000", "140001 100000 000000"),
        ("040240 000000", "040002 140000 000000"),
        ("064000 000000", "040240 100000 000000"),
        ("000100 000000", "037401 100000 000000"),
        ("077777 177777", "040377 177777 177000"),
    ] {
        for (number, converted) in [(short, long), (long, short)] {
            let args: Vec<&str> = number.split(' ').collect();
            let (status, out, told) = run(FLOATING, &args, &[]);
            let line = format!("{converted}\n").into_bytes();
            assert_eq!((status, out, told.as_str()), (0, line, ""), "{number}");
        }
    }
    let (status, out, _) = run(FLOATING, &["40002", "140000", "0"], &[]);
    assert_eq!((status, &out[..]), (0, &b"040240 000000\n"[..]));
}

#[test]
fn convert_floating_refuses() {
    for (number, status, why) in [
        ("100000 0", 15, "refused 15: "),
        ("77 177777", 15, "exponent field"),
        ("100000 0 0", 15, "refused 15: "),
        ("40400 77777 1", 15, "top bit"),
        ("37400 100000 0", 16, "refused 16: "),
        ("40400 100000 1", 16, "16,129 to 16,639"),
        ("40001 100000 1", 17, "refused 17: "),
        ("40377 177777 177400", 17, "nine lowest bits"),
    ] {
        let args: Vec<&str> = number.split(' ').collect();
        ends(FLOATING, &args, &[], status, why);
    }
}

#[test]
fn convert_floating_takes_two_or_three_octal_words() {
    let count: [&[&str]; 3] = [&[], &["0"], &["0", "0", "0", "0"]];
    for words in count {
        fails(FLOATING, words, &[], "two words");
    }
    for word in ["8", "200000", "-1", "+1", "", "x", "0o1", "1 1", "0000001"] {
        let why = format!("not '{word}'");
        fails(FLOATING, &["0", word], &[], &why);
        fails(FLOATING, &[word, "0", "0"], &[], &why);
    }
}

#[test]
fn help() {
    for program in [TRACE, OCTAL, FLOATING] {
        let (status, out, told) = run(program, &["--help"], &[]);
        assert!(status == 0 && out.starts_with(b"usage: ") && told.is_empty());
    }
}
