//! What the program prints with a pipe as its terminal, and how it takes its command line. Answers are by hand.

use std::io::{Read, Write};
use std::process::{Child, Command, Stdio};
use std::thread;
use std::time::{Duration, Instant};

const CONSOLE: &str = env!("CARGO_BIN_EXE_console");

/// A file of the repository's examples.
macro_rules! example {
    ($name:literal) => {
        concat!(env!("CARGO_MANIFEST_DIR"), "/../../examples/", $name)
    };
}

const ECHO: &str = example!("echo.image");
const CLOCK: &str = example!("clock.image");

fn start(args: &[&str]) -> Child {
    Command::new(CONSOLE)
        .args(args)
        .stdin(Stdio::piped())
        .stdout(Stdio::piped())
        .stderr(Stdio::piped())
        .spawn()
        .expect("starts")
}

/// Its exit status, standard output and standard error. One that does not end is ended after a minute.
fn end(mut child: Child) -> (i32, Vec<u8>, String) {
    let mut out = child.stdout.take().expect("piped");
    let mut told = child.stderr.take().expect("piped");
    let out = thread::spawn(move || {
        let mut bytes = Vec::new();
        out.read_to_end(&mut bytes).map(|_| bytes)
    });
    let began = Instant::now();
    let status = loop {
        if let Some(status) = child.try_wait().expect("waits") {
            break status;
        }
        if began.elapsed() > Duration::from_secs(60) {
            child.kill().expect("is ended");
        }
        thread::sleep(Duration::from_millis(5));
    };
    let mut message = String::new();
    told.read_to_string(&mut message).expect("text");
    let out = out.join().expect("reads").expect("output");
    (status.code().expect("ends by itself"), out, message)
}

/// What it does with this typed.
fn run(args: &[&str], typed: &[u8]) -> (i32, Vec<u8>, String) {
    let mut child = start(args);
    // a program that refuses its command line leaves its input
    let _ = child.stdin.take().expect("piped").write_all(typed);
    end(child)
}

/// It prints this, ends with 0, and tells nothing else.
fn prints(args: &[&str], typed: &[u8], printed: &[u8]) {
    let (status, out, told) = run(args, typed);
    assert_eq!(
        out.escape_ascii().to_string(),
        printed.escape_ascii().to_string()
    );
    assert_eq!((status, told.as_str()), (0, ""));
}

/// A program from address 0 on as an image file of this name.
fn image(name: &str, program: &[u16]) -> String {
    let mut words = vec![1, 1, 0, 0, 0, program.len() as u16];
    words.extend(program);
    file(
        name,
        &words
            .into_iter()
            .flat_map(u16::to_be_bytes)
            .collect::<Vec<u8>>(),
    )
}

fn file(name: &str, bytes: &[u8]) -> String {
    let path = format!("{}/{name}", env!("CARGO_TARGET_TMPDIR"));
    std::fs::write(&path, bytes).expect("is written");
    path
}

#[test]
fn examples_are_their_text() {
    let pairs: [(&str, &[u8]); 2] = [
        (
            include_str!("../../../examples/echo.octal"),
            include_bytes!("../../../examples/echo.image"),
        ),
        (
            include_str!("../../../examples/clock.octal"),
            include_bytes!("../../../examples/clock.image"),
        ),
    ];
    for (text, image) in pairs {
        let words = cli::octal::words(text).expect("octal text");
        assert_eq!(nd110::image_words(image), Ok(words));
    }
}

/// Document 000's program sends back what is typed, whatever it is: the key that leaves a terminal is one as others.
#[test]
fn echo() {
    let every: Vec<u8> = (0..=255).collect();
    let long: Vec<u8> = (0..2000).map(|at| b' ' + (at % 95) as u8).collect();
    for typed in [
        &b"TURN THE MILL\r\n"[..],
        b"",
        b"\x1d",
        b"\0\0",
        &every,
        &long,
    ] {
        prints(&[ECHO], typed, typed);
    }
    prints(&[ECHO, "1"], b"one page", b"one page");
}

/// In pieces, with more time between them than a quiet machine is given.
#[test]
fn echo_of_pieces() {
    let mut child = start(&[ECHO]);
    let mut typed = child.stdin.take().expect("piped");
    let mut printed = child.stdout.take().expect("piped");
    for piece in [&b"first"[..], b"second", b"third"] {
        typed.write_all(piece).expect("is typed");
        let mut echo = vec![0; piece.len()];
        printed.read_exact(&mut echo).expect("comes at once");
        assert_eq!(echo, piece);
        thread::sleep(Duration::from_millis(1200));
    }
    drop(typed);
    child.stdout = Some(printed);
    assert_eq!(end(child), (0, vec![], String::new()));
}

/// A digit for each tick, by interrupts on levels 13, 12 and 10; then it stops, with the last one still to be read out.
#[test]
fn clock() {
    prints(&[CLOCK], b"3.", b"3210");
    prints(&[CLOCK], b"0.", b"0");
    prints(&[CLOCK], b"20x5", b"2100");
    prints(&[CLOCK], b"7", b"76543210");
    prints(&[CLOCK], b"/", b"");
    prints(&[CLOCK], b":", b"");
}

/// Of ten ticks the last comes nine times 20 ms after the first.
#[test]
fn ticks_take_their_time() {
    let began = Instant::now();
    prints(&[CLOCK], b"9.", b"9876543210");
    assert!(began.elapsed() >= Duration::from_millis(180));
}

/// It ends with a machine that stops, also if the input goes on: SAA 101, IOX 305, WAIT.
#[test]
fn stops() {
    let name = image("stops.image", &[0o170501, 0o164305, 0o151000]);
    let mut child = start(&[&name]);
    let typed = child.stdin.take().expect("piped");
    assert_eq!(end(child), (0, b"A".to_vec(), String::new()));
    drop(typed);
    let at_once = image("at_once.image", &[0o151000]);
    prints(&[&at_once], b"not read", b"");
}

/// A program that finds output ready before it sends loses nothing: SAX -200, IOX 306, BSKP ONE 30 DA, JMP *-2,
/// COPY SX DA, IOX 305, AAX 1, JXN *-6, WAIT sends 200 to 377. One that does not look loses all but the last: SAA 101,
/// IOX 305, SAA 102, IOX 305, WAIT.
#[test]
fn output_that_waits_and_that_does_not() {
    let waits = [
        0o171600, 0o164306, 0o175235, 0o124376, 0o146175, 0o164305, 0o173401, 0o133772, 0o151000,
    ];
    let sent: Vec<u8> = (0o200..=0o377).collect();
    prints(&[&image("waits.image", &waits)], b"", &sent);
    let does_not = [0o170501, 0o164305, 0o170502, 0o164305, 0o151000];
    prints(&[&image("does_not.image", &does_not)], b"", b"B");
}

/// A program that gives interrupts on its way, and one that counts in memory before it sends, for some 130,000 steps:
/// MIN *5, JMP *-1, SAA 103, IOX 305, WAIT, 000000.
#[test]
fn longer_than_a_slice() {
    let counts = [0o040005, 0o124377, 0o170503, 0o164305, 0o151000, 0];
    prints(&[&image("counts.image", &counts)], b"", b"C");
    let faults = [0o160000, 0o164777, 0o143611, 0o170504, 0o164305, 0o151000];
    prints(&[&image("faults.image", &faults)], b"", b"D");
}

/// Ends with exit status 1 and a message that has this text, and prints nothing.
fn fails(args: &[&str], why: &str) {
    let (status, out, told) = run(args, b"typed");
    assert_eq!((status, &out[..]), (1, &b""[..]), "{args:?}");
    assert!(
        told.starts_with("console: ") && told.contains(why),
        "{args:?}: {told}"
    );
}

#[test]
fn bad_images() {
    let missing = format!("{}/missing.image", env!("CARGO_TARGET_TMPDIR"));
    fails(&[&missing], "missing.image: ");
    fails(&[env!("CARGO_TARGET_TMPDIR")], ": ");
    fails(&[&file("empty.image", &[])], "empty.image: refused 4: ");
    fails(&[&file("odd.image", &[0])], "odd.image: refused 8: ");
    fails(
        &[&file("kind.image", &[0, 1, 0, 6, 0, 0, 0, 0, 0, 0, 0, 0])],
        "refused 5: ",
    );
    fails(
        &[&image("long.image", &[0; 1025]), "1"],
        "long.image: refused 6: ",
    );
    // one entry of kind 5: word 7, the length, is 4
    let length = [0, 1, 0, 5, 0, 0, 0, 7, 0, 0, 0, 1, 0, 4];
    fails(
        &[&file("length.image", &length)],
        "length.image: refused 2: ",
    );
}

#[test]
fn command_line() {
    fails(&[], "no IMAGE");
    for pages in ["", "0", "16385", "x", "-1", "18446744073709551616"] {
        fails(&[ECHO, pages], "PAGES");
    }
    fails(&[ECHO, "1", "1"], "one word too many");
    let (status, out, told) = run(&["--help"], b"");
    assert!(status == 0 && out.starts_with(b"usage: ") && told.is_empty());
}
