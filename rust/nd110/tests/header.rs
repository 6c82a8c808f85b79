//! include/nd110.h and this crate say the same: the functions with their arguments, and every number. Needs no
//! archive: nothing of it is called.

#[allow(dead_code)]
#[path = "../src/numbers.rs"]
mod numbers;

use numbers::*;
use std::collections::BTreeMap;

const HEADER: &str = include_str!("../../../include/nd110.h");
const DECLARED: &str = include_str!("../src/library.rs");

/// A function: its name, then each argument's name and type, then the type of its answer.
type Function = (String, Vec<(String, String)>, String);

/// C without its comments.
fn code(text: &str) -> String {
    let mut code = String::new();
    let mut rest = text;
    while let Some((before, after)) = rest.split_once("/*") {
        code += before;
        rest = after.split_once("*/").expect("a comment ends").1;
    }
    code + rest
}

/// `const uint16_t *memory` as ("memory", "*const u16").
fn argument_of_c(text: &str) -> (String, String) {
    let at = text.rfind([' ', '*']).expect("a type and a name") + 1;
    let (kind, name) = (text[..at].trim(), &text[at..]);
    let rust = match kind {
        "size_t" => "usize",
        "uint8_t" => "u8",
        "uint16_t" => "u16",
        "uint64_t" => "u64",
        "uint16_t *" => "*mut u16",
        "uint64_t *" => "*mut u64",
        "nd110_state *" => "*mut State",
        "const uint16_t *" => "*const u16",
        "const uint64_t *" => "*const u64",
        other => panic!("unknown C type '{other}' of '{name}'"),
    };
    (name.to_string(), rust.to_string())
}

/// What a list of arguments between parentheses has, blanks made single.
fn arguments(list: &str) -> Vec<String> {
    list.split(',')
        .map(|part| part.split_whitespace().collect::<Vec<_>>().join(" "))
        .filter(|part| !part.is_empty())
        .collect()
}

/// Every prototype `uint16_t nd110_..(..);`.
fn functions_of_c() -> Vec<Function> {
    let code = code(HEADER);
    code.split("\nuint16_t nd110_")
        .skip(1)
        .map(|part| {
            let (name, rest) = part.split_once('(').expect("arguments");
            let (list, _) = rest.split_once(");").expect("arguments");
            let list = arguments(list).iter().map(|a| argument_of_c(a)).collect();
            (format!("nd110_{name}"), list, "u16".to_string())
        })
        .collect()
}

/// Every `pub fn nd110_..(..) -> ..;` of the block that declares them.
fn functions_of_rust() -> Vec<Function> {
    DECLARED
        .split("pub fn ")
        .filter(|part| part.starts_with("nd110_"))
        .map(|part| {
            let (name, rest) = part.split_once('(').expect("arguments");
            let (list, rest) = rest.split_once(')').expect("arguments");
            let answer = rest.split(';').next().unwrap_or_default();
            let answer = answer.trim().strip_prefix("-> ").expect("an answer");
            let list = arguments(list)
                .iter()
                .map(|argument| {
                    let (name, kind) = argument.split_once(": ").expect("a name and a type");
                    (name.to_string(), kind.to_string())
                })
                .collect();
            (name.to_string(), list, answer.to_string())
        })
        .collect()
}

#[test]
fn functions() {
    let (c, rust) = (functions_of_c(), functions_of_rust());
    assert!(!c.is_empty());
    assert_eq!(c, rust);
}

/// Every `#define ND110_NAME NUMBER`.
fn defined() -> BTreeMap<String, usize> {
    let code = code(HEADER);
    code.lines()
        .filter_map(|line| {
            let mut words = line.strip_prefix("#define ND110_")?.split_whitespace();
            let (name, value) = (words.next()?, words.next()?);
            let value = value.parse().ok()?;
            Some((name.to_string(), value))
        })
        .collect()
}

/// `RaiseLevel` as RAISE_LEVEL.
fn upper(name: &impl std::fmt::Debug) -> String {
    let mut upper = String::new();
    for letter in format!("{name:?}").chars() {
        if letter.is_uppercase() && !upper.is_empty() {
            upper.push('_');
        }
        upper.extend(letter.to_uppercase());
    }
    upper
}

#[test]
fn numbers() {
    let mut ours: BTreeMap<String, usize> = [
        ("VERSION", VERSION),
        ("STATE_WORDS", STATE_WORDS),
        ("TABLE_WORDS", TABLE_WORDS),
        ("PAGE_WORDS", PAGE_WORDS),
        ("MEMORY_MOST", MEMORY_MOST),
        ("IMAGE_EXTRA", IMAGE_EXTRA),
        ("SHORT_WORDS", SHORT_WORDS),
        ("LONG_WORDS", LONG_WORDS),
        ("DONE", 0),
        ("TICK", TICK.into()),
        ("READ_OUT", READ_OUT.into()),
        ("TYPED", TYPED.into()),
        ("NO_CHARACTER", NO_CHARACTER.into()),
    ]
    .map(|(name, value)| (name.to_string(), value))
    .into();
    for refusal in Refusal::ALL {
        ours.insert(upper(refusal), refusal.number().into());
    }
    for reason in Reason::ALL {
        let name = match reason {
            Reason::Interrupt => "INTERRUPTED".to_string(),
            other => upper(&other),
        };
        ours.insert(name, reason.number().into());
    }
    for target in [Target::Memory, Target::Tables] {
        ours.insert(upper(&target), target.number().into());
    }
    assert_eq!(ours, defined());
}

/// The names of each `enum { .. };` with their numbers: one that gives none has one more than that before it, the first
/// 0.
fn enumerated() -> Vec<Vec<(String, usize)>> {
    let code = code(HEADER);
    code.split("enum {")
        .skip(1)
        .map(|part| {
            let names = arguments(part.split('}').next().unwrap_or_default());
            let mut next = 0;
            names
                .iter()
                .map(|name| {
                    let (name, number) = match name.split_once(" = ") {
                        Some((name, number)) => (name, number.parse().expect("a number")),
                        None => (name.as_str(), next),
                    };
                    next = number + 1;
                    (name.to_string(), number)
                })
                .collect()
        })
        .collect()
}

/// The control words before the PCRs.
const CONTROLS: [Control; PCR] = {
    use Control::*;
    [
        Level,
        InterruptsOn,
        PagingOn,
        Stopped,
        Pid,
        Pie,
        Pvl,
        Iid,
        Iie,
        Pgs,
    ]
};

/// The control words behind the PCRs.
const ADDED: [Control; 2] = [Control::PgsHeld, Control::Extended];

#[test]
fn places() {
    use Control::*;
    let registers = [
        Register::Sts,
        Register::D,
        Register::P,
        Register::B,
        Register::L,
        Register::A,
        Register::T,
        Register::X,
    ];
    let [ours, control, devices] = &enumerated()[..] else {
        panic!("three lists of names");
    };
    assert_eq!(ours.len(), registers.len());
    for (at, register) in registers.into_iter().enumerate() {
        assert_eq!(register as usize, at);
        assert_eq!(ours[at], (format!("ND110_{}", upper(&register)), at));
    }
    assert_eq!(control.len(), CONTROLS.len() + 1 + ADDED.len());
    for (at, word) in CONTROLS.into_iter().enumerate() {
        assert_eq!(word as usize, at);
        let name = match word {
            Level => "CONTROL_LEVEL".to_string(),
            Stopped => "IS_STOPPED".to_string(),
            other => upper(&other),
        };
        assert_eq!(control[at], (format!("ND110_{name}"), at));
    }
    assert_eq!(control[PCR], ("ND110_PCR".to_string(), PCR));
    for (at, word) in ADDED.into_iter().enumerate() {
        assert_eq!(word as usize, PCR + 16 + at);
        let name = format!("ND110_{}", upper(&word));
        assert_eq!(control[PCR + 1 + at], (name, word as usize));
    }
    assert_eq!(devices.len(), Device::ALL.len());
    for (at, word) in Device::ALL.into_iter().enumerate() {
        assert_eq!(word as usize, at);
        assert_eq!(devices[at], (format!("ND110_{}", upper(&word)), at));
    }
    assert_eq!(128 + PCR + 16 + ADDED.len(), FIRST_DEVICE);
    assert!(HEADER.contains("#define ND110_DEVICE(number) (156 + (number))"));
}

/// The fields of the header's record: each `uint16_t ..;`.
fn fields() -> Vec<String> {
    let code = code(HEADER);
    let (_, rest) = code
        .split_once("typedef struct nd110_state {")
        .expect("a record");
    let (fields, _) = rest.split_once("} nd110_state;").expect("its end");
    fields
        .split(';')
        .map(str::trim)
        .filter(|field| !field.is_empty())
        .map(|field| field.strip_prefix("uint16_t ").expect("words").to_string())
        .collect()
}

/// The record is the state in image order: registers of sixteen levels, the control words, the PCRs, the control words
/// behind them, and the devices' words.
#[test]
fn record() {
    let mut ours = vec!["registers[16][8]".to_string()];
    ours.extend(CONTROLS.iter().map(|word| upper(word).to_lowercase()));
    ours.push("pcr[16]".to_string());
    ours.extend(ADDED.iter().map(|word| upper(word).to_lowercase()));
    ours.extend(Device::ALL.iter().map(|word| upper(word).to_lowercase()));
    assert_eq!(fields(), ours);
    assert_eq!(FIRST_DEVICE + Device::ALL.len(), STATE_WORDS);
}
