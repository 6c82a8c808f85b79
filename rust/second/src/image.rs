//! Images: load, write; and view of a part of the lent words.

use crate::TABLE_WORDS;
use crate::answer::Refusal;
use crate::devices::DEVICE_WORDS;
use crate::machine::{check_machine, check_sizes};
use crate::state::{CONTROL_WORDS, FIRST_DEVICE, REGISTER_WORDS, STATE_WORDS, State};
use std::ops::Range;

/// Words of a written image beside memory.
pub const IMAGE_EXTRA: usize = 1 + KINDS * ENTRY + STATE_WORDS + TABLE_WORDS;

const KINDS: usize = 5;
const ENTRY: usize = 5;
const MAX_ENTRIES: usize = 32;

#[derive(Clone, Copy, Debug, PartialEq, Eq)]
enum Kind {
    Memory,
    Registers,
    Control,
    Tables,
    Devices,
}

impl Kind {
    fn from_word(word: u16) -> Result<Kind, Refusal> {
        match word {
            1 => Ok(Kind::Memory),
            2 => Ok(Kind::Registers),
            3 => Ok(Kind::Control),
            4 => Ok(Kind::Tables),
            5 => Ok(Kind::Devices),
            _ => Err(Refusal::Kind),
        }
    }
}

/// One entry of the list of contents: the words it names.
struct Entry {
    kind: Kind,
    words: Range<usize>,
}

fn double(high: u16, low: u16) -> u64 {
    u64::from(high) << 16 | u64::from(low)
}

/// Reads the list of contents. Refuses 4, then entry by entry 5, 6, 7.
fn contents(image: &[u16], memory_size: usize) -> Result<(Vec<Entry>, &[u16]), Refusal> {
    let (&count, rest) = image.split_first().ok_or(Refusal::Contents)?;
    let count = usize::from(count);
    if count > MAX_ENTRIES || rest.len() < ENTRY * count {
        return Err(Refusal::Contents);
    }
    let (list, bodies) = rest.split_at(ENTRY * count);
    let mut entries: Vec<Entry> = Vec::with_capacity(count);
    for words in list.chunks_exact(ENTRY) {
        let kind = Kind::from_word(words[0])?;
        let size = match kind {
            Kind::Memory => memory_size,
            Kind::Registers => REGISTER_WORDS,
            Kind::Control => CONTROL_WORDS,
            Kind::Tables => TABLE_WORDS,
            Kind::Devices => DEVICE_WORDS,
        };
        let start = double(words[1], words[2]);
        let end = start + double(words[3], words[4]);
        if end > size as u64 {
            return Err(Refusal::Beyond);
        }
        let words = start as usize..end as usize;
        let overlaps = |earlier: &Entry| {
            earlier.kind == kind
                && earlier.words.start.max(words.start) < earlier.words.end.min(words.end)
        };
        if entries.iter().any(overlaps) {
            return Err(Refusal::Twice);
        }
        entries.push(Entry { kind, words });
    }
    Ok((entries, bodies))
}

/// Loads an image into lent memory and tables, answering the state. Words not
/// named become 0. Refuses 1, 4, 5, 6, 7, 8, 2.
pub fn load(image: &[u16], memory: &mut [u16], tables: &mut [u16]) -> Result<State, Refusal> {
    check_sizes(memory, tables)?;
    let (entries, bodies) = contents(image, memory.len())?;
    let total: usize = entries.iter().map(|entry| entry.words.len()).sum();
    if total != bodies.len() {
        return Err(Refusal::Bodies);
    }

    // The state first: nothing lent is touched before it passes.
    let mut state_words = [0; STATE_WORDS];
    let mut rest = bodies;
    for entry in &entries {
        let (body, later) = rest.split_at(entry.words.len());
        rest = later;
        let first = match entry.kind {
            Kind::Registers => 0,
            Kind::Control => REGISTER_WORDS,
            Kind::Devices => FIRST_DEVICE,
            Kind::Memory | Kind::Tables => continue,
        };
        state_words[first..][entry.words.clone()].copy_from_slice(body);
    }
    let state = State::from_words(&state_words);
    if !state.in_range() {
        return Err(Refusal::State);
    }

    memory.fill(0);
    tables.fill(0);
    let mut rest = bodies;
    for entry in entries {
        let (body, later) = rest.split_at(entry.words.len());
        rest = later;
        match entry.kind {
            Kind::Memory => memory[entry.words].copy_from_slice(body),
            Kind::Tables => tables[entry.words].copy_from_slice(body),
            Kind::Registers | Kind::Control | Kind::Devices => {}
        }
    }
    Ok(state)
}

/// Writes an image of five full entries, answering its length in words. Words
/// of `out` past the image stay. Refuses 1, 2, 10.
pub fn write(
    state: &State,
    memory: &[u16],
    tables: &[u16],
    out: &mut [u16],
) -> Result<usize, Refusal> {
    check_machine(state, memory, tables)?;
    let length = memory.len() + IMAGE_EXTRA;
    if out.len() < length {
        return Err(Refusal::Short);
    }
    let words = state.to_words();
    let bodies: [&[u16]; KINDS] = [
        memory,
        &words[..REGISTER_WORDS],
        &words[REGISTER_WORDS..FIRST_DEVICE],
        tables,
        &words[FIRST_DEVICE..],
    ];
    out[0] = bodies.len() as u16;
    let mut at = 1;
    for (kind, body) in (1..).zip(bodies) {
        let length = body.len() as u32;
        out[at..at + ENTRY].copy_from_slice(&[kind, 0, 0, (length >> 16) as u16, length as u16]);
        at += ENTRY;
    }
    for body in bodies {
        out[at..at + body.len()].copy_from_slice(body);
        at += body.len();
    }
    Ok(at)
}

/// What a view shows a part of.
#[derive(Clone, Copy, Debug, PartialEq, Eq)]
pub enum Target {
    Memory,
    Tables,
}

fn checked_view<'a>(
    memory: &'a [u16],
    tables: &'a [u16],
    target: Target,
    start: usize,
    length: usize,
) -> Result<&'a [u16], Refusal> {
    check_sizes(memory, tables)?;
    let words = match target {
        Target::Memory => memory,
        Target::Tables => tables,
    };
    start
        .checked_add(length)
        .and_then(|end| words.get(start..end))
        .ok_or(Refusal::View)
}

/// A part of the caller's memory or page tables; empty when refused.
pub fn view<'a>(
    memory: &'a [u16],
    tables: &'a [u16],
    target: Target,
    start: usize,
    length: usize,
) -> &'a [u16] {
    checked_view(memory, tables, target, start, length).unwrap_or(&[])
}

/// The refusal of the view with the same arguments: 1 or 9, if any.
pub fn view_number(
    memory: &[u16],
    tables: &[u16],
    target: Target,
    start: usize,
    length: usize,
) -> Option<Refusal> {
    checked_view(memory, tables, target, start, length).err()
}
