//! Second engine for the ND-110 of the park master.
//!
//! Written from documents 01 and 02, the rulings, document 002 (instruction set)
//! and document 000 (paging, interrupts, devices). `NOTES.md` lists the choices where
//! these leave something open.

pub mod additions;
mod address;
mod answer;
mod arithmetic;
pub mod cases;
mod decode;
mod devices;
mod disasm;
mod execute;
pub mod floating;
mod image;
mod input;
mod machine;
mod paging;
pub mod random;
pub mod rotations;
mod state;
mod step;
mod system;
pub mod vectors;

pub use answer::{Interrupt, Ran, Reason, Refusal, Told};
pub use decode::{
    AddOne, BitOp, Instr, JumpCond, Logic, MemOp, Mode, PhysicalOp, Reg, ShiftKind, ShiftReg,
    SkipCond, Transfer, decode,
};
pub use devices::{DEVICE_NAMES, DEVICE_WORDS, Devices, device};
pub use disasm::disassemble;
pub use image::{IMAGE_EXTRA, Target, load, view, view_number, write};
pub use input::{Input, Session, raise, read_out, run_with_input, tick, type_character};
pub use state::{CONTROL_WORDS, FIRST_DEVICE, REGISTER_WORDS, STATE_WORDS, State, control, flag};
pub use step::{next_word, run, step};

/// Words in a page.
pub const PAGE: usize = 1024;
/// Most words of lent memory.
pub const MAX_MEMORY: usize = 16_777_216;
/// Words of lent page tables: four tables of 64 entries, two words each in
/// extended mode. In 19-bit mode the first half is used.
pub const TABLE_WORDS: usize = 512;
