//! The images that are measured, loaded.

use nd110::State;

pub struct Machine {
    pub state: State,
    pub memory: Vec<u16>,
    pub tables: Vec<u16>,
}

/// A file NAME.octal beside src.
#[derive(Clone, Copy)]
pub enum Image {
    Mixed,
    Extended,
    Iox,
    Tra,
}

impl Image {
    /// Those that a command line names; it is the mixed one that it does not.
    pub const NAMED: [(&str, Image); 3] = [
        ("extended", Image::Extended),
        ("iox", Image::Iox),
        ("tra", Image::Tra),
    ];
}

/// The machine of the image, with so many pages of memory.
pub fn machine(image: Image, pages: usize) -> Machine {
    let text = match image {
        Image::Mixed => include_str!("../mixed.octal"),
        Image::Extended => include_str!("../extended.octal"),
        Image::Iox => include_str!("../iox.octal"),
        Image::Tra => include_str!("../tra.octal"),
    };
    let image = cli::octal::words(text).expect("octal text");
    let mut memory = vec![0; pages * nd110::PAGE_WORDS];
    let mut tables = vec![0; nd110::TABLE_WORDS];
    let state = nd110::load(&image, &mut memory, &mut tables).expect("an image");
    Machine {
        state,
        memory,
        tables,
    }
}
