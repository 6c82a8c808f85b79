//! One operation on both engines, and whether they agree.

use nd110::{Refusal, State as Words};
use second::vectors::Start;
use second::{CONTROL_WORDS, Input, Interrupt, REGISTER_WORDS, Reason, State, Told};

/// The same machine twice: ours in the library's words, the other in the second engine's.
pub struct Both {
    pub ours: Words,
    our_memory: Vec<u16>,
    our_tables: Vec<u16>,
    pub theirs: Start,
}

/// What the two answered, as text.
pub type Answers = (String, String);

/// What a run of either answered: the reason by the library's number; what inputs were told, none of a run without.
#[derive(Debug, PartialEq)]
struct Run {
    steps: u64,
    reason: u16,
    references: u64,
    told: Vec<ToldWith>,
}

fn same(ours: String, theirs: String) -> Result<(), Answers> {
    if ours == theirs {
        Ok(())
    } else {
        Err((ours, theirs))
    }
}

/// The steps taken, or none where both refuse with one number.
fn same_run(ours: Result<Run, u16>, theirs: Result<Run, u16>) -> Result<u64, Answers> {
    if ours == theirs {
        Ok(ours.map_or(0, |run| run.steps))
    } else {
        Err((format!("{ours:?}"), format!("{theirs:?}")))
    }
}

impl Both {
    pub fn new(start: &Start) -> Both {
        Both {
            ours: Words(start.state.to_words()),
            our_memory: start.memory.clone(),
            our_tables: start.tables.clone(),
            theirs: start.clone(),
        }
    }

    /// Registers of all levels, control words, devices, page tables and memory.
    pub fn equal(&self) -> bool {
        self.ours.0 == self.theirs.state.to_words()
            && self.our_tables == self.theirs.tables
            && self.our_memory == self.theirs.memory
    }

    /// Words that differ, ours first.
    pub fn differing(&self) -> Vec<String> {
        let theirs = self.theirs.state.to_words();
        let [ours, theirs] = [&self.ours.0, &theirs].map(|words| {
            let (registers, rest) = words.split_at(REGISTER_WORDS);
            let (control, devices) = rest.split_at(CONTROL_WORDS);
            [registers, control, devices]
        });
        let names = ["register", "control word", "device word"];
        let of_state = names.into_iter().zip(ours.into_iter().zip(theirs));
        let lent: [(_, (&[u16], &[u16])); 2] = [
            ("page table word", (&self.our_tables, &self.theirs.tables)),
            ("memory word", (&self.our_memory, &self.theirs.memory)),
        ];
        let mut lines = Vec::new();
        for (name, (ours, theirs)) in of_state.chain(lent) {
            for (at, (a, b)) in ours.iter().zip(theirs).enumerate() {
                if a != b {
                    lines.push(format!("{name} {at:o}: proved {a:06o}, second {b:06o}"));
                }
            }
        }
        lines
    }

    /// A step of both. Err has what they answered, if that differs.
    pub fn step(&mut self) -> Result<(), Answers> {
        let ours = nd110::step(&mut self.ours, &mut self.our_memory, &mut self.our_tables);
        self.step_as(ours)
    }

    /// A step of both, ours of the state lent.
    pub fn step_lent(&mut self) -> Result<(), Answers> {
        let ours = nd110::step_lent(&mut self.ours, &mut self.our_memory, &mut self.our_tables);
        self.step_as(ours)
    }

    /// The other's step, held to what ours answered.
    fn step_as(&mut self, ours: Result<u16, Refusal>) -> Result<(), Answers> {
        let them = &mut self.theirs;
        let theirs = second::step(&mut them.state, &mut them.memory, &mut them.tables);
        let agreed = match (&ours, &theirs) {
            (Ok(a), Ok(b)) => *a == b.map_or(0, Interrupt::number),
            (Err(a), Err(b)) => a.number() == b.number(),
            _ => false,
        };
        if agreed {
            return Ok(());
        }
        Err((format!("{ours:?}"), format!("{theirs:?}")))
    }

    /// A run of both, through or to the first interrupt: the steps taken, or none where both refuse. Steps, reason and
    /// references must be the same.
    pub fn run(&mut self, steps: u64, first: bool) -> Result<u64, Answers> {
        let run = if first {
            nd110::run_to_interrupt
        } else {
            nd110::run
        };
        let ours = run(
            &mut self.ours,
            &mut self.our_memory,
            &mut self.our_tables,
            steps,
        );
        let them = &mut self.theirs;
        let theirs = second::run(
            &mut them.state,
            &mut them.memory,
            &mut them.tables,
            steps,
            first,
        );
        let ours = ours.map(|ran| Run {
            steps: ran.steps,
            reason: ran.reason.number(),
            references: ran.references,
            told: Vec::new(),
        });
        let theirs = theirs.map(|ran| Run {
            steps: ran.steps,
            reason: reason(ran.reason),
            references: ran.references,
            told: Vec::new(),
        });
        same_run(ours.map_err(|r| r.number()), theirs.map_err(|r| r.number()))
    }

    /// A raise of both.
    pub fn raise(&mut self, level: u16) -> Result<(), Answers> {
        let ours = nd110::raise(&mut self.ours, level, &self.our_memory, &self.our_tables);
        self.raise_as(level, ours)
    }

    /// A raise of both, ours of the state lent.
    pub fn raise_lent(&mut self, level: u16) -> Result<(), Answers> {
        let ours = nd110::raise_lent(&mut self.ours, level, &self.our_memory, &self.our_tables);
        self.raise_as(level, ours)
    }

    /// The other's raise, held to what ours answered.
    fn raise_as(&mut self, level: u16, ours: Result<(), Refusal>) -> Result<(), Answers> {
        let them = &mut self.theirs;
        let theirs = second::raise(&mut them.state, &them.memory, &them.tables, level);
        let ours = ours.map_err(|r| r.number());
        same(
            format!("{ours:?}"),
            format!("{:?}", theirs.map_err(|r| r.number())),
        )
    }

    /// An input of both between two steps, a raise among them.
    pub fn input(&mut self, input: Input) -> Result<(), Answers> {
        let (ours, memory, tables) = (&mut self.ours, &self.our_memory, &self.our_tables);
        let Start {
            state: theirs,
            memory: their_memory,
            tables: their_tables,
        } = &mut self.theirs;
        let (ours, theirs) = match input {
            Input::Raise(level) => return self.raise(level),
            Input::Tick => (
                nd110::tick(ours, memory, tables).map(|()| None),
                second::tick(theirs, their_memory, their_tables).map(|()| None),
            ),
            Input::Typed(character) => (
                nd110::type_character(ours, character, memory, tables).map(|()| None),
                second::type_character(theirs, their_memory, their_tables, character)
                    .map(|()| None),
            ),
            Input::ReadOut => (
                nd110::read_out(ours, memory, tables),
                second::read_out(theirs, their_memory, their_tables),
            ),
        };
        let ours = ours.map_err(|r| r.number());
        let theirs = theirs.map_err(|r| r.number());
        same(format!("{ours:?}"), format!("{theirs:?}"))
    }

    /// A run of both to the first interrupt with device input: the steps taken, or none where both refuse.
    pub fn run_with_input(&mut self, steps: u64, inputs: &[(u64, Input)]) -> Result<u64, Answers> {
        let our_inputs: Vec<_> = inputs.iter().map(|(at, i)| (*at, our_input(*i))).collect();
        let ours = nd110::run_with_input(
            &mut self.ours,
            &mut self.our_memory,
            &mut self.our_tables,
            steps,
            &our_inputs,
        );
        let them = &mut self.theirs;
        let theirs = second::run_with_input(
            &mut them.state,
            &mut them.memory,
            &mut them.tables,
            steps,
            inputs,
        );
        let ours = ours.map(|ran| Run {
            steps: ran.steps,
            reason: ran.reason.number(),
            references: ran.references,
            told: ran.told.into_iter().map(our_told).collect(),
        });
        let theirs = theirs.map(|ran| Run {
            steps: ran.steps,
            reason: reason(ran.reason),
            references: ran.references,
            told: ran.told.into_iter().map(their_told).collect(),
        });
        same_run(ours.map_err(|r| r.number()), theirs.map_err(|r| r.number()))
    }

    /// The image that each writes; Ok only if they are one.
    pub fn write(&self) -> Result<Vec<u16>, Answers> {
        let mut ours = vec![0o52525; self.our_memory.len() + nd110::IMAGE_EXTRA + 3];
        let mut theirs = ours.clone();
        let a = nd110::write(&self.ours, &self.our_memory, &self.our_tables, &mut ours);
        let them = &self.theirs;
        let b = second::write(&them.state, &them.memory, &them.tables, &mut theirs);
        let a = a.map_err(|r| r.number());
        let b = b.map(|_| ()).map_err(|r| r.number());
        same(format!("{a:?}"), format!("{b:?}"))?;
        if ours != theirs {
            return Err(("another image".into(), "this image".into()));
        }
        Ok(ours)
    }

    /// Both load the image.
    pub fn load(&mut self, image: &[u16]) -> Result<(), Answers> {
        let ours = nd110::load(image, &mut self.our_memory, &mut self.our_tables);
        let them = &mut self.theirs;
        let theirs = second::load(image, &mut them.memory, &mut them.tables);
        if let Ok(state) = &ours {
            self.ours = *state;
        }
        if let Ok(state) = &theirs {
            them.state = State::clone(state);
        }
        let ours = ours.map(|_| ()).map_err(|r| r.number());
        same(
            format!("{ours:?}"),
            format!("{:?}", theirs.map(|_| ()).map_err(|r| r.number())),
        )
    }
}

/// The library's form of an input.
fn our_input(input: Input) -> nd110::Input {
    match input {
        Input::Raise(level) => nd110::Input::Raise(level),
        Input::Tick => nd110::Input::Tick,
        Input::Typed(character) => nd110::Input::Typed(character),
        Input::ReadOut => nd110::Input::ReadOut,
    }
}

/// What an input was told by either, with the refusal's number or the character.
type ToldWith = (&'static str, u16);

fn our_told(told: nd110::Told) -> ToldWith {
    match told {
        nd110::Told::Done => ("done", 0),
        nd110::Told::Refused(refusal) => ("refused", refusal.number()),
        nd110::Told::Character(character) => ("character", character.into()),
        nd110::Told::None => ("none", 0),
    }
}

fn their_told(told: Told) -> ToldWith {
    match told {
        Told::Done => ("done", 0),
        Told::Refused(refusal) => ("refused", refusal.number()),
        Told::Character(character) => ("character", character.into()),
        Told::None => ("none", 0),
    }
}

/// The library's number of a reason.
fn reason(why: Reason) -> u16 {
    match why {
        Reason::Stopped => 0,
        Reason::Level => 1,
        Reason::Spent => 2,
        Reason::Interrupt => 3,
    }
}
