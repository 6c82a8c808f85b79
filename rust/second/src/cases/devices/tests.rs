//! The cases do what they say, and tell engines that are wrong about the devices.

use super::*;
use crate::answer::{Interrupt, Ran, Reason, Refusal, Told};
use crate::cases::{Numbers, ended, ended_with_input};
use crate::decode::{Instr, decode};
use crate::input::{Input, Session};
use crate::machine::{Machine, check_sizes};
use crate::paging::{Access, Table};
use crate::state::State;
use std::collections::HashSet;

macro_rules! slips {
    ($($slip:ident)*) => {
        /// How an engine is wrong.
        #[derive(Clone, Copy, Debug, PartialEq)]
        enum Slip {
            /// Not at all.
            None,
            $($slip,)*
        }

        const WRONG: &[Slip] = &[$(Slip::$slip,)*];
    };
}

// IDENT; reaching a register; what a register does; asking; what is handed in;
// runs; states and images.
slips! {
    IdentLeavesFlipFlop IdentExchanged IdentByOneBit IdentClearsA IdentClearsPid IdentDisables
    IdentOnOwnLevel RaiseIdentified

    AddressModulo2048 Unprivileged ExrRefuses ZerosUnanswered RatesUnanswered WriteClearsA
    ReadLeavesA

    ReadyWhileWaiting StatusShowsAsking ReadStaysUnread ReadClearsCharacter LengthNotRead
    LengthNotSent LengthsExchanged LengthAtTyping SecondDropped ClockStaysReady EnableBeforeClear

    ClockEnabledAsksNothing InputEnabledAsksNothing OutputEnabledAsksNothing AsksAtSetting
    DisablingForgets ReadingForgets ClearingForgets AsksOnce AsksWithoutPid AsksDisabled LineHolds

    TickedOnce TypedOver UnreadFirst ReadOutWaitsOn ReadOutAsksNothing ReadOutClearsCharacter
    NoneAsks RaiseAsks StoppedTakesNothing

    FirstDropped TakenWhenStopped TakenWhenDue TakenAfterInterrupt LastNotTaken BeyondTaken
    BeyondSkipped Sorted PassedDropped RefusedEnds RefusedUntold NotTestedAfterLast

    LengthFour LongCharacter LoadKeepsDevices WriterClears
}

/// The clock, the input and the output in `FLAGS`, and their levels.
const CLOCK: usize = 0;
const INPUT: usize = 1;
const OUTPUT: usize = 2;
const LEVELS: [u16; 3] = [13, 12, 10];

/// The devices by their words.
struct Model<'a> {
    state: &'a mut State,
    slip: Slip,
}

impl Model<'_> {
    fn is(&self, slip: Slip) -> bool {
        self.slip == slip
    }

    fn get(&self, word: usize) -> u16 {
        self.state.devices.to_words()[word]
    }

    fn set(&mut self, word: usize, value: u16) {
        let mut words = self.state.devices.to_words();
        words[word] = value;
        self.state.devices = Devices::from_words(&words);
    }

    fn ready(&self, source: usize) -> bool {
        let word = self.get(FLAGS[source][1]);
        word == u16::from(source != OUTPUT)
    }

    fn ask(&mut self, source: usize) {
        let flip_flop = FLAGS[source][2];
        if self.is(Slip::AsksOnce) && self.get(flip_flop) == 1 {
            return;
        }
        self.set(flip_flop, 1);
        if !self.is(Slip::AsksWithoutPid) {
            self.state.pid |= 1 << LEVELS[source];
        }
    }

    /// Ready occurs.
    fn occurs(&mut self, source: usize) {
        if self.get(FLAGS[source][0]) == 1 || self.is(Slip::AsksDisabled) {
            self.ask(source);
        }
    }

    /// Bit 0 of a control word.
    fn control(&mut self, source: usize, a: u16) {
        let [enabled, _, flip_flop] = FLAGS[source];
        let before = self.get(enabled);
        self.set(enabled, a % 2);
        let enables = a % 2 == 1;
        if !enables && self.is(Slip::DisablingForgets) {
            self.set(flip_flop, 0);
        }
        let never = [
            Slip::ClockEnabledAsksNothing,
            Slip::InputEnabledAsksNothing,
            Slip::OutputEnabledAsksNothing,
        ][source];
        let no_edge = self.is(Slip::AsksAtSetting) && before == 1;
        if enables && self.ready(source) && !self.is(never) && !no_edge {
            self.ask(source);
        }
    }

    /// So many low bits of a word as a character has now.
    fn cut(&self, word: u16) -> u16 {
        let bits = 8 - u32::from(self.get(LENGTH));
        word % 2_u16.pow(bits)
    }

    fn status(&self, source: usize) -> u16 {
        let [enabled, _, flip_flop] = FLAGS[source].map(|word| self.get(word));
        let ready = self.ready(source) || source == OUTPUT && self.is(Slip::ReadyWhileWaiting);
        let more = if self.is(Slip::StatusShowsAsking) {
            2 * flip_flop
        } else {
            0
        };
        enabled + more + 8 * u16::from(ready)
    }

    fn read(&mut self, address: u16) -> Option<u16> {
        match address {
            0o10 | 0o304 if self.is(Slip::ZerosUnanswered) => None,
            0o10 | 0o304 => Some(0),
            0o12 => Some(self.status(CLOCK)),
            0o300 => {
                let character = self.get(INPUT_CHARACTER);
                match self.slip {
                    Slip::ReadClearsCharacter => self.set(INPUT_CHARACTER, 0),
                    Slip::ReadingForgets => self.set(FLAGS[INPUT][2], 0),
                    _ => {}
                }
                if !self.is(Slip::ReadStaysUnread) {
                    self.set(INPUT_UNREAD, 0);
                }
                Some(match self.slip {
                    Slip::LengthNotRead | Slip::LengthAtTyping => character,
                    _ => self.cut(character),
                })
            }
            0o302 => Some(self.status(INPUT)),
            0o306 => Some(self.status(OUTPUT)),
            _ => None,
        }
    }

    fn clear_ready(&mut self, a: u16) {
        if a >> 13 & 1 == 0 {
            return;
        }
        if !self.is(Slip::ClockStaysReady) {
            self.set(FLAGS[CLOCK][1], 0);
        }
        if self.is(Slip::ClearingForgets) {
            self.set(FLAGS[CLOCK][2], 0);
        }
    }

    fn write(&mut self, address: u16, a: u16) -> Option<()> {
        match address {
            0o11 | 0o301 if self.is(Slip::RatesUnanswered) => return None,
            0o11 | 0o301 => {}
            0o13 if self.is(Slip::EnableBeforeClear) => {
                self.control(CLOCK, a);
                self.clear_ready(a);
            }
            0o13 => {
                self.clear_ready(a);
                self.control(CLOCK, a);
            }
            0o303 => {
                let [low, high] = [a >> 11 & 1, a >> 12 & 1];
                self.set(
                    LENGTH,
                    match self.slip {
                        Slip::LengthsExchanged => 2 * low + high,
                        _ => 2 * high + low,
                    },
                );
                self.control(INPUT, a);
            }
            0o305 if self.is(Slip::SecondDropped) && !self.ready(OUTPUT) => {}
            0o305 => {
                let character = match self.slip {
                    Slip::LengthNotSent => a % 256,
                    _ => self.cut(a),
                };
                self.set(OUTPUT_CHARACTER, character);
                self.set(OUTPUT_WAITS, 1);
            }
            0o307 => self.control(OUTPUT, a),
            _ => return None,
        }
        Some(())
    }

    fn named(&self, code: u16) -> Option<usize> {
        let exchanged = self.is(Slip::IdentExchanged);
        match code {
            _ if self.is(Slip::IdentByOneBit) => [(0o40, CLOCK), (0o20, INPUT), (4, OUTPUT)]
                .into_iter()
                .find(|(bit, _)| code & bit != 0)
                .map(|(_, source)| source),
            0o43 => Some(if exchanged { INPUT } else { CLOCK }),
            0o22 => Some(if exchanged { CLOCK } else { INPUT }),
            0o04 => Some(OUTPUT),
            _ => None,
        }
    }

    /// Whether a device answers IDENT; it has the code 1.
    fn answers(&mut self, code: u16) -> bool {
        let Some(source) = self.named(code) else {
            return false;
        };
        let [enabled, _, flip_flop] = FLAGS[source];
        let bit = 1 << LEVELS[source];
        let raised = self.is(Slip::RaiseIdentified) && self.state.pid & bit != 0;
        let elsewhere = self.is(Slip::IdentOnOwnLevel) && self.state.level != LEVELS[source];
        if self.get(flip_flop) == 0 && !raised || elsewhere {
            return false;
        }
        if !self.is(Slip::IdentLeavesFlipFlop) {
            self.set(flip_flop, 0);
        }
        match self.slip {
            Slip::IdentClearsPid => self.state.pid &= !bit,
            Slip::IdentDisables => self.set(enabled, 0),
            _ => {}
        }
        true
    }

    fn take(&mut self, input: Input) -> Told {
        if self.is(Slip::StoppedTakesNothing) && self.state.stopped == 1 {
            return Told::Done;
        }
        match input {
            Input::Raise(level @ (10..=13 | 15)) => {
                self.state.pid |= 1 << level;
                if self.is(Slip::RaiseAsks) && level == LEVELS[CLOCK] {
                    self.set(FLAGS[CLOCK][2], 1);
                }
            }
            Input::Raise(_) => return Told::Refused(Refusal::Level),
            Input::Tick => {
                let again = self.ready(CLOCK) && self.is(Slip::TickedOnce);
                self.set(FLAGS[CLOCK][1], 1);
                if !again {
                    self.occurs(CLOCK);
                }
            }
            Input::Typed(_) if self.ready(INPUT) && !self.is(Slip::TypedOver) => {
                return Told::Refused(Refusal::Unread);
            }
            Input::Typed(character) => {
                let character = match self.slip {
                    Slip::LengthAtTyping => self.cut(character.into()),
                    _ => character.into(),
                };
                self.set(INPUT_CHARACTER, character);
                self.set(INPUT_UNREAD, 1);
                self.occurs(INPUT);
            }
            Input::ReadOut => return self.read_out(),
        }
        Told::Done
    }

    fn read_out(&mut self) -> Told {
        if self.ready(OUTPUT) {
            if self.is(Slip::NoneAsks) {
                self.occurs(OUTPUT);
            }
            return Told::None;
        }
        let character = self.get(OUTPUT_CHARACTER);
        if !self.is(Slip::ReadOutWaitsOn) {
            self.set(OUTPUT_WAITS, 0);
        }
        if !self.is(Slip::ReadOutAsksNothing) {
            self.occurs(OUTPUT);
        }
        if self.is(Slip::ReadOutClearsCharacter) {
            self.set(OUTPUT_CHARACTER, 0);
        }
        Told::Character(character as u8)
    }

    /// Whether the state is in range.
    fn in_range(&self) -> bool {
        let mut words = self.state.devices.to_words();
        match self.slip {
            Slip::LengthFour if words[LENGTH] == 4 => words[LENGTH] = 3,
            Slip::LongCharacter => words[OUTPUT_CHARACTER] %= 512,
            _ => {}
        }
        let mut most = [1, 1, 1, 1, 1, 1, 255, 3, 1, 1, 1, 255];
        if self.is(Slip::LongCharacter) {
            most[OUTPUT_CHARACTER] = 511;
        }
        let devices = words.iter().zip(most).all(|(word, most)| *word <= most);
        let mut rest = self.state.clone();
        rest.devices = Devices::default();
        devices && rest.in_range()
    }
}

/// What a word of a case hands in.
fn input_of(word: u16) -> Input {
    match word {
        256 => Input::Tick,
        257 => Input::ReadOut,
        512..768 => Input::Typed(word as u8),
        level => Input::Raise(level),
    }
}

/// An engine of its own for what the devices bear on; the rest is the right one.
struct Engine<'a> {
    machine: Machine<'a>,
    slip: Slip,
}

impl Engine<'_> {
    fn is(&self, slip: Slip) -> bool {
        self.slip == slip
    }

    fn model(&mut self) -> Model<'_> {
        let slip = self.slip;
        let state = &mut *self.machine.state;
        Model { state, slip }
    }

    fn permitted(&self) -> bool {
        let state = &self.machine.state;
        let ring = state.pcr[usize::from(state.level)] & 3;
        state.paging_on == 0 || ring >= 2 || self.is(Slip::Unprivileged)
    }

    fn transfer(&mut self, address: u16) -> Result<(), Interrupt> {
        let a = self.machine.get(Reg::A);
        if address % 2 == 1 {
            let answer = self.model().write(address, a);
            if answer.is_some() && self.is(Slip::WriteClearsA) {
                self.machine.set(Reg::A, 0);
            }
            return answer.ok_or(Interrupt::NoDevice);
        }
        let word = self.model().read(address).ok_or(Interrupt::NoDevice)?;
        // A register that reads 0 is passed over.
        if word != 0 || !self.is(Slip::ReadLeavesA) {
            self.machine.set(Reg::A, word);
        }
        Ok(())
    }

    fn identify(&mut self, code: u16) -> Result<(), Interrupt> {
        if self.model().answers(code) {
            self.machine.set(Reg::A, 1);
            return Ok(());
        }
        if self.is(Slip::IdentClearsA) {
            self.machine.set(Reg::A, 0);
        }
        Err(Interrupt::NoDevice)
    }

    fn perform(&mut self, word: u16, at: u16) -> Result<(), Interrupt> {
        let (instr, by_exr) = match decode(word) {
            Instr::Exr { src } => (decode(self.machine.operand(src)), true),
            instr => (instr, false),
        };
        match instr {
            Instr::Iox { .. } | Instr::Ioxt | Instr::Ident { .. } if !self.permitted() => {
                Err(Interrupt::Privileged)
            }
            Instr::Iox { .. } if by_exr && self.is(Slip::ExrRefuses) => Err(Interrupt::Illegal),
            Instr::Iox { device } => self.transfer(device),
            Instr::Ioxt => {
                let address = self.machine.get(Reg::T);
                self.transfer(match self.slip {
                    Slip::AddressModulo2048 => address % 2048,
                    _ => address,
                })
            }
            Instr::Ident { code } => self.identify(code),
            _ => self.machine.execute(word, at),
        }
    }

    fn instruction(&mut self) -> Result<(), Interrupt> {
        let at = self.machine.get(Reg::P);
        let place = self.machine.access(at, Table::Normal, Access::Fetch)?;
        let word = self.machine.read(place);
        self.machine.set(Reg::P, at.wrapping_add(1));
        self.perform(word, at)
    }

    fn step(&mut self) -> Option<Interrupt> {
        let state = &mut *self.machine.state;
        if state.stopped == 1 {
            return None;
        }
        if state.change_due() {
            state.pvl = state.level;
            state.level = state.highest_level();
            return None;
        }
        let result = self.instruction().err();
        if let Some(interrupt) = result {
            self.machine.state.interrupt(interrupt.number());
        }
        if self.is(Slip::LineHolds) {
            for (source, level) in LEVELS.into_iter().enumerate() {
                let asks = self.model().get(FLAGS[source][2]);
                self.machine.state.pid |= asks << level;
            }
        }
        result
    }

    /// A run through or to the first interrupt.
    fn run(&mut self, steps: u64, first: bool) -> Ran {
        for taken in 0.. {
            let state = &self.machine.state;
            if state.stopped == 1 {
                return self.ran(taken, Reason::Stopped);
            }
            if first && state.change_due() {
                return self.ran(taken, Reason::Level);
            }
            if taken == steps {
                break;
            }
            if self.step().is_some() && first {
                return self.ran(taken + 1, Reason::Interrupt);
            }
        }
        self.ran(steps, Reason::Spent)
    }

    fn ran(&self, steps: u64, reason: Reason) -> Ran {
        Ran {
            steps,
            reason,
            references: self.machine.references,
        }
    }

    /// The inputs as a wrong engine has them.
    fn scheduled(&self, steps: u64, inputs: &[(u64, u16)]) -> Vec<(u64, Input)> {
        let input = |&(at, word): &(u64, u16)| (at, input_of(word));
        let mut inputs: Vec<_> = inputs.iter().map(input).collect();
        match self.slip {
            Slip::FirstDropped if !inputs.is_empty() => drop(inputs.remove(0)),
            Slip::LastNotTaken => inputs.retain(|input| input.0 != steps),
            Slip::BeyondTaken => inputs
                .iter_mut()
                .for_each(|input| input.0 = input.0.min(steps)),
            Slip::BeyondSkipped => inputs.retain(|input| input.0 <= steps),
            Slip::Sorted => inputs.sort_by_key(|input| input.0),
            _ => {}
        }
        inputs
    }

    /// A run with device input: before each step and each input stopped and level,
    /// then the inputs whose step has come, then spent.
    fn session(&mut self, steps: u64, inputs: &[(u64, u16)]) -> Session {
        let inputs = self.scheduled(steps, inputs);
        let mut waiting = inputs
            .iter()
            .take_while(|input| input.0 <= steps)
            .peekable();
        let mut told = Vec::new();
        let mut taken = 0;
        let reason = loop {
            let next = waiting.next_if(|input| input.0 <= taken);
            let whatever = next.is_some_and(|_| match self.slip {
                Slip::TakenWhenStopped => self.machine.state.stopped == 1,
                Slip::TakenWhenDue => self.machine.state.change_due(),
                _ => false,
            });
            let at_the_end = self.is(Slip::NotTestedAfterLast) && taken == steps;
            let untested = whatever || at_the_end && !told.is_empty();
            if self.machine.state.stopped == 1 && !untested {
                break Reason::Stopped;
            }
            if self.machine.state.change_due() && !untested {
                break Reason::Level;
            }
            if let Some(&(at, input)) = next {
                if self.is(Slip::PassedDropped) && at < taken {
                    continue;
                }
                let answer = self.model().take(input);
                let refused = matches!(answer, Told::Refused(_));
                if !refused || !self.is(Slip::RefusedUntold) {
                    told.push(answer);
                }
                if refused && self.is(Slip::RefusedEnds) {
                    break Reason::Spent;
                }
                continue;
            }
            if taken == steps {
                break Reason::Spent;
            }
            let interrupt = self.step();
            taken += 1;
            if interrupt.is_some() {
                if self.is(Slip::TakenAfterInterrupt) {
                    while let Some(input) = waiting.next_if(|input| input.0 <= taken) {
                        told.push(self.model().take(input.1));
                    }
                }
                break Reason::Interrupt;
            }
        };
        Session::of(self.ran(taken, reason), told)
    }
}

/// What a case is answered, and the machine that is left.
type Followed = (Numbers, Case);

/// An operation that hands an input in.
fn handed_in(operation: &Operation) -> Option<Input> {
    match operation {
        Operation::Raise(level) => Some(Input::Raise(*level)),
        Operation::Tick => Some(Input::Tick),
        Operation::Typed(character) => Some(Input::Typed(*character)),
        Operation::ReadOut => Some(Input::ReadOut),
        _ => None,
    }
}

/// A case by such an engine.
fn follow(case: &Case, slip: Slip) -> Followed {
    match &case.operation {
        Operation::Load(_) | Operation::Write(_) => return other(case, slip),
        Operation::WriteLoad(_) | Operation::View(..) => return other(case, slip),
        _ => {}
    }
    let mut end = case.clone();
    let answer = match refusal(&mut end, slip) {
        Some(refusal) => (refusal.number(), 0, 0, 0),
        None => act(&mut end, slip),
    };
    (answer, end)
}

/// Refusals 1 and 2, and by a slip 11.
fn refusal(case: &mut Case, slip: Slip) -> Option<Refusal> {
    if check_sizes(&case.memory, &case.tables).is_err() {
        return Some(Refusal::Size);
    }
    let typed = matches!(case.operation, Operation::Typed(_));
    let state = &mut case.state;
    let model = Model { state, slip };
    if typed && slip == Slip::UnreadFirst && model.ready(INPUT) {
        return Some(Refusal::Unread);
    }
    (!model.in_range()).then_some(Refusal::State)
}

/// An input, a step or a run, of a machine that is not refused.
fn act(case: &mut Case, slip: Slip) -> Numbers {
    if let Some(input) = handed_in(&case.operation) {
        let state = &mut case.state;
        return match (Model { state, slip }).take(input) {
            Told::Refused(refusal) => (refusal.number(), 0, 0, 0),
            told => (0, told.word().into(), 0, 0),
        };
    }
    let mut engine = engine(case, slip);
    match &engine.1 {
        Operation::Step => {
            let interrupt = engine.0.step().map_or(0, Interrupt::number);
            (0, interrupt.into(), 0, 0)
        }
        Operation::Through(steps) => ended(engine.0.run(*steps, false)),
        Operation::ToInterrupt(steps) => ended(engine.0.run(*steps, true)),
        Operation::WithInput(steps, inputs) => ended_with_input(engine.0.session(*steps, inputs)),
        _ => unreachable!("no step and no run"),
    }
}

/// An engine for a case, and what it is to do.
fn engine(case: &mut Case, slip: Slip) -> (Engine<'_>, &Operation) {
    let tables = case.tables.as_mut_slice().try_into();
    let machine = Machine {
        state: &mut case.state,
        memory: &mut case.memory,
        tables: tables.expect("the size of tables"),
        references: 0,
    };
    (Engine { machine, slip }, &case.operation)
}

/// Load, write and view, by the right engine but for two slips.
fn other(case: &Case, slip: Slip) -> Followed {
    let mut end = case.clone();
    let writes = matches!(
        case.operation,
        Operation::Write(_) | Operation::WriteLoad(_)
    );
    if writes && slip == Slip::WriterClears && end.state.in_range() {
        end.state.devices = Devices::default();
    }
    let answer = end.act();
    match &case.operation {
        Operation::Load(image) if slip == Slip::LoadKeepsDevices && answer.0 == 0 => {
            let mut entries = image[1..].chunks(5).take(image[0].into());
            if entries.all(|entry| entry[0] != 5) {
                end.state.devices = case.state.devices.clone();
            }
        }
        Operation::Write(_) => end.state = case.state.clone(),
        _ => {}
    }
    (answer, end)
}

fn all() -> Vec<Case> {
    [
        registers(),
        ident(),
        operations(),
        runs(),
        stories(),
        random(),
        random_runs(),
    ]
    .concat()
}

fn same(one: &Followed, two: &Followed) -> bool {
    one.0 == two.0
        && one.1.state == two.1.state
        && one.1.memory == two.1.memory
        && one.1.tables == two.1.tables
}

#[test]
fn followed_as_answered() {
    for case in all() {
        let mut end = case.clone();
        let answered = (end.act(), end);
        let followed = follow(&case, Slip::None);
        assert!(same(&answered, &followed), "{}", case.line());
    }
}

#[test]
fn wrong_ways_show() {
    let cases = all();
    let right: Vec<_> = cases.iter().map(|case| follow(case, Slip::None)).collect();
    for &slip in WRONG {
        let mut labels = HashSet::new();
        let mut found = 0;
        for (case, right) in cases.iter().zip(&right) {
            if !same(&follow(case, slip), right) {
                found += 1;
                labels.insert(case.label);
            }
        }
        println!("{slip:?}: {found} cases, {labels:?}");
        assert!(found >= 10, "{slip:?}: {found}");
    }
}

fn labelled(label: &str) -> Vec<Case> {
    let mut cases = all();
    cases.retain(|case| case.label == label);
    assert!(!cases.is_empty(), "{label}");
    cases
}

/// The session that a case of a run with device input is.
fn session_of(case: &Case) -> Session {
    let mut end = case.clone();
    match engine(&mut end, Slip::None) {
        (mut engine, Operation::WithInput(steps, inputs)) => engine.session(*steps, inputs),
        _ => panic!("no device input: {}", case.line()),
    }
}

/// Each character of the line that was taken comes back, if it is read out.
#[test]
fn lines_come_back() {
    let mut whole = 0;
    for case in labelled("echo") {
        let session = session_of(&case);
        let Operation::WithInput(_, inputs) = &case.operation else {
            unreachable!("a session has inputs");
        };
        assert_eq!(session.reason, Reason::Spent);
        if case.state.devices == Devices::from_words(&FULL) {
            continue;
        }
        let (mut line, mut back) = (Vec::new(), Vec::new());
        for (&(_, word), told) in inputs.iter().zip(&session.told) {
            match (input_of(word), told) {
                (Input::Typed(character), Told::Done) => line.push(character),
                (Input::ReadOut, Told::Character(character)) => back.push(*character),
                _ => {}
            }
        }
        assert!(line.starts_with(&back), "{}", case.line());
        whole += usize::from(line == back && 2 * line.len() == inputs.len());
    }
    assert!(whole >= 4, "{whole}");
}

/// The driver sends what was typed, and again after each read out.
#[test]
fn the_driver_repeats() {
    let mut read = Vec::new();
    let mut levels = HashSet::new();
    for case in labelled("driver") {
        let ((refusal, first, ..), end) = follow(&case, Slip::None);
        assert_eq!(refusal, 0, "{}", case.line());
        levels.insert(end.state.level);
        assert_eq!(end.state.iid, 0, "{}", case.line());
        if matches!(case.operation, Operation::ReadOut) {
            read.push(first);
        }
    }
    // Typed once, it is read out twice; the third is the next one.
    assert_eq!(read, [0o101, 0o101, 0o102]);
    assert_eq!(levels, HashSet::from([0, 1, 10, 12]));
}

/// Each tick, character and read out that asks leads to its level, and WAIT back.
#[test]
fn levels_are_entered_and_left() {
    for (label, level) in [
        ("clock", 13),
        ("console", 12),
        ("console", 10),
        ("three", 13),
    ] {
        let mut seen = HashSet::new();
        for case in labelled(label) {
            let (_, end) = follow(&case, Slip::None);
            seen.insert((case.state.level, end.state.level, end.state.pvl));
        }
        assert!(seen.iter().any(|seen| seen.0 != level && seen.1 == level));
        assert!(seen.iter().any(|seen| seen.0 == level && seen.1 != level));
    }
}

/// Every register is answered on every ring that may, by IOX and by IOXT, and gives
/// 6 on the others; every run ends in each of the four ways.
#[test]
fn nothing_is_left_out() {
    let mut seen = HashSet::new();
    for case in labelled("ring") {
        let ((_, interrupt, ..), _) = follow(&case, Slip::None);
        let state = &case.state;
        let at = match state.paging_on {
            0 => AT.into(),
            _ => case.physical_page(case.index(AT, false)) * crate::PAGE + usize::from(AT),
        };
        let word = match case.memory[at] {
            EXR => case.get(Reg::L),
            word => word,
        };
        let address = match word {
            IOXT => case.get(Reg::T),
            word => word & 0o3777,
        };
        let ring = state.pcr[usize::from(state.level)] & 3;
        seen.insert((address, word == IOXT, state.paging_on, ring, interrupt));
    }
    for address in device::ALL {
        for by_t in [false, true] {
            for (paging, ring) in [(1, 2), (1, 3), (0, u16::from(by_t))] {
                assert!(
                    seen.contains(&(address, by_t, paging, ring, 0)),
                    "{address:o}"
                );
            }
        }
        for ring in [0, 1] {
            assert!(
                seen.iter()
                    .any(|seen| (seen.0, seen.3, seen.4) == (address, ring, 6))
            );
        }
    }
    let ended = |case: &Case| {
        let session = session_of(case);
        (session.reason as u8, session.told.is_empty())
    };
    let runs = runs().into_iter().chain(random_runs());
    let runs = runs.filter(|case| matches!(case.operation, Operation::WithInput(..)));
    let ends: HashSet<_> = runs.map(|case| ended(&case)).collect();
    assert_eq!(ends.len(), 8);
}
