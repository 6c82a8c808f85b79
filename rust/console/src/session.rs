//! The machine's run: slices of steps, and between them ticks, characters typed and characters read out.

use crate::keyboard::Keyboard;
use nd110::{Control, Device, Machine, Reason, Register};
use std::fmt;
use std::io::{self, Write};
use std::time::{Duration, Instant};

/// The clock's pulse: one for each 20 ms of wall time.
const TICK_MS: u64 = 20;

/// Steps between two looks at the devices. One character goes out for each slice at most: a program that sends waits
/// until output is ready, and so until the slice's end; one that does not look loses what it sent before, as it does on
/// the board. Every number up to 10 divides it: a program that waits in a loop of so many steps is at the slice's end
/// where it was at its start.
const SLICE: u64 = 2520;

/// Ticks without a character after which a machine whose input has ended has no more to say: a second.
const QUIET: u64 = 50;

/// Ticks in which memory is not compared again after it was found to change.
const PAUSE: u64 = 50;

/// Why a session ended.
pub enum End {
    /// The machine stopped; its level and P.
    Stopped(u16, u16),
    /// The operator left.
    Left,
    /// The input has ended and is read, and nothing more was sent.
    Quiet,
}

impl fmt::Display for End {
    fn fmt(&self, f: &mut fmt::Formatter<'_>) -> fmt::Result {
        match self {
            End::Stopped(level, p) => write!(f, "stopped on level {level} at P {p:06o}"),
            End::Left => write!(f, "left"),
            End::Quiet => write!(f, "the input ended"),
        }
    }
}

/// What came of a slice.
struct Slice {
    sent: bool,
    stopped: bool,
}

pub struct Session {
    machine: Machine,
    keyboard: Keyboard,
    began: Instant,
    ticks: u64,
    /// Of these, those since the last character.
    quiet: u64,
    /// As many ticks before memory is compared again.
    compare_at: u64,
}

impl Session {
    pub fn new(machine: Machine, keyboard: Keyboard) -> Session {
        Session {
            machine,
            keyboard,
            began: Instant::now(),
            ticks: 0,
            quiet: 0,
            compare_at: 0,
        }
    }

    pub fn run(mut self) -> Result<End, cli::Trouble> {
        let mut looked = false;
        loop {
            let ticked = self.tick()?;
            let typed = self.hand_in()?;
            let slice = self.slice()?;
            if let Some(end) = self.end(&slice) {
                return Ok(end);
            }
            // once after what was handed in last
            if ticked || typed || slice.sent {
                looked = false;
            } else if !looked {
                looked = true;
                if self.rests()? {
                    self.keyboard.wait(self.until_tick())?;
                }
            }
        }
    }

    /// The tick that is due, if one is. After a delay there is a slice between any two, so that each can be served: the
    /// machine does not count a tick that comes before the last was served.
    fn tick(&mut self) -> Result<bool, cli::Trouble> {
        if !self.until_tick().is_zero() {
            return Ok(false);
        }
        self.machine.tick()?;
        self.ticks += 1;
        self.quiet += 1;
        Ok(true)
    }

    /// The time until the next tick is due.
    fn until_tick(&self) -> Duration {
        Duration::from_millis(TICK_MS * (self.ticks + 1)).saturating_sub(self.began.elapsed())
    }

    /// The next character, if there is one and the machine has read the last.
    fn hand_in(&mut self) -> Result<bool, cli::Trouble> {
        let Some(character) = self.keyboard.next()? else {
            return Ok(false);
        };
        if self.unread() {
            return Ok(false);
        }
        self.machine.type_character(character)?;
        self.keyboard.take();
        Ok(true)
    }

    fn unread(&self) -> bool {
        self.machine.device(Device::InputUnread) != 0
    }

    /// So many steps, and the character that they sent, if they did, written at once.
    fn slice(&mut self) -> Result<Slice, cli::Trouble> {
        let reason = self.machine.run(SLICE)?.reason;
        let sent = self.machine.read_out()?;
        if let Some(character) = sent {
            let mut out = io::stdout().lock();
            out.write_all(&[character])?;
            out.flush()?;
            self.quiet = 0;
        }
        Ok(Slice {
            sent: sent.is_some(),
            stopped: reason == Reason::Stopped,
        })
    }

    /// Whether the session is over, and why.
    fn end(&mut self, slice: &Slice) -> Option<End> {
        if slice.stopped {
            let level = self.machine.control(Control::Level);
            let p = self.machine.register(level.into(), Register::P);
            return Some(End::Stopped(level, p));
        }
        if self.keyboard.left() {
            return Some(End::Left);
        }
        if self.unread() || !self.keyboard.ended() {
            self.quiet = 0;
        }
        (self.quiet >= QUIET).then_some(End::Quiet)
    }

    /// Whether a slice leaves every word of the machine as it was. Then so does every further one until something is
    /// handed in. Memory, which has to be copied for that, is compared only if a slice leaves the state as it was.
    fn rests(&mut self) -> Result<bool, cli::Trouble> {
        let state = *self.machine.state();
        let sent = self.slice()?.sent;
        if sent || *self.machine.state() != state || self.ticks < self.compare_at {
            return Ok(false);
        }
        let machine = self.machine.clone();
        if self.slice()?.sent || self.machine != machine {
            self.compare_at = self.ticks + PAUSE;
            return Ok(false);
        }
        Ok(true)
    }
}
