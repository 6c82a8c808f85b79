//! What is typed: a thread reads standard input, and the session takes characters from it as the machine takes them.

use std::io::{self, ErrorKind, Read};
use std::sync::Arc;
use std::sync::atomic::{AtomicBool, Ordering};
use std::sync::mpsc::{Receiver, RecvTimeoutError, SyncSender, TryRecvError, sync_channel};
use std::thread;
use std::time::Duration;

/// The key that leaves a terminal, Ctrl-].
const LEAVE: u8 = 0o35;

/// Characters that are kept until the machine reads them.
const KEPT: usize = 4096;

pub struct Keyboard {
    typed: Receiver<io::Result<u8>>,
    /// Taken from it, and not yet by the machine.
    next: Option<u8>,
    ended: bool,
    left: Arc<AtomicBool>,
}

/// The reading thread's end of it.
struct Reader {
    typed: SyncSender<io::Result<u8>>,
    left: Arc<AtomicBool>,
    terminal: bool,
}

impl Keyboard {
    /// A terminal in raw mode, with the key that leaves. What is typed beyond what is kept is lost, so that this key is
    /// always seen.
    pub fn terminal() -> Keyboard {
        Keyboard::read(true)
    }

    /// A file or a pipe, every character as it is. It waits while no more is kept.
    pub fn file() -> Keyboard {
        Keyboard::read(false)
    }

    fn read(terminal: bool) -> Keyboard {
        let (sender, typed) = sync_channel(KEPT);
        let left = Arc::new(AtomicBool::new(false));
        let reader = Reader {
            typed: sender,
            left: Arc::clone(&left),
            terminal,
        };
        thread::spawn(move || reader.read_all());
        Keyboard {
            typed,
            next: None,
            ended: false,
            left,
        }
    }

    /// The key that leaves was typed.
    pub fn left(&self) -> bool {
        self.left.load(Ordering::Relaxed)
    }

    /// The next character, which stays until it is taken.
    pub fn next(&mut self) -> io::Result<Option<u8>> {
        if self.next.is_none() {
            match self.typed.try_recv() {
                Ok(typed) => self.next = Some(typed?),
                Err(TryRecvError::Empty) => (),
                Err(TryRecvError::Disconnected) => self.ended = true,
            }
        }
        Ok(self.next)
    }

    /// The machine has it.
    pub fn take(&mut self) {
        self.next = None;
    }

    /// The input has ended, and every character of it is taken.
    pub fn ended(&self) -> bool {
        self.ended && self.next.is_none()
    }

    /// Waits until there is a next character, at most so long.
    pub fn wait(&mut self, most: Duration) -> io::Result<()> {
        if self.next.is_some() || self.ended {
            thread::sleep(most);
            return Ok(());
        }
        match self.typed.recv_timeout(most) {
            Ok(typed) => self.next = Some(typed?),
            Err(RecvTimeoutError::Timeout) => (),
            Err(RecvTimeoutError::Disconnected) => self.ended = true,
        }
        Ok(())
    }
}

impl Reader {
    /// Reads until the input ends, the key that leaves is typed, or the session is gone.
    fn read_all(self) {
        let mut input = io::stdin().lock();
        let mut some = [0; 512];
        loop {
            let len = match input.read(&mut some) {
                Ok(len) => len,
                Err(error) if error.kind() == ErrorKind::Interrupted => continue,
                Err(error) => {
                    let _ = self.typed.send(Err(error));
                    return;
                }
            };
            if len == 0 || !self.hand_over(&some[..len]) {
                return;
            }
        }
    }

    /// Whether to read on.
    fn hand_over(&self, characters: &[u8]) -> bool {
        for &character in characters {
            if !self.terminal {
                if self.typed.send(Ok(character)).is_err() {
                    return false;
                }
                continue;
            }
            if character == LEAVE {
                self.left.store(true, Ordering::Relaxed);
                return false;
            }
            // one that finds no room is lost
            let _ = self.typed.try_send(Ok(character));
        }
        true
    }
}
