//! The terminal in raw mode: each key as it is typed, none of them a signal, nothing echoed or translated.

use std::io::{self, Error};
use std::os::fd::AsFd;
use std::process::{Child, Command, Stdio};

/// Waits for the end of its input, then gives the terminal, which it has as its output, the settings that it was told.
/// It ignores the signals that would end or stop it before that.
const KEEPER: &str = "trap '' HUP INT QUIT TERM TTOU; cat >/dev/null; stty \"$0\" <&1";

/// Raw mode until it is dropped. A process of its own, the keeper, sets the terminal back when this one is gone, so also
/// after a panic or a signal.
pub struct Raw {
    keeper: Child,
}

/// `stty` on standard input; what it prints.
fn stty(settings: &[&str]) -> io::Result<String> {
    let done = Command::new("stty")
        .args(settings)
        .stdin(Stdio::inherit())
        .stderr(Stdio::inherit())
        .output()
        .map_err(|error| Error::new(error.kind(), format!("stty: {error}")))?;
    if !done.status.success() {
        return Err(Error::other(format!("stty: {}", done.status)));
    }
    Ok(String::from_utf8_lossy(&done.stdout).trim().to_string())
}

impl Raw {
    pub fn enter() -> io::Result<Raw> {
        let settings = stty(&["-g"])?;
        let terminal = io::stdin().as_fd().try_clone_to_owned()?;
        let keeper = Command::new("sh")
            .args(["-c", KEEPER, &settings])
            .stdin(Stdio::piped())
            .stdout(terminal)
            .spawn()?;
        let raw = Raw { keeper };
        stty(&["raw", "-echo"])?;
        Ok(raw)
    }
}

impl Drop for Raw {
    /// `wait` closes the keeper's input.
    fn drop(&mut self) {
        let _ = self.keeper.wait();
    }
}
