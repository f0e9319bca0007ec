//! Signals that end the process, held back while a file has a name that it must not keep.
use super::system::{self, Signals};
use std::io;

/// SIGHUP, SIGINT and SIGTERM.
const ENDING: [i32; 3] = [1, 2, 15];

/// Holds the ending signals back until it is dropped; then those that have come act.
pub struct Held {
    held: Signals,
    before: Signals,
}

impl Held {
    /// A signal that the process ignores is not held: it ends nothing.
    pub fn start() -> Held {
        let held = ENDING.into_iter().filter(|signal| !system::ignored(*signal)).fold(Signals::NONE, Signals::with);
        Held { held, before: system::hold(&held) }
    }

    /// An error where a signal has come: the caller stops and cleans up, and the signal acts when this is dropped.
    pub fn go_on(&self) -> io::Result<()> {
        match system::has_come(&self.held) {
            true => Err(io::Error::other("ended by a signal")),
            false => Ok(()),
        }
    }
}

impl Drop for Held {
    fn drop(&mut self) {
        system::release(&self.before);
    }
}
