//! Standard output and standard error.
use super::failure::{self, Failure};
use super::store::system;
use std::io::{self, IsTerminal, Write};

/// A failure where standard output was closed when the program began.
pub fn open() -> Result<(), Failure> {
    match system::output_closed() {
        true => Err(failure::io("standard output is closed; nothing is done")),
        false => Ok(()),
    }
}

/// Whether a person reads standard output.
pub fn is_terminal() -> bool {
    io::stdout().is_terminal()
}

/// Writes to standard output. A reader that has gone away is a failure like any other.
pub fn write(bytes: &[u8]) -> Result<(), Failure> {
    let mut out = io::stdout().lock();
    let written = out.write_all(bytes).and_then(|()| out.flush());
    written.map_err(|error| failure::io(format!("cannot write to standard output: {error}")))
}

/// Writes a line to standard error, in one piece. Where that fails there is nowhere left to say so.
pub fn message(text: &str) {
    let _ = io::stderr().write_all(format!("vizhuthamen: {text}\n").as_bytes());
}
