//! Locks of files, which end with the process that holds them.
use super::names;
use crate::cli::failure::{self, Failure};
use crate::cli::output;
use std::fs::{File, TryLockError};
use std::io::ErrorKind;
use std::path::Path;
use std::sync::mpsc::{self, RecvTimeoutError};
use std::thread;
use std::time::Duration;

/// After this time of waiting a message says what is waited for.
const PATIENCE: Duration = Duration::from_secs(1);

/// Who may hold the lock at the same time: other readers, or nobody.
#[derive(Clone, Copy, Debug, PartialEq, Eq)]
pub enum Share {
    Readers,
    Nobody,
}

/// Locks a file, waiting for others to end unless that is not wanted.
pub fn take(file: &File, share: Share, wait: bool, path: &Path) -> Result<(), Failure> {
    let failed = |error| failure::io(format!("cannot lock {}: {error}", names::shown(path)));
    if try_take(file, share).map_err(failed)? {
        return Ok(());
    }
    if !wait {
        let name = names::shown(path);
        return Err(failure::busy(format!(
            "{name} is in use by another process, and --no-wait is given; nothing is changed"
        )));
    }
    let (taken, waits) = mpsc::channel::<()>();
    let text = format!("waiting for another process to end its work on {}", names::shown(path));
    let speaker = thread::spawn(move || {
        if waits.recv_timeout(PATIENCE) == Err(RecvTimeoutError::Timeout) {
            output::message(&text);
        }
    });
    let result = wait_for(file, share).map_err(failed);
    drop(taken);
    let _ = speaker.join();
    result
}

/// Locks a file where that needs no waiting; says whether it did.
pub fn try_take(file: &File, share: Share) -> std::io::Result<bool> {
    loop {
        let tried = match share {
            Share::Readers => file.try_lock_shared(),
            Share::Nobody => file.try_lock(),
        };
        match tried {
            Ok(()) => return Ok(true),
            Err(TryLockError::WouldBlock) => return Ok(false),
            Err(TryLockError::Error(error)) if error.kind() == ErrorKind::Interrupted => {}
            Err(TryLockError::Error(error)) => return Err(error),
        }
    }
}

/// Locks a file, however long others hold it.
pub fn wait_for(file: &File, share: Share) -> std::io::Result<()> {
    super::system::repeat(|| match share {
        Share::Readers => file.lock_shared(),
        Share::Nobody => file.lock(),
    })
}
