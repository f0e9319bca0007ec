//! A file that is written aside, and then put in its place in one step.
use super::attributes::{self, Attributes};
use super::lock::{self, Share};
use super::names::{shown, Home};
use super::signals::Held;
use super::system;
use std::fs::{self, File, OpenOptions};
use std::io::{self, ErrorKind, Write};
use std::os::unix::fs::{MetadataExt, OpenOptionsExt};
use std::path::{Path, PathBuf};
use std::thread;
use std::time::{Duration, Instant};

/// A file is written in pieces of this length, and a signal is looked for after each.
const PIECE: usize = 1 << 20;

/// How long a name that another process uses is waited for.
const PATIENCE: Duration = Duration::from_secs(10);

/// What a file is to hold.
#[derive(Clone, Copy)]
pub enum Fill<'a> {
    Bytes(&'a [u8]),
    Zeros(u64),
}

impl Fill<'_> {
    /// The length of the file.
    pub fn length(self) -> u64 {
        match self {
            Fill::Bytes(bytes) => bytes.len() as u64,
            Fill::Zeros(length) => length,
        }
    }
}

/// A whole file, flushed to the disk and locked, that is not in its place yet. If it has a name, the name goes when
/// this is dropped.
pub struct Aside<'a> {
    file: File,
    name: PathBuf,
    named: bool,
    fill: Fill<'a>,
    attributes: Attributes<'a>,
}

impl<'a> Aside<'a> {
    /// Writes a file without a name, or with the one of this part where the system has none without.
    pub fn write(
        home: &Home,
        part: usize,
        fill: Fill<'a>,
        attributes: Attributes<'a>,
        held: &Held,
    ) -> Result<Aside<'a>, String> {
        let name = home.part(part);
        let aside = match system::unnamed(&home.folder, attributes.mode()) {
            Ok(file) => Aside { file, name, named: false, fill, attributes },
            Err(_) => Aside { file: claim(&name, attributes.mode(), held)?, name, named: true, fill, attributes },
        };
        aside.fill(held)?;
        Ok(aside)
    }

    fn fill(&self, held: &Held) -> Result<(), String> {
        let written = match self.fill {
            Fill::Zeros(length) => self.file.set_len(length),
            Fill::Bytes(bytes) => {
                bytes.chunks(PIECE).try_for_each(|piece| held.go_on().and_then(|()| (&self.file).write_all(piece)))
            }
        };
        written.map_err(|error| error.to_string())?;
        if let Attributes::Kept(keep) = self.attributes {
            attributes::keep(&self.file, keep)?;
        }
        self.file.sync_all().and_then(|()| held.go_on()).map_err(|error| error.to_string())?;
        match lock::try_take(&self.file, Share::Nobody) {
            Ok(true) => Ok(()),
            Ok(false) => Err(format!("{} is in use by another process", shown(&self.name))),
            Err(error) => Err(format!("it cannot be locked: {error}")),
        }
    }

    /// Gives the file the name of its part.
    pub fn give_name(&mut self, held: &Held) -> Result<(), String> {
        while !self.named {
            match self.has(&self.name, system::give_name(&self.file, &self.name)) {
                Ok(()) => self.named = true,
                Err(error) if error.kind() == ErrorKind::AlreadyExists => free(&self.name, held)?,
                Err(_) => self.write_again(held)?,
            }
        }
        Ok(())
    }

    /// Writes the file once more, with the name of its part from the start.
    fn write_again(&mut self, held: &Held) -> Result<(), String> {
        self.file = claim(&self.name, self.attributes.mode(), held)?;
        self.named = true;
        self.fill(held)
    }

    /// Renames the file, which has the name of its part, over the target.
    pub fn rename(&mut self, target: &Path) -> Result<(), String> {
        let renamed = system::repeat(|| fs::rename(&self.name, target));
        self.has(target, renamed).map_err(|error| rename_failed(&error))?;
        self.leave();
        Ok(())
    }

    /// The answer of a call that gives the file a name. One that failed may have done so all the same, as over a
    /// network.
    fn has(&self, name: &Path, answer: io::Result<()>) -> io::Result<()> {
        answer.or_else(|error| match leads_to(name, &self.file) {
            Ok(true) => Ok(()),
            _ => Err(error),
        })
    }

    /// Gives the file a name that must not be taken. Says false where it is.
    pub fn make(&mut self, target: &Path, held: &Held) -> Result<bool, String> {
        if !self.named {
            match self.has(target, system::give_name(&self.file, target)) {
                Ok(()) => return Ok(true),
                Err(error) if error.kind() == ErrorKind::AlreadyExists => return Ok(false),
                Err(_) => self.write_again(held)?,
            }
        }
        match self.has(target, system::rename_to_free(&self.name, target)) {
            Ok(()) => {
                self.leave();
                Ok(true)
            }
            Err(error) if error.kind() == ErrorKind::AlreadyExists => Ok(false),
            // A file system that cannot do so.
            Err(_) => match self.has(target, system::repeat(|| fs::hard_link(&self.name, target))) {
                Ok(()) => {
                    self.remove_name();
                    Ok(true)
                }
                Err(error) if error.kind() == ErrorKind::AlreadyExists => Ok(false),
                Err(error) => Err(error.to_string()),
            },
        }
    }

    /// From now on the name stays.
    pub fn leave(&mut self) {
        self.named = false;
    }

    /// The file itself, which is locked as long as this is there.
    pub fn file(&self) -> &File {
        &self.file
    }

    /// Takes the name away. Where that fails, the next holder of the deal's lock does.
    fn remove_name(&mut self) {
        if self.named {
            let _ = system::repeat(|| fs::remove_file(&self.name));
            self.named = false;
        }
    }
}

impl Drop for Aside<'_> {
    fn drop(&mut self) {
        self.remove_name();
    }
}

/// Why a rename failed.
fn rename_failed(error: &io::Error) -> String {
    match error.raw_os_error() {
        Some(system::EBUSY | system::EXDEV) => {
            format!("{error} (a file that is mounted by itself cannot be replaced: mount its folder)")
        }
        _ => error.to_string(),
    }
}

/// Why a folder cannot be written.
fn folder_failed(name: &Path, error: &io::Error) -> String {
    let folder = shown(Home::of(name).folder);
    match (error.kind(), error.raw_os_error()) {
        (ErrorKind::PermissionDenied, _) => format!("no file may be made in the folder {folder}: {error}"),
        (_, Some(system::EROFS)) => format!("the folder {folder} is read-only: {error}"),
        _ => error.to_string(),
    }
}

/// Whether nothing has this name.
pub fn is_free(path: &Path) -> bool {
    fs::symlink_metadata(path).is_err_and(|error| error.kind() == ErrorKind::NotFound)
}

/// Whether something has this name.
pub fn is_there(path: &Path) -> Result<bool, String> {
    match fs::symlink_metadata(path) {
        Ok(_) => Ok(true),
        Err(error) if error.kind() == ErrorKind::NotFound => Ok(false),
        Err(error) => Err(error.to_string()),
    }
}

/// Makes a file with this name and locks it. A name that a dead process has left is taken over.
fn claim(name: &Path, mode: u32, held: &Held) -> Result<File, String> {
    loop {
        match OpenOptions::new().read(true).write(true).create_new(true).mode(mode).open(name) {
            Ok(file) => {
                // Another process may have taken the file for a dead one's before it was locked.
                let taken = lock::try_take(&file, Share::Nobody).and_then(|taken| Ok(taken && leads_to(name, &file)?));
                match taken {
                    Ok(true) => return Ok(file),
                    Ok(false) => {}
                    Err(error) => {
                        let _ = system::repeat(|| fs::remove_file(name));
                        return Err(error.to_string());
                    }
                }
            }
            Err(error) if error.kind() == ErrorKind::AlreadyExists => free(name, held)?,
            Err(error) => return Err(folder_failed(name, &error)),
        }
    }
}

/// Whether a name leads to an open file.
pub fn leads_to(name: &Path, file: &File) -> io::Result<bool> {
    let open = file.metadata()?;
    match fs::symlink_metadata(name) {
        Err(error) if error.kind() == ErrorKind::NotFound => Ok(false),
        named => named.map(|named| (named.dev(), named.ino()) == (open.dev(), open.ino())),
    }
}

/// Frees a name: at once where the process that made it is dead, otherwise when it has ended.
fn free(name: &Path, held: &Held) -> Result<(), String> {
    let began = Instant::now();
    while !remove_dead(name)? {
        held.go_on().map_err(|error| error.to_string())?;
        if began.elapsed() > PATIENCE {
            return Err(format!("{} is in use by another process", shown(name)));
        }
        thread::sleep(Duration::from_millis(5));
    }
    Ok(())
}

/// Removes a name that a dead process has left to a file that the caller holds locked.
pub fn remove_second_name(name: &Path, file: &File) -> Result<(), String> {
    match leads_to(name, file).and_then(|second| if second { system::repeat(|| fs::remove_file(name)) } else { Ok(()) })
    {
        Ok(()) => Ok(()),
        Err(error) => Err(format!("{} is in the way and cannot be removed: {error}", shown(name))),
    }
}

/// Removes a file that a dead process has left: one that nobody holds locked. Says whether the name is free now.
pub fn remove_dead(name: &Path) -> Result<bool, String> {
    let in_the_way = |error: io::Error| format!("{} is in the way and cannot be removed: {error}", shown(name));
    let file = match File::open(name) {
        Err(error) if error.kind() == ErrorKind::NotFound => return Ok(is_free(name)),
        file => file.map_err(in_the_way)?,
    };
    // With its lock held, nobody else takes the name away, so that what is removed is this file.
    if !lock::try_take(&file, Share::Nobody).map_err(in_the_way)? || !leads_to(name, &file).map_err(in_the_way)? {
        return Ok(false);
    }
    system::repeat(|| fs::remove_file(name)).map(|()| true).map_err(in_the_way)
}
