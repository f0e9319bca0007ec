//! Files put in their places: one by a rename, several together or not at all, and with them lines added to a log.
use super::aside::{self, Aside, Fill};
use super::attributes::{Attributes, Keep};
use super::journal::Journal;
use super::log::{self, LogFile};
use super::names::{near, shown, Home, MOST_PARTS};
use super::signals::Held;
use super::system;
use crate::cli::failure::{self, Failure};
use std::ffi::OsStr;
use std::fs::{self, File};
use std::io::{self, ErrorKind, Read};
use std::os::unix::ffi::OsStrExt;
use std::os::unix::fs::MetadataExt;
use std::path::{Path, PathBuf};

/// One file of a change: where it goes, its bytes, and the file whose owner and permissions it takes over.
pub struct Part<'a> {
    pub target: PathBuf,
    pub bytes: &'a [u8],
    pub keep: Option<Keep<'a>>,
}

/// A change that could not be made as it should.
#[derive(Debug)]
pub enum Trouble {
    /// Nothing is changed.
    Nothing(String),
    /// The change is made, or will be ended by the next call on the deal.
    Made(String),
}

/// Puts files in their places; they are all in the folder of the home, whose names are used in between. `still` is
/// asked last of all before the change, and can stop it. The caller holds the lock of the deal, or the change is one
/// file.
pub fn put(home: &Home, parts: &[Part], still: impl Fn() -> Result<(), String>) -> Result<(), Trouble> {
    put_logged(home, parts, None, still)
}

/// The same, and with them adds lines to a log: all of it or nothing.
pub fn put_logged(
    home: &Home,
    parts: &[Part],
    log: Option<&mut LogFile>,
    still: impl Fn() -> Result<(), String>,
) -> Result<(), Trouble> {
    assert!(parts.len() <= MOST_PARTS);
    // Dropped after the files aside: a signal acts when their names are gone.
    let held = Held::start();
    let mut asides = vec![];
    for (number, part) in parts.iter().enumerate() {
        let attributes = Attributes::of(part.keep.as_ref());
        let written = Aside::write(home, number, Fill::Bytes(part.bytes), attributes, &held);
        asides.push(written.map_err(Trouble::Nothing)?);
    }
    for aside in &mut asides {
        aside.give_name(&held).map_err(Trouble::Nothing)?;
    }
    match (asides.as_mut_slice(), parts, log) {
        ([aside], [part], None) => {
            still().and_then(|()| aside.rename(&part.target)).map_err(Trouble::Nothing)?;
            flush(&home.folder).map_err(|error| Trouble::Made(not_flushed(&home.folder, &error)))
        }
        (asides, _, log) => Together { home, parts, asides, log }.put(still, &held),
    }
}

/// Several files that are put in their places, and lines that are added to a log, with a journal from before the first
/// of it to after the last.
struct Together<'c, 'a> {
    home: &'c Home,
    parts: &'c [Part<'a>],
    asides: &'c mut [Aside<'a>],
    log: Option<&'c mut LogFile>,
}

impl Together<'_, '_> {
    fn put(mut self, still: impl Fn() -> Result<(), String>, held: &Held) -> Result<(), Trouble> {
        let folder = &self.home.folder;
        let not_flushed = |error: io::Error| not_flushed(folder, &error);
        let journal = Journal::of(self.home, self.parts, self.log.as_deref());
        let text = journal.text();
        let mut aside = Aside::write(self.home, MOST_PARTS, Fill::Bytes(text.as_bytes()), Attributes::NEW, held)
            .map_err(Trouble::Nothing)?;
        flush(folder).map_err(not_flushed).map_err(Trouble::Nothing)?;
        let unchanged = || self.log.as_ref().map_or(Ok(()), |log| log.unchanged());
        still().and_then(|()| unchanged()).map_err(Trouble::Nothing)?;
        // With the journal in place the change is made, whoever ends it; before the first rename it can still be taken
        // back.
        if !aside.make(&self.home.journal(), held).map_err(Trouble::Nothing)? {
            return Err(Trouble::Nothing(format!("{} is in the way", near(self.home.journal()))));
        }
        let begun = flush(folder).map_err(not_flushed).and_then(|()| self.begin());
        begun.map_err(|why| self.taken_back(&why))?;
        let ended = renamed(self.home, &journal).and_then(|()| closed(self.home));
        ended.map_err(|error| self.left_to_the_next(&unfinished(self.home, &error)))?;
        self.asides.iter_mut().for_each(Aside::leave);
        Ok(())
    }

    /// Adds the lines to the log, which may need room on a disk, and puts the first file in its place.
    fn begin(&mut self) -> Result<(), String> {
        self.log.as_mut().map_or(Ok(()), |log| log.add())?;
        self.asides.first_mut().map_or(Ok(()), |aside| aside.rename(&self.parts[0].target))
    }

    /// Takes back what was begun, and the journal last.
    fn taken_back(&mut self, why: &str) -> Trouble {
        let log = self.log.as_mut().map_or(Ok(()), |log| log.take_back());
        match log.and_then(|()| system::repeat(|| fs::remove_file(self.home.journal()))) {
            Ok(()) => {
                let _ = flush(&self.home.folder);
                Trouble::Nothing(why.to_string())
            }
            Err(_) => self.left_to_the_next(why),
        }
    }

    /// The names of the files stay, since the journal names them.
    fn left_to_the_next(&mut self, why: &str) -> Trouble {
        self.asides.iter_mut().for_each(Aside::leave);
        Trouble::Made(format!("{why}; the next call on it ends the change"))
    }
}

/// Ends a change whose journal is in place. Says whether there was one. The caller holds the lock of the deal; that of
/// a log is waited for unless that is not wanted.
pub fn end(home: &Home, wait: bool) -> Result<bool, Failure> {
    let path = home.journal();
    let failed = |error: io::Error| failure::io(unfinished(home, &error));
    let (mut text, mut file) = match File::open(&path) {
        Err(error) if error.kind() == ErrorKind::NotFound => return Ok(false),
        file => (vec![], file.map_err(failed)?),
    };
    file.read_to_end(&mut text).map_err(failed)?;
    let writer = file.metadata().map_err(failed)?.uid();
    let journal =
        Journal::parse(&text).ok_or_else(|| failure::io(format!("{} is no journal of this program", near(&path))))?;
    if let Some(growth) = &journal.log {
        log::end(growth, home, writer, wait)?;
    }
    renamed(home, &journal).and_then(|()| closed(home)).map_err(failed).map(|()| true)
}

/// Puts the files of a journal in their places, those that are not there yet.
fn renamed(home: &Home, journal: &Journal) -> io::Result<()> {
    for (number, name) in &journal.parts {
        let target = home.folder.join(OsStr::from_bytes(name));
        match system::repeat(|| fs::rename(home.part(*number), &target)) {
            Err(error) if error.kind() != ErrorKind::NotFound => return Err(error),
            _ => {}
        }
    }
    flush(&home.folder)
}

/// Removes the journal of a change that has ended.
fn closed(home: &Home) -> io::Result<()> {
    system::repeat(|| fs::remove_file(home.journal()))?;
    flush(&home.folder)
}

fn unfinished(home: &Home, error: &io::Error) -> String {
    format!("an unfinished change of it cannot be ended ({}): {error}", near(home.journal()))
}

/// Removes what dead processes have left beside a deal. The caller holds its lock, and has ended what a journal says.
pub fn clear(home: &Home, deal: &File) -> Result<(), String> {
    let left = (0..=MOST_PARTS).map(|number| home.part(number)).filter(|name| !aside::is_free(name));
    for name in left {
        aside::remove_second_name(&name, deal)?;
        aside::remove_dead(&name)?;
    }
    Ok(())
}

/// Flushes a folder to the disk, so that names last. A file system that cannot do so is left to itself.
pub fn flush(folder: &Path) -> io::Result<()> {
    match File::open(folder).and_then(|folder| folder.sync_all()) {
        Err(error) if matches!(error.raw_os_error(), Some(system::EINVAL | system::EOPNOTSUPP)) => Ok(()),
        // A folder that may be written and not read cannot be flushed.
        Err(error) if error.kind() == ErrorKind::PermissionDenied => Ok(()),
        result => result,
    }
}

fn not_flushed(folder: &Path, error: &io::Error) -> String {
    format!("the folder {} could not be flushed to the disk: {error}", shown(folder))
}
