//! The file of a deal: read and changed under its lock.
use super::aside::{is_there, leads_to};
use super::attributes::Keep;
use super::change::{self, Part, Trouble};
use super::lock::{self, Share};
use super::log::LogFile;
use super::names::{near, shown, Home};
use super::owners::{with_one_name, NewTable, OwnerTable};
use super::sidecar::{self, Known};
use crate::cli::failure::{self, Failure};
use crate::cli::files::{self, Content};
use std::fs::{self, File, OpenOptions};
use std::io::ErrorKind;
use std::os::unix::fs::MetadataExt;
use std::path::{Path, PathBuf};
use vizhuthamen::Node;

/// How a deal is opened for a change.
#[derive(Clone, Copy, Debug, PartialEq, Eq)]
pub struct Access {
    /// Whether to wait where another process works on the deal.
    pub wait: bool,
    /// Whether the deal may belong to the caller afterwards, where its owner cannot be kept.
    pub new_owner: bool,
}

/// A deal under its lock, which ends when this is dropped.
pub struct DealFile {
    /// The deal as it was read.
    pub content: Content,
    file: File,
    path: PathBuf,
    home: Home,
    access: Access,
    /// What is known of it, and what will be known once it is replaced.
    known: Option<Known>,
    next: Known,
}

impl DealFile {
    /// Opens a deal for a change: nobody else changes it as long as this is there. It must be a regular file with one
    /// name that the caller may write, and have the size that is known of it.
    pub fn open(given: &Path, access: Access) -> Result<DealFile, Failure> {
        let deal = DealFile::lock(given, access, Share::Nobody)?;
        let cannot = |error| failure::io(format!("cannot clean up beside {}: {error}", shown(given)));
        change::clear(&deal.home, &deal.file).map_err(cannot)?;
        if deal.file.metadata().is_ok_and(|metadata| metadata.nlink() > 1) {
            return Err(failure::io(format!(
                "cannot replace {}: it has several names (hard links), which would no longer be one file",
                shown(given)
            ))
            .hint("remove the others, or make them symbolic links"));
        }
        let known = sidecar::known(&deal.path, deal.content.length())?;
        let next = known.clone().unwrap_or(deal.next);
        Ok(DealFile { known, next, ..deal })
    }

    /// Opens a deal for reading it together with what lies beside it: nobody changes it as long as this is there.
    pub fn open_to_read(given: &Path, wait: bool) -> Result<DealFile, Failure> {
        DealFile::lock(given, Access { wait, new_owner: false }, Share::Readers)
    }

    /// Locks the file that the name leads to, ends a change that a dead process has left, and reads.
    fn lock(given: &Path, access: Access, share: Share) -> Result<DealFile, Failure> {
        loop {
            if let Some(deal) = DealFile::try_lock(given, access, share)? {
                return Ok(deal);
            }
        }
    }

    /// One turn of that. Nothing where the deal was replaced or a change of it was ended in the meantime.
    fn try_lock(given: &Path, access: Access, share: Share) -> Result<Option<DealFile>, Failure> {
        let name = shown(given);
        let path = fs::canonicalize(given).map_err(|error| files::cannot("read", &name, error))?;
        let metadata = fs::metadata(&path).map_err(|error| files::cannot("read", &name, error))?;
        if !metadata.is_file() {
            return Err(failure::io(format!("cannot lock {name}: it is not a regular file")));
        }
        let home = Home::of(&path);
        let writes = share == Share::Nobody;
        let opened = OpenOptions::new().read(true).write(writes).open(&path);
        let action = if writes { "open for reading and writing" } else { "read" };
        let file = opened.map_err(|error| files::cannot(action, &name, error))?;
        lock::take(&file, share, access.wait, given)?;
        if !leads_to(&path, &file).map_err(|error| files::cannot("read", &name, error))? {
            return Ok(None);
        }
        if !writes && home.journal().exists() {
            // Nobody makes a change now: a dead process has left this one. A writer ends it, and the reader begins
            // anew.
            drop(file);
            return DealFile::try_lock(given, access, Share::Nobody).map(|_| None);
        }
        let named = |failure: Failure| Failure { message: format!("{name}: {}", failure.message), ..failure };
        if writes && change::end(&home, access.wait).map_err(named)? {
            return Ok(None);
        }
        let content = files::read_open(&file, name)?;
        let next = Known::new(content.length(), None);
        Ok(Some(DealFile { content, file, path, home, access, known: None, next }))
    }

    /// An error where the deal is not the file that was read any more, or not as it was read: other hands were at it.
    fn unchanged(&self) -> Result<(), String> {
        let metadata = self.file.metadata().map_err(|error| error.to_string())?;
        let read = self.content.metadata.as_ref().ok_or("its attributes were not read")?;
        let time = |metadata: &fs::Metadata| (metadata.len(), metadata.mtime(), metadata.mtime_nsec());
        let current = leads_to(&self.path, &self.file).map_err(|error| error.to_string())?;
        match current && time(&metadata) == time(read) {
            true => Ok(()),
            false => Err("another program has changed or replaced it in the meantime".to_string()),
        }
    }

    /// Puts a new deal in the place of the old one, with its owner and permissions, together with a table of its
    /// owners and with other files beside it: all of them or none. What is known of the deal is put beside it where
    /// nothing is.
    pub fn replace(&self, bytes: &[u8], table: Option<&NewTable>, others: Vec<Part>) -> Result<(), Failure> {
        self.replace_logged(bytes, table, others, None)
    }

    /// The same together with the lines that a log gets.
    pub fn replace_logged(
        &self,
        bytes: &[u8],
        table: Option<&NewTable>,
        others: Vec<Part>,
        log: Option<&mut LogFile>,
    ) -> Result<(), Failure> {
        let keep = Keep { old: &self.file, new_owner: self.access.new_owner };
        let mut parts = vec![Part { target: self.path.clone(), bytes, keep: Some(keep) }];
        let replaced = table.map(NewTable::replaced).transpose()?.flatten();
        parts.extend(table.map(|table| self.table_part(table, replaced.as_ref())));
        let old = self.old_sidecar(&self.next)?;
        if self.changes() {
            parts.push(self.beside(&self.next, old.as_ref().unwrap_or(&self.file)));
        }
        parts.extend(others);
        let still = || self.unchanged().and_then(|()| table.map_or(Ok(()), |table| table.unchanged(&self.home)));
        change::put_logged(&self.home, &parts, log, still).map_err(|trouble| troubled(trouble, &self.content.name))
    }

    /// Adds lines to a log, for a call that changes nothing of the deal.
    pub fn log(&self, log: &mut LogFile) -> Result<(), Failure> {
        let (deal, name) = (&self.content.name, log.name.clone());
        change::put_logged(&self.home, &[], Some(log), || self.unchanged()).map_err(|trouble| {
            failure::io(match trouble {
                Trouble::Nothing(why) => format!("{deal}: {why}; nothing is changed"),
                Trouble::Made(why) => format!("{deal}: {name} has the line, but {why}"),
            })
        })
    }

    /// Puts a table of owners beside the deal, which stays.
    pub fn put_table(&self, table: &NewTable) -> Result<(), Failure> {
        let replaced = table.replaced()?;
        let part = self.table_part(table, replaced.as_ref());
        let still = || self.unchanged().and_then(|()| table.unchanged(&self.home));
        change::put(&self.home, &[part], still).map_err(|trouble| troubled(trouble, &near(self.home.table())))
    }

    /// The table of the deal's owners, if there is one.
    pub fn table(&self) -> Result<Option<OwnerTable>, Failure> {
        OwnerTable::read(&self.home)
    }

    /// The part that puts a table beside the deal, with the permissions of the one that it replaces, or of the deal.
    fn table_part<'a>(&'a self, table: &'a NewTable, replaced: Option<&'a File>) -> Part<'a> {
        let keep = Keep { old: replaced.unwrap_or(&self.file), new_owner: true };
        Part { target: self.home.table(), bytes: &table.bytes, keep: Some(keep) }
    }

    /// The file that says what is known, where it is there and is to be replaced.
    fn old_sidecar(&self, next: &Known) -> Result<Option<File>, Failure> {
        match self.known.as_ref() {
            Some(known) if known != next => replaced(&self.home.sidecar()).map(Some),
            _ => Ok(None),
        }
    }

    /// Keeps a number beside the deal, in the place of the one that is there.
    pub fn keep_number(&self, number: u64) -> Result<(), Failure> {
        self.keep_known(&self.next.with_number(number))
    }

    /// Keeps beside the deal that it is closed with a commitment.
    pub fn keep_closed(&self, commitment: Node) -> Result<(), Failure> {
        self.keep_known(&self.next.with_closed(Some(commitment)))
    }

    /// Replaces the file that says what is known of the deal, and nothing else.
    fn keep_known(&self, next: &Known) -> Result<(), Failure> {
        let old = self.old_sidecar(next)?;
        let part = self.beside(next, old.as_ref().unwrap_or(&self.file));
        let name = near(self.home.sidecar());
        change::put(&self.home, &[part], || self.unchanged()).map_err(|trouble| troubled(trouble, &name))
    }

    /// The number will be kept once the deal is replaced.
    pub fn number_will_be(&mut self, number: u64) {
        self.next = self.next.with_number(number);
    }

    /// Whether something else will be known once the deal is replaced.
    pub fn changes(&self) -> bool {
        self.known.as_ref() != Some(&self.next)
    }

    /// Refuses a change of a deal that is closed, unless it is to be open again once it is replaced.
    pub fn open_or(&mut self, reopen: bool) -> Result<(), Failure> {
        match self.closed() {
            Some(node) if !reopen => Err(failure::data(format!(
                "{} is closed: records and proofs are built for its commitment {node}, and any change of the deal \
                 would make all of them belong to an older one; nothing is changed",
                self.content.name
            ))
            .hint(
                "put what is new into another deal, or give --reopen, and build all records and proofs anew afterwards",
            )),
            Some(_) => {
                self.next = self.next.with_closed(None);
                Ok(())
            }
            None => Ok(()),
        }
    }

    /// The commitment with which the deal, which was opened for a change, was closed.
    pub fn closed(&self) -> Option<Node> {
        self.known.as_ref()?.closed
    }

    /// The part that puts a manifest beside the deal. Whoever may read the deal may read it.
    pub fn manifest<'a>(&'a self, text: &'a str) -> Result<Part<'a>, Failure> {
        let target = self.home.manifest();
        if is_there(&target).map_err(failure::io)? {
            with_one_name(&target)?;
        }
        Ok(Part { target, bytes: text.as_bytes(), keep: Some(Keep { old: &self.file, new_owner: true }) })
    }

    /// The number that is kept of the deal, which was opened for a change.
    pub fn number(&self) -> Option<u64> {
        self.known.as_ref()?.number
    }

    /// The part that puts beside the deal what is known of it. Whoever may read the old file may read this one, though
    /// its owner may be another.
    fn beside<'a>(&self, known: &'a Known, old: &'a File) -> Part<'a> {
        let keep = Keep { old, new_owner: true };
        Part { target: self.home.sidecar(), bytes: known.text().as_bytes(), keep: Some(keep) }
    }

    /// The part that makes a copy of the deal as it was read, beside it: its target is a name that nothing has. None
    /// where there is such a copy already.
    pub fn copy(&self) -> Result<(PathBuf, Option<Part<'_>>), Failure> {
        for number in 0.. {
            let target = self.home.copy(number);
            match fs::read(&target) {
                Ok(bytes) if bytes == self.content.bytes => return Ok((target, None)),
                Ok(_) => {}
                Err(error) if error.kind() == ErrorKind::NotFound => {
                    let keep = Keep { old: &self.file, new_owner: true };
                    let part = Part { target: target.clone(), bytes: &self.content.bytes, keep: Some(keep) };
                    return Ok((target, Some(part)));
                }
                Err(error) => return Err(files::cannot("read", &shown(&target), error)),
            }
        }
        unreachable!("some number is free");
    }

    /// Where the deal lies.
    pub fn path(&self) -> &Path {
        &self.path
    }

    /// How it was opened.
    pub fn access(&self) -> Access {
        self.access
    }

    /// The names beside the deal.
    pub fn home(&self) -> &Home {
        &self.home
    }
}

/// Opens a file that is to be replaced: a regular one with one name.
fn replaced(path: &Path) -> Result<File, Failure> {
    with_one_name(path)?;
    File::open(path).map_err(|error| files::cannot("replace", &shown(path), error))
}

/// The failure of a change, in which it says whether anything is changed.
pub fn troubled(trouble: Trouble, name: &str) -> Failure {
    failure::io(match trouble {
        Trouble::Nothing(why) => format!("cannot write {name}: {why}; nothing is changed"),
        Trouble::Made(why) => format!("{name} is written, but {why}"),
    })
}
