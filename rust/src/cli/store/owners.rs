//! The table of a deal's owners: the file `DEAL.owners` beside it, of one byte a slot, exactly the table that the
//! library is lent. It is changed under the deal's lock, together with the deal or alone, and never in place.
use super::names::{near, Home};
use crate::cli::failure::{self, Failure};
use crate::cli::files;
use std::fs::{self, File, Metadata, OpenOptions};
use std::io::{ErrorKind, Read};
use std::os::unix::fs::MetadataExt;
use std::path::{Path, PathBuf};
use vizhuthamen::MAX_TABLE;

/// A table that lies beside a deal, as it was read.
#[derive(Debug)]
pub struct OwnerTable {
    /// Its bytes; of a file that is longer than any table the first ones, one more than a table can have.
    pub bytes: Vec<u8>,
    path: PathBuf,
    metadata: Metadata,
}

/// What tells a file, and each of its states, from every other.
pub type Identity = (u64, u64, u64, i64, i64);

/// The identity of the file that a name leads to, if there is one.
pub fn identity(path: &Path) -> Option<Identity> {
    fs::metadata(path).ok().as_ref().map(identity_of)
}

/// Whether a name leads to an open file.
pub fn is_at(file: &File, path: &Path) -> bool {
    file.metadata().is_ok_and(|metadata| identity(path) == Some(identity_of(&metadata)))
}

fn identity_of(file: &Metadata) -> Identity {
    (file.dev(), file.ino(), file.len(), file.mtime(), file.mtime_nsec())
}

impl OwnerTable {
    /// The table beside a deal; none where there is no such file.
    pub fn read(home: &Home) -> Result<Option<OwnerTable>, Failure> {
        let path = home.table();
        let failed = |error| files::cannot("read", &near(&path), error);
        match fs::metadata(&path) {
            Err(error) if matches!(error.kind(), ErrorKind::NotFound | ErrorKind::InvalidFilename) => return Ok(None),
            Ok(metadata) if !metadata.is_file() => {
                return Err(failure::io(format!("cannot read {}: it is not a regular file", near(&path))));
            }
            metadata => metadata.map_err(failed)?,
        };
        let file = File::open(&path).map_err(failed)?;
        let metadata = file.metadata().map_err(failed)?;
        let mut bytes = vec![];
        file.take(MAX_TABLE as u64 + 1).read_to_end(&mut bytes).map_err(failed)?;
        Ok(Some(OwnerTable { bytes, path, metadata }))
    }

    /// The length of the file.
    pub fn length(&self) -> u64 {
        self.metadata.len().max(self.bytes.len() as u64)
    }

    /// Opens the file for being replaced: a regular one with one name that the caller may write.
    fn open(&self) -> Result<File, Failure> {
        let failed = |error| files::cannot("replace", &near(&self.path), error);
        with_one_name(&self.path)?;
        OpenOptions::new().read(true).write(true).open(&self.path).map_err(failed)
    }
}

/// Refuses to replace a link, or a file that has several names.
pub fn with_one_name(path: &Path) -> Result<(), Failure> {
    let metadata = fs::symlink_metadata(path).map_err(|error| files::cannot("replace", &near(path), error))?;
    match metadata.is_file() && metadata.nlink() == 1 {
        true => Ok(()),
        false => Err(failure::io(format!("cannot replace {}: it is a link, or has several names", near(path)))
            .hint("make it a file of its own first")),
    }
}

/// A table that is to lie beside a deal, and the one whose place it takes, if there is one.
#[derive(Debug)]
pub struct NewTable {
    pub old: Option<OwnerTable>,
    pub bytes: Vec<u8>,
}

impl NewTable {
    /// The file whose owner and permissions the new one takes over, where there is one.
    pub fn replaced(&self) -> Result<Option<File>, Failure> {
        self.old.as_ref().map(OwnerTable::open).transpose()
    }

    /// An error where the table is not as it was read any more: other hands were at it.
    pub fn unchanged(&self, home: &Home) -> Result<(), String> {
        match identity(&home.table()) == self.old.as_ref().map(|old| identity_of(&old.metadata)) {
            true => Ok(()),
            false => Err(format!("another program has changed {} in the meantime", near(home.table()))),
        }
    }
}
