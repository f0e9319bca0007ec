//! The plain files that are to be packed: those that are named, and those of the folders that are named.
use super::failure::{self, Failure};
use super::files;
use super::json::Json;
use super::manifest::Name;
use super::store::names::{shown, Home};
use std::fs::{self, FileType, Metadata};
use std::os::unix::ffi::OsStrExt;
use std::path::{Path, PathBuf};

/// A plain file: its name, where it lies, and its length.
#[derive(Debug)]
pub struct Found {
    pub name: Name,
    pub path: PathBuf,
    pub length: u64,
}

/// What lies in a folder and is not packed.
#[derive(Debug)]
pub struct Skipped {
    pub name: Name,
    pub why: &'static str,
}

impl Skipped {
    /// For JSON.
    pub fn members(&self) -> Json {
        Json::Object(vec![("name", self.name.json()), ("why", Json::Text(self.why.to_string()))])
    }
}

/// What there is to pack, and what is not packed.
#[derive(Debug, Default)]
pub struct Gathered {
    pub files: Vec<Found>,
    pub skipped: Vec<Skipped>,
}

/// What lies in a folder and is left out: the deal, what belongs to it, the folder of records and the log.
pub struct LeftOut {
    pub home: Home,
    pub others: Vec<PathBuf>,
}

impl LeftOut {
    /// A deal at a path, which may not be there yet, and a folder of records and a log, which may not be there either.
    pub fn of(deal: &Path, records: Option<&Path>, log: Option<&Path>) -> LeftOut {
        LeftOut { home: Home::of(&real(deal)), others: records.into_iter().chain(log).map(real).collect() }
    }

    fn has(&self, path: &Path) -> bool {
        self.home.owns(path) || self.others.iter().any(|other| other == path)
    }
}

/// Where a path leads to; of one that leads nowhere yet, where its folder does.
fn real(path: &Path) -> PathBuf {
    fs::canonicalize(path).unwrap_or_else(|_| {
        let home = Home::of(path);
        let folder = fs::canonicalize(&home.folder).unwrap_or(home.folder);
        folder.join(path.file_name().unwrap_or_default())
    })
}

/// Gathers the files that words name, links among the words followed. A file has its own name, one of a folder its path
/// below that.
pub fn gather(words: &[PathBuf], left_out: &LeftOut) -> Result<Gathered, Failure> {
    let mut gathered = Gathered::default();
    for word in words {
        let path = fs::canonicalize(word).map_err(|error| files::cannot("read", &shown(word), error))?;
        let metadata = fs::metadata(&path).map_err(|error| files::cannot("read", &shown(word), error))?;
        match metadata.is_dir() {
            true => gathered.folder(&path, &[], left_out)?,
            false => gathered.files.push(named(word, path, &metadata, left_out)?),
        }
    }
    Ok(gathered)
}

/// A file that is named by itself, and so must be one that can be packed.
fn named(word: &Path, path: PathBuf, metadata: &Metadata, left_out: &LeftOut) -> Result<Found, Failure> {
    let why = match unfit(metadata.file_type(), metadata.len()) {
        _ if left_out.has(&path) => "it is the deal, or belongs to it",
        Some(why) => why,
        None => {
            let name = Name(word.file_name().unwrap_or_default().as_bytes().to_vec());
            return Ok(Found { name, path, length: metadata.len() });
        }
    };
    Err(failure::usage(format!("{} cannot be packed: {why}; nothing is done", shown(word))))
}

/// Why a file of a kind and a length cannot be packed.
fn unfit(kind: FileType, length: u64) -> Option<&'static str> {
    match () {
        _ if kind.is_symlink() => Some("it is a symbolic link"),
        _ if !kind.is_file() => Some("it is not a regular file"),
        _ if length == 0 => Some("it is empty, and no deal keeps an empty file"),
        _ => None,
    }
}

impl Gathered {
    /// The files of a folder and of all folders in it, by name. Links are not followed.
    fn folder(&mut self, folder: &Path, below: &[u8], left_out: &LeftOut) -> Result<(), Failure> {
        let failed = |error| files::cannot("read", &shown(folder), error);
        let entries = fs::read_dir(folder).map_err(failed)?;
        let mut entries = entries.collect::<Result<Vec<_>, _>>().map_err(failed)?;
        entries.sort_by_key(|entry| entry.file_name());
        for entry in entries {
            let path = entry.path();
            let metadata = fs::symlink_metadata(&path).map_err(|error| files::cannot("read", &shown(&path), error))?;
            let name = [below, entry.file_name().as_bytes()].concat();
            match unfit(metadata.file_type(), metadata.len()) {
                _ if left_out.has(&path) => {
                    self.skipped.push(Skipped { name: Name(name), why: "it is the deal, or belongs to it" });
                }
                _ if metadata.is_dir() => self.folder(&path, &[&name[..], b"/"].concat(), left_out)?,
                Some(why) => self.skipped.push(Skipped { name: Name(name), why }),
                None => self.files.push(Found { name: Name(name), path, length: metadata.len() }),
            }
        }
        Ok(())
    }
}
