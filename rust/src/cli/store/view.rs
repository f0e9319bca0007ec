//! A deal together with what lies beside it, read without its lock.
use super::deal::DealFile;
use super::names::{shown, Home};
use super::owners::{identity, OwnerTable};
use super::sidecar::{self, Known};
use crate::cli::failure::{self, Failure};
use crate::cli::files::{self, Content};
use crate::cli::manifest::{self, Manifest};
use std::fs::{self, File};
use std::path::Path;

/// A deal, what is known of it, the table of its owners and its manifest, as all of them were at one moment.
pub struct View {
    pub content: Content,
    /// What is known of it, where that may be read.
    pub known: Option<Known>,
    /// The table, or why it cannot be read.
    pub table: Result<Option<OwnerTable>, Failure>,
    /// The manifest, true or not, or why it cannot be read.
    pub manifest: Result<Option<Manifest>, Failure>,
    /// The names beside the deal.
    pub home: Home,
}

/// Reads a deal that is a file, again for as long as others change it meanwhile.
pub fn view(given: &Path) -> Result<View, Failure> {
    loop {
        if let Some(view) = try_view(given)? {
            return Ok(view);
        }
    }
}

/// One turn of that. Nothing where a change came between.
fn try_view(given: &Path) -> Result<Option<View>, Failure> {
    let path = fs::canonicalize(given).map_err(|error| files::cannot("read", &shown(given), error))?;
    let home = Home::of(&path);
    if home.journal().exists() {
        // Whoever makes this change is waited for; one that a dead process has left is ended.
        DealFile::open_to_read(given, true)?;
        return Ok(None);
    }
    let names = [path.clone(), home.table(), home.sidecar(), home.manifest()];
    let seen = || names.each_ref().map(|name| identity(name));
    let before = seen();
    let file = File::open(&path).map_err(|error| files::cannot("read", &shown(given), error))?;
    let content = files::read_open(&file, shown(given))?;
    let known = sidecar::known(&path, content.length());
    let table = OwnerTable::read(&home);
    let manifest = manifest::read(&path);
    // First the journal, then the files: a change of which some files were read has ended where its journal is gone,
    // and then its last one of these files is another one than before.
    if home.journal().exists() || seen() != before {
        return Ok(None);
    }
    let known = match known {
        Err(failure) if failure.status == failure::DATA => return Err(failure),
        known => known.ok().flatten(),
    };
    Ok(Some(View { content, known, table, manifest, home }))
}
