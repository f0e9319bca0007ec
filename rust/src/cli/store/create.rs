//! A new deal: its file, the table of its owners, its manifest where it has one, and what is known of it.
//!
//! The table gets its name first, then the manifest, and the deal after them, so that no deal is there without them. A
//! table or a manifest that a dead process has left without a deal goes to the next deal of that name where it is the
//! same, and is refused where it is another.
use super::aside::{is_there, leads_to, Aside, Fill};
use super::attributes::Attributes;
use super::change::{self, Trouble};
use super::deal::troubled;
use super::lock::{self, Share};
use super::names::{near, shown, Home};
use super::owners::{self, OwnerTable};
use super::sidecar::{self, Known};
use super::signals::Held;
use super::system;
use crate::cli::failure::{self, Failure};
use crate::cli::files;
use std::fs::{self, File};
use std::io::ErrorKind;
use std::path::Path;
use std::thread;
use std::time::{Duration, Instant};

/// How long another process that makes a deal of the same name is waited for.
const PATIENCE: Duration = Duration::from_secs(10);

/// A deal that is to be made: its bytes, the table of its owners unless they are not known, its manifest if it has one,
/// and its number where it is known.
pub struct NewDeal<'a> {
    pub fill: Fill<'a>,
    pub table: Option<&'a [u8]>,
    pub manifest: Option<&'a str>,
    pub number: Option<u64>,
}

/// Makes a deal file with its table and its manifest, all or none, and keeps its number beside it where it is known. A
/// file that is there stays. Says what could not be done beside it, and can be done without.
pub fn create(given: &Path, new: &NewDeal, attributes: Attributes) -> Result<Option<String>, Failure> {
    let (name, home) = (shown(given), Home::of(given));
    let known = Known::new(new.fill.length(), new.number);
    is_new(given)?;
    let lies_there = sidecar::lies_beside(given, &known)?;
    // Whoever opens the new deal next would end the change that the journal names, over the new deal.
    if is_there(&home.journal()).map_err(|why| cannot(given, &why))? {
        let journal = near(home.journal());
        let why = format!("{journal} was left by a change of an older deal of that name");
        return Err(cannot(given, &why).hint("remove it first"));
    }
    let held = Held::start();
    let deal = put(given, &home, new, attributes, &held)?;
    // The new deal was locked before it had its name, and is until the end.
    change::flush(&home.folder)
        .map_err(|error| troubled(Trouble::Made(format!("its folder could not be flushed: {error}")), &name))?;
    let beside = beside_new(&home, (!lies_there).then_some(&known), attributes, deal.file(), &held);
    let failed = |why| format!("{} could not be written: {why}", near(home.sidecar()));
    match (beside.map_err(failed), new.number) {
        (Ok(()), _) => Ok(None),
        (Err(why), None) => Ok(Some(format!("{why}; a cut of {name} will not be noticed"))),
        (Err(why), Some(number)) => Err(troubled(Trouble::Made(why), &name)
            .hint(format!("its number is kept by: vizhuthamen number {name} {number}"))),
    }
}

fn cannot(given: &Path, why: &str) -> Failure {
    failure::io(format!("cannot make {}: {why}", shown(given)))
}

fn exists(given: &Path) -> Failure {
    cannot(given, "the file exists, and is never overwritten").hint("give another name")
}

/// Refuses to make what is there.
fn is_new(given: &Path) -> Result<(), Failure> {
    match is_there(given).map_err(|why| cannot(given, &why))? {
        true => Err(exists(given)),
        false => Ok(()),
    }
}

/// Writes the deal aside, puts its table and its manifest in place, and then the deal.
fn put<'a>(
    given: &Path,
    home: &Home,
    new: &NewDeal<'a>,
    attributes: Attributes<'a>,
    held: &Held,
) -> Result<Aside<'a>, Failure> {
    let mut deal = Aside::write(home, 0, new.fill, attributes, held).map_err(|why| cannot(given, &why))?;
    let table = place_table(given, home, new.table, attributes, held)?;
    let manifest = place_manifest(home, new.manifest, attributes, held);
    let manifest = manifest.inspect_err(|_| table.take_back(&home.table()))?;
    let flushed = change::flush(&home.folder).map_err(|error| error.to_string());
    match flushed.and_then(|()| deal.make(given, held)) {
        Ok(true) => Ok(deal),
        made => {
            manifest.take_back(&home.manifest());
            table.take_back(&home.table());
            Err(made.map_or_else(|why| cannot(given, &why), |_| exists(given)))
        }
    }
}

/// A file beside a deal that is being made. The table is locked where there is one, so that others who make a deal of
/// that name wait.
enum Placed<'a> {
    /// There is none: the owners are not known, or there are no names.
    Nothing,
    /// It was put in its place.
    Made(Aside<'a>),
    /// It was there, with the same bytes.
    Found { _locked: File },
}

impl Placed<'_> {
    /// Takes a file away that was put in its place. Where that fails it is found by whoever makes the deal next.
    fn take_back(&self, path: &Path) {
        if let Placed::Made(aside) = self {
            if leads_to(path, aside.file()).unwrap_or(false) {
                let _ = system::repeat(|| fs::remove_file(path));
            }
        }
    }
}

/// Puts the table in its place, once no other process makes a deal of that name.
fn place_table<'a>(
    given: &Path,
    home: &Home,
    table: Option<&'a [u8]>,
    attributes: Attributes<'a>,
    held: &Held,
) -> Result<Placed<'a>, Failure> {
    let failed = |why: String| cannot(given, &why);
    let began = Instant::now();
    loop {
        is_new(given)?;
        match (lying(home).map_err(failed)?, table) {
            (Lying::Nothing, None) => return Ok(Placed::Nothing),
            (Lying::Nothing, Some(bytes)) => {
                let mut aside = Aside::write(home, 1, Fill::Bytes(bytes), attributes, held).map_err(failed)?;
                if aside.make(&home.table(), held).map_err(failed)? {
                    return Ok(Placed::Made(aside));
                }
            }
            (Lying::Locked(file), Some(bytes)) if is_table(home, bytes)? => return Ok(Placed::Found { _locked: file }),
            (Lying::Locked(_), _) => return Err(of_another(home)),
            (Lying::InUse, _) => wait(home, began, held).map_err(failed)?,
        }
    }
}

/// Puts the manifest in its place, where it is not there. Another one that lies there is an older deal's, and refused.
fn place_manifest<'a>(
    home: &Home,
    text: Option<&'a str>,
    attributes: Attributes<'a>,
    held: &Held,
) -> Result<Placed<'a>, Failure> {
    let path = home.manifest();
    let failed = |why: String| failure::io(format!("cannot write {}: {why}; nothing is done", near(&path)));
    let there = match File::open(&path) {
        Err(error) if matches!(error.kind(), ErrorKind::NotFound | ErrorKind::InvalidFilename) => None,
        file => Some(file.map_err(|error| files::cannot("read", &near(&path), error))?),
    };
    match (there, text) {
        (None, None) => Ok(Placed::Nothing),
        (None, Some(text)) => {
            let mut aside = Aside::write(home, 2, Fill::Bytes(text.as_bytes()), attributes, held).map_err(failed)?;
            match aside.make(&path, held).map_err(failed)? {
                true => Ok(Placed::Made(aside)),
                false => Err(failed("another program has made it in the meantime".to_string())),
            }
        }
        (Some(file), Some(text)) if fs::read(&path).is_ok_and(|bytes| bytes == text.as_bytes()) => {
            Ok(Placed::Found { _locked: file })
        }
        (Some(_), _) => Err(failure::data(format!("{} is there, of an older deal; nothing is done", near(&path)))
            .hint(format!("remove {} if nobody needs its names any more", near(&path)))),
    }
}

/// What has the name of the table: nothing, a file that is locked now, or one that another process holds locked.
enum Lying {
    Nothing,
    Locked(File),
    InUse,
}

fn lying(home: &Home) -> Result<Lying, String> {
    let path = home.table();
    loop {
        let file = match File::open(&path) {
            Err(error) if error.kind() == ErrorKind::NotFound && !is_there(&path)? => return Ok(Lying::Nothing),
            file => file.map_err(|error| format!("{} is there and cannot be read: {error}", near(&path)))?,
        };
        if !lock::try_take(&file, Share::Nobody).map_err(|error| error.to_string())? {
            return Ok(Lying::InUse);
        }
        // Whoever held the lock before may have taken the file away.
        if owners::is_at(&file, &path) {
            return Ok(Lying::Locked(file));
        }
    }
}

/// Whether the table that lies there has these bytes.
fn is_table(home: &Home, bytes: &[u8]) -> Result<bool, Failure> {
    Ok(OwnerTable::read(home)?.is_some_and(|table| table.bytes == bytes))
}

fn of_another(home: &Home) -> Failure {
    let table = near(home.table());
    failure::data(format!("{table} is there, and is not the table of the new deal; nothing is done"))
        .hint(format!("remove {table} if it is of another deal"))
}

fn wait(home: &Home, began: Instant, held: &Held) -> Result<(), String> {
    held.go_on().map_err(|error| error.to_string())?;
    if began.elapsed() > PATIENCE {
        return Err(format!("{} is in use by another process", near(home.table())));
    }
    thread::sleep(Duration::from_millis(5));
    Ok(())
}

/// Removes what was left beside an older deal of the same name, and puts what is known of the new one there, where
/// nothing is.
fn beside_new(
    home: &Home,
    known: Option<&Known>,
    attributes: Attributes,
    deal: &File,
    held: &Held,
) -> Result<(), String> {
    change::clear(home, deal)?;
    if let Some(known) = known {
        let mut aside = Aside::write(home, 0, Fill::Bytes(known.text().as_bytes()), attributes, held)?;
        if !aside.make(&home.sidecar(), held)? {
            return Err("another program has made it in the meantime".to_string());
        }
    }
    change::flush(&home.folder).map_err(|error| error.to_string())
}
