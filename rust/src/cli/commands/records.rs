//! The records and the proofs of all files of a manifest, from one filled tree.
use super::super::below::{self, Output};
use super::super::failure::{self, Failure};
use super::super::files::Content;
use super::super::manifest::{Listed, Manifest, Name};
use super::super::progress::Steps;
use super::super::proof::{Facts, Padding};
use super::super::store::names::shown;
use super::super::survey::{self, Slot};
use super::{extract, pack, prove};
use std::ffi::OsStr;
use std::os::unix::ffi::OsStrExt;
use std::path::Path;
use vizhuthamen::Refusal;

/// A longer name of a file leaves no room for an ending.
const LONGEST: usize = 255;

/// A deal with its filled tree, its number, and the files in it that have names.
pub struct Filled<'d> {
    pub deal: &'d [u8],
    pub tree: &'d [u8],
    pub number: u64,
    pub manifest: &'d Manifest,
}

/// Files that are to be written, and what is not written for files, and why.
#[derive(Default)]
pub struct Built {
    pub outputs: Vec<Output>,
    pub left: Vec<(Name, String)>,
}

impl Built {
    /// Both.
    pub fn and(mut self, other: Built) -> Built {
        self.outputs.extend(other.outputs);
        self.left.extend(other.left);
        self
    }

    /// What is not written, a line for each.
    pub fn lines(&self) -> impl Iterator<Item = String> + '_ {
        self.left.iter().map(|(name, why)| format!("{}: {why}", name.shown()))
    }
}

/// The record of every file, for each of its names: NAME.record below a folder.
pub fn build(folder: &Path, filled: &Filled) -> Result<Built, Failure> {
    let mut built = Built::default();
    let mut steps = Steps::start("building records", filled.manifest.files.len());
    for file in &filled.manifest.files {
        match filled.record(file) {
            Ok(record) => {
                for name in &file.names {
                    built.outputs.push(below::output(folder, &with_ending(name, file, ".record"), record.clone())?);
                }
            }
            Err(why) => built.left.push((file.names[0].clone(), format!("no record: {why}"))),
        }
        steps.step();
    }
    Ok(built)
}

/// The proof of every file, for each of its names: NAME.proof below a folder. The bytes of each are taken from the deal
/// and are those of the manifest, and each proof holds for them.
pub fn prove(folder: &Path, filled: &Filled) -> Result<Built, Failure> {
    let mut built = Built::default();
    let slots = survey::survey(filled.deal).map_err(failure::data)?.slots;
    let mut steps = Steps::start("writing proofs", filled.manifest.files.len());
    for file in &filled.manifest.files {
        for name in &file.names {
            match filled.facts(file, name, &slots) {
                Ok(facts) => {
                    let bytes = facts.text().into_bytes();
                    built.outputs.push(below::output(folder, &with_ending(name, file, ".proof"), bytes)?);
                }
                Err(why) => built.left.push((name.clone(), format!("no proof: {why}"))),
            }
        }
        steps.step();
    }
    Ok(built)
}

impl Filled<'_> {
    fn record(&self, file: &Listed) -> Result<Vec<u8>, String> {
        let why = |refusal: Refusal| format!("code {}, {}", refusal.code(), refusal.meaning());
        vizhuthamen::build(self.deal, Some(self.tree), self.number, file.place).map_err(why)
    }

    /// What the proof of a file says, which holds for the file; or why it has none.
    fn facts(&self, file: &Listed, name: &Name, slots: &[Slot]) -> Result<Facts, String> {
        let raw = extract::raw(self.deal, slots, file)?;
        let facts = Facts {
            name: shown(OsStr::from_bytes(last_part(name))),
            padding: Padding::Fr32,
            length: file.length,
            sha256: file.sha256,
            segment_size: file.entry.size,
            segment_commitment: file.entry.commitment,
            offset: file.entry.offset,
            place: file.place,
            number: self.number,
            deal_size: self.deal.len() as u64,
            deal_commitment: pack::root(self.tree),
            record: self.record(file)?,
        };
        let content = Content { bytes: raw, name: name.shown(), metadata: None };
        prove::holds(&facts, &content).map_err(|failure| failure.message).map(|()| facts)
    }
}

/// The name of a file without its folders.
fn last_part(name: &Name) -> &[u8] {
    name.0.rsplit(|byte| *byte == b'/').next().unwrap_or_default()
}

/// The name of what is written for a file; of one whose name is too long for an ending, by the place.
fn with_ending(name: &Name, file: &Listed, ending: &str) -> Name {
    match last_part(name).len() + ending.len() <= LONGEST {
        true => Name([&name.0[..], ending.as_bytes()].concat()),
        false => Name(format!("place-{}{ending}", file.place).into_bytes()),
    }
}
