//! Closing a deal: its records and proofs are built from now on.
use super::super::answer::Answer;
use super::super::args::Closing;
use super::super::below;
use super::super::failure::{self, Failure};
use super::super::json::Json;
use super::super::manifest::{self, Manifest};
use super::super::progress::Progress;
use super::super::store::{Access, DealFile};
use super::super::survey;
use super::records::{self, Built, Filled};
use super::{fsck, number, pack, path_of, refused, text};
use vizhuthamen::Node;

/// Keeps beside a deal that it is closed, under its lock, and writes records and proofs where they are asked for.
pub fn close(closing: &Closing) -> Result<Answer, Failure> {
    let deal = DealFile::open(path_of(&closing.deal)?, Access { wait: closing.wait, new_owner: false })?;
    let (bytes, name) = (&deal.content.bytes, &deal.content.name);
    let tree = match Progress::during("hashing", bytes.len(), || vizhuthamen::filled_tree(bytes)) {
        Ok(tree) => tree,
        Err(refusal) => return Ok(refused(refusal, &deal.content)),
    };
    let commitment = pack::root(&tree);
    still_closed(deal.closed(), commitment, name).map_err(|failure| failure.and("nothing is changed"))?;
    let (built, nameless) = built(&deal, closing, &tree)?;
    below::judge(&built.outputs, closing.force)?;
    if deal.closed().is_none() {
        deal.keep_closed(commitment)?;
    }
    below::write(&built.outputs, closing.force)?;
    let answer = told(&deal, commitment, closing, &built)?.with_note(format!(
        "{name} is closed: records and proofs are built from now on, for this commitment; book, cancel and pack refuse \
         it without --reopen"
    ));
    let numberless = deal.number().is_none().then(|| number::needed(name));
    Ok(nameless.into_iter().chain(numberless).fold(answer, Answer::with_note))
}

/// A deal that is closed must have the commitment that it had then.
pub fn still_closed(closed: Option<Node>, commitment: Node, name: &str) -> Result<(), Failure> {
    match closed.filter(|closed| *closed != commitment) {
        None => Ok(()),
        Some(closed) => {
            Err(failure::data(format!("{name} was closed with the commitment {closed}, and has {commitment} now"))
                .hint(format!("see: vizhuthamen fsck {name}, and bring the closed deal back")))
        }
    }
}

/// The records and the proofs of all files of the manifest, where they are asked for, and a note on entries without a
/// name.
fn built(deal: &DealFile, closing: &Closing, tree: &[u8]) -> Result<(Built, Option<String>), Failure> {
    let Closing { records, proofs, .. } = closing;
    if records.is_none() && proofs.is_none() {
        return Ok((Built::default(), None));
    }
    let (bytes, name) = (&deal.content.bytes[..], &deal.content.name);
    let number = deal.number().ok_or_else(|| number::not_kept(name))?;
    let manifest = manifest::read(deal.path())?.unwrap_or_default();
    let manifest = manifest.renewed(bytes).map_err(failure::data)?.manifest;
    let filled = Filled { deal: bytes, tree, number, manifest: &manifest };
    let records = records.as_deref().map(|folder| records::build(folder, &filled)).transpose()?;
    let proofs = proofs.as_deref().map(|folder| records::prove(folder, &filled)).transpose()?;
    Ok((records.unwrap_or_default().and(proofs.unwrap_or_default()), nameless(bytes, &manifest, name)?))
}

/// That entries stand of which the manifest has no names.
fn nameless(deal: &[u8], manifest: &Manifest, name: &str) -> Result<Option<String>, Failure> {
    let listed = |place: u64| manifest.files.iter().any(|file| file.place == place);
    let slots = survey::slots(deal).map_err(failure::data)?;
    let count = slots.iter().filter(|slot| slot.standing().is_some() && !listed(slot.place)).count();
    Ok((count > 0).then(|| {
        format!(
            "the manifest of {name} has no names for {count} of its entries, and nothing is written for these; the \
             record of one is built by: vizhuthamen build {name} PLACE"
        )
    }))
}

/// The answer: what a customer is told of the deal.
fn told(deal: &DealFile, commitment: Node, closing: &Closing, built: &Built) -> Result<Answer, Failure> {
    let slots = survey::slots(&deal.content.bytes).map_err(failure::data)?;
    let entries = slots.iter().filter(|slot| slot.standing().is_some()).count() as u64;
    let answer = match built.left.is_empty() {
        true => Answer::done("the deal is closed"),
        false => Answer::damaged("the deal is closed, and some files have no record or no proof"),
    };
    let mut answer = answer
        .writing()
        .with_value("commitment", text(commitment))
        .with_value("size", Json::Number(deal.content.length()));
    answer = deal.number().into_iter().fold(answer, |a, number| a.with_value("number", Json::Number(number)));
    answer = answer.with_value("entries", Json::Number(entries));
    let folders = [("records", &closing.records), ("proofs", &closing.proofs)];
    let folders = folders.into_iter().filter_map(|(name, folder)| Some((name, folder.as_deref()?)));
    let answer = folders.fold(answer, |answer, (name, folder)| answer.with_value(name, fsck::file_name(folder)));
    Ok(match built.left.is_empty() {
        true => answer,
        false => {
            let left =
                built.left.iter().map(|(name, why)| Json::Object(vec![("name", name.json()), ("why", text(why))]));
            let lines = built.lines().map(|line| line + "\n").collect();
            answer.with_text(lines, vec![("not_written", Json::List(left.collect()))])
        }
    })
}
