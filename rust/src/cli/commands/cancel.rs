//! Cancelling an entry of a deal file.
use super::super::answer::Answer;
use super::super::args::Cancelling;
use super::super::failure::{self, Failure};
use super::super::files::Content;
use super::super::manifest;
use super::super::progress::Progress;
use super::super::store::DealFile;
use super::super::survey;
use super::house::Housed;
use super::logged::{Called, Logged};
use super::{entry_at, pack, path_of, place_in, refused, with_entry};
use vizhuthamen::{Entry, Line, Refusal};

/// Cancels the entry of a house that stands in a slot, and puts the new deal and the new table of owners in the place
/// of the old ones. With a commitment it must be the entry's: a place that was cancelled before may be another
/// segment's by now. Its line in the manifest goes with it. A log gets a line on it, alone where nothing is cancelled.
pub fn cancel(given: &Cancelling) -> Result<Answer, Failure> {
    if given.commitment.as_ref().is_some_and(|node| node.len() != 32) {
        return Ok(Answer::refused(Refusal::COMMITMENT_LENGTH));
    }
    let mut old = DealFile::open(path_of(&given.deal)?, given.access)?;
    old.open_or(given.reopen)?;
    let mut housed = Housed::open(&old, given.house)?;
    let mut log = Logged::open(given.log.as_deref(), &old)?;
    let place = place_in(&old.content.bytes, given.at);
    let progress = Progress::start("cancelling", old.content.bytes.len());
    let (mut bytes, number) = (old.content.bytes.clone(), housed.house());
    let cancelled = vizhuthamen::cancel(&mut bytes, None, &mut housed.table.bytes, number, place);
    let entry = cancelled.is_ok().then(|| entry_at(&old.content.bytes, place)).transpose()?;
    entry.iter().try_for_each(|entry| is_meant(entry, place, given, &old.content))?;
    let line = Line::cancelling(number, place, cancelled);
    log.will_get(line.as_slice(), &Called::of(&old, &housed, &bytes))?;
    let entry = match (cancelled, entry) {
        (Ok(()), Some(entry)) => entry,
        (cancelled, _) => {
            let refusal = cancelled.err().unwrap_or(Refusal::NOT_KEPT);
            log.write(&old)?;
            let answer = refused_cancelling(refusal, &old.content, &housed, place);
            return Ok(log.told(housed.refused(refusal, answer, &old.content)));
        }
    };
    let (manifest, unread) = manifest::if_understood(pack::manifest_after(old.path(), &bytes))?;
    let manifest = manifest.map(|manifest| manifest.text());
    let parts = manifest.as_deref().map(|text| old.manifest(text)).transpose()?;
    old.replace_logged(&bytes, Some(&housed.table), parts.into_iter().collect(), log.file())?;
    drop(progress);
    let unread = unread.map(|why| format!("{why}; it is left as it is"));
    let answer = unread.into_iter().fold(Answer::done("done").writing(), Answer::with_note);
    let answer = log.told(housed.with_house(with_entry(answer, &entry, place)));
    Ok(cancelled_notes(answer, &log, &old.content.name))
}

/// Refuses to cancel another entry than the one that is meant.
fn is_meant(entry: &Entry, place: u64, given: &Cancelling, deal: &Content) -> Result<(), Failure> {
    match given.commitment.as_ref().is_some_and(|node| node != entry.commitment.as_ref()) {
        false => Ok(()),
        true => Err(failure::data(format!(
            "the entry at place {place} has the commitment {}, which is not the given one; nothing is changed",
            entry.commitment
        ))
        .hint(format!("see: vizhuthamen list {}", deal.name))),
    }
}

/// What the caller has to know of the segment's bytes and of records.
fn cancelled_notes(answer: Answer, log: &Logged, name: &str) -> Answer {
    let collected = answer.with_note(format!(
        "the segment's bytes stay in {name} until a booking takes them; a deal without them is made by: \
         vizhuthamen collect {name} NEW"
    ));
    log.ends_with_collection(collected)
        .with_note(format!("{name} has another commitment now; records that were built before belong to the old one"))
}

/// A refusal, with a note on what the place holds, and whose it is, where no entry of the house stands there.
fn refused_cancelling(refusal: Refusal, deal: &Content, housed: &Housed, place: u64) -> Answer {
    let (slot, name) = match (refusal, survey::slot_at(&deal.bytes, place)) {
        (Refusal::NOT_KEPT, Ok(slot)) => (slot, &deal.name),
        _ => return refused(refusal, deal),
    };
    let answer = Answer::refused(refusal);
    match housed.owners.of_slot(&slot) {
        None => {
            let see = if slot.unsound() { "fsck" } else { "list" };
            answer.with_note(format!("{}; see: vizhuthamen {see} {name}", slot.described()))
        }
        Some(owner) => {
            let cancels = match owner.is_house() {
                true => format!("only house {} cancels it", owner.house()),
                false => format!("no house cancels it until it has an owner: vizhuthamen owner {name} HOUSE {place}"),
            };
            let note = format!("{} and is {}; {cancels}", slot.described(), owner.whose());
            answer.with_text(String::new(), owner.members()).with_note(note)
        }
    }
}
