//! Repairing a deal.
use super::super::answer::Answer;
use super::super::args::{At, InHand, Stream};
use super::super::failure::{self, Failure};
use super::super::files;
use super::super::json::Json;
use super::super::manifest;
use super::super::mend::{self, Hand, Mended, Step};
use super::super::owners::{Owner, Owners};
use super::super::progress::Progress;
use super::super::segments;
use super::super::store::names::near;
use super::super::store::{Access, DealFile};
use super::super::survey::{Stray, Survey};
use super::fsck::Wrong;
use super::{pack, path_of, place_in, refused, text};
use std::path::PathBuf;
use vizhuthamen::{Entry, Node, Refusal};

/// Mends what can be told for certain, with a copy of the deal as it was beside it.
pub fn repair(deal: &Stream, in_hand: Option<&InHand>, at: Option<At>, access: Access) -> Result<Answer, Failure> {
    let hand = match in_hand.map(hand).transpose()? {
        Some(Err(answer)) => return Ok(answer),
        hand => hand.and_then(Result::ok),
    };
    let file = DealFile::open(path_of(deal)?, access)?;
    let place = at.map(|at| place_in(&file.content.bytes, at));
    let progress = Progress::start("repairing", file.content.bytes.len());
    let mended = match mend::mend(&file.content.bytes, hand.as_ref(), place) {
        Ok(mended) => mended,
        Err(refusal) => return Ok(refused(refusal, &file.content)),
    };
    drop(progress);
    let owners = Owners::read(file.home(), &file.table(), mended.survey.slots.len());
    let Put { copy, notes, unread } = put(&file, &mended)?;
    let wrong = Wrong::of(&mended.survey, &owners, &file.content.name);
    let closed = file.closed().filter(|node| vizhuthamen::commitment(&mended.bytes) != Ok(*node));
    let right = wrong.lines.is_empty() && closed.is_none() && !unread;
    let answer = match (right, mended.steps.is_empty()) {
        (true, true) => Answer::done("nothing is wrong with the deal"),
        (true, false) => Answer::done("the deal is repaired"),
        (false, _) => Answer::damaged("something is left that cannot be told"),
    };
    let lines = mended.steps.iter().map(|step| line(step, &mended.survey, &owners)).collect();
    let steps = mended.steps.iter().map(|step| members(step, &mended.survey, &owners)).collect();
    let answer = answer.with_text(lines, vec![("mended", Json::List(steps))]);
    let closed = closed.map(|node| format!("it was closed with the commitment {node}, and has another one now"));
    let answer = notes.into_iter().chain(closed).fold(answer, Answer::with_note);
    let answer = copy.into_iter().fold(answer, |answer, name| answer.with_value("copy", text(near(name))).writing());
    Ok(wrong.told(answer, &mended.survey))
}

/// What a repair has written: the copy's name, what is to be said of the manifest, and whether that cannot be
/// understood.
struct Put {
    copy: Option<PathBuf>,
    notes: Vec<String>,
    unread: bool,
}

/// Puts the mended deal in place, where anything was mended, with a copy of the old one and the manifest brought up to
/// date.
fn put(file: &DealFile, mended: &Mended) -> Result<Put, Failure> {
    let (manifest, unread) = manifest::if_understood(pack::manifest_after(file.path(), &mended.bytes))?;
    let manifest = manifest.map(|manifest| manifest.text());
    let (copy, part) = match mended.steps.is_empty() {
        true => (None, None),
        false => file.copy().map(|(name, part)| (Some(name), part))?,
    };
    let listed = manifest.as_deref().map(|text| file.manifest(text)).transpose()?;
    if copy.is_some() || listed.is_some() {
        file.replace(&mended.bytes, None, part.into_iter().chain(listed).collect())?;
    }
    let renewed = manifest.map(|_| "the manifest is brought up to date with the entries".to_string());
    let left = unread.clone().map(|why| format!("{why}; it is left as it is"));
    Ok(Put { copy, notes: renewed.into_iter().chain(left).collect(), unread: unread.is_some() })
}

/// The segment in hand, or the refusal of its bytes.
fn hand(in_hand: &InHand) -> Result<Result<Hand, Answer>, Failure> {
    let refused =
        |refusal, name: &str| Answer::refused(refusal).with_note(format!("{name} is no segment that a deal can have"));
    Ok(match in_hand {
        InHand::Commitment(bytes) => match <[u8; 32]>::try_from(bytes.as_slice()) {
            Ok(node) => Ok(Hand { commitment: Node(node), segment: None }),
            Err(_) => Err(Answer::refused(Refusal::COMMITMENT_LENGTH)),
        },
        InHand::Segment(file) => {
            let segment = files::read(file)?;
            if segment.bytes.is_empty() {
                return Err(failure::usage(format!("{} is empty", segment.name)));
            }
            Hand::of(&segment.bytes).map_err(|refusal| match refusal {
                Refusal::STRAY_BITS => {
                    let note = format!("{}; a plain file is given with --raw", segments::stray(&segment));
                    Answer::refused(refusal).with_note(note)
                }
                _ => refused(refusal, &segment.name),
            })
        }
        InHand::Raw(file) => {
            let raw = files::read(file)?;
            let hand = vizhuthamen::pad(&raw.bytes).and_then(|segment| Hand::of(&segment));
            hand.map_err(|refusal| refused(refusal, &raw.name))
        }
    })
}

/// The owner of a slot that was mended, where it is known.
fn owner(slot: u64, survey: &Survey, owners: &Owners) -> Option<Owner> {
    survey.slots.get(slot as usize).and_then(|slot| owners.of_slot(slot))
}

/// A step as a line of text.
fn line(step: &Step, survey: &Survey, owners: &Owners) -> String {
    let entry = |slot: &u64, entry: &Entry| {
        let whose = owner(*slot, survey, owners).map_or(String::new(), |owner| format!(", owner {}", owner.word()));
        format!("offset {}, size {}, commitment {}{whose}", entry.offset, entry.size, entry.commitment)
    };
    match step {
        Step::Bits(Stray { offset, bits }) => format!("cleared stray bits {bits:#04x} at byte {offset}\n"),
        Step::Entry { slot, place, entry: made } => {
            format!("made the entry of slot {slot} (place {place}) anew: {}\n", entry(slot, made))
        }
        Step::Segment { slot, place, entry: stood } => {
            format!("wrote the segment of slot {slot} (place {place}) anew: {}\n", entry(slot, stood))
        }
    }
}

/// A step for JSON.
fn members(step: &Step, survey: &Survey, owners: &Owners) -> Json {
    let (what, slot, place, entry) = match step {
        Step::Bits(Stray { offset, bits }) => {
            let (offset, bits) = (Json::Number(*offset), Json::Number(u64::from(*bits)));
            return Json::Object(vec![("what", text("bits")), ("offset", offset), ("bits", bits)]);
        }
        Step::Entry { slot, place, entry } => (text("entry"), *slot, *place, entry),
        Step::Segment { slot, place, entry } => (text("segment"), *slot, *place, entry),
    };
    let mut members = vec![("what", what), ("slot", Json::Number(slot)), ("place", Json::Number(place))];
    members.extend(owner(slot, survey, owners).map(Owner::members).unwrap_or_default());
    members.extend([("offset", Json::Number(entry.offset)), ("size", Json::Number(entry.size))]);
    members.push(("commitment", text(entry.commitment)));
    Json::Object(members)
}
