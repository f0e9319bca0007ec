//! Finding a file in a deal.
use super::super::answer::Answer;
use super::super::args::{At, Output, Stream};
use super::super::failure::Failure;
use super::super::files::{self, Content};
use super::super::progress::Progress;
use super::super::proof::Padding;
use super::super::segments::{self, Segment};
use super::super::survey::{self, Slot};
use super::{found_answer, put, refused};
use vizhuthamen::{Entry, Refusal};

/// Finds the segment of a plain file.
pub fn find_raw(deal: &Stream, raw: &Stream, output: Output) -> Result<Answer, Failure> {
    let raw = files::read(raw)?;
    let segment = match segment_of(&raw, Padding::Fr32) {
        Ok(segment) => segment,
        Err(answer) => return Ok(answer),
    };
    let deal = files::read_deal(deal)?;
    let located = Progress::during("searching", deal.bytes.len(), || locate(&deal.bytes, &segment, None));
    match located {
        Ok((entry, place)) => {
            let bytes = &deal.bytes[entry.offset as usize..][..entry.size as usize];
            put(found_answer(entry.offset, entry.size, place), output, bytes, &deal)
        }
        Err(refusal) => Ok(not_located(refusal, &deal, &raw, &segment, Padding::Fr32, None)),
    }
}

/// The segment that a file is or becomes, or the refusal of the file.
pub fn segment_of(file: &Content, padding: Padding) -> Result<Segment, Answer> {
    let segment = Progress::during("hashing", file.bytes.len(), || Segment::of(file, padding));
    segment.map_err(|refusal| {
        let note = segments::why_no_segment(refusal, file, padding);
        Answer::refused(refusal).with_note(match (refusal, padding) {
            (Refusal::STRAY_BITS, Padding::None) => format!("{note}; a plain file is given without --segment"),
            _ => note,
        })
    })
}

/// The entry of the lowest slot that keeps a segment, size and all, or of the slot at a place. Refusals: 2, 11, 6 for
/// the place, 16.
pub fn locate(deal: &[u8], segment: &Segment, place: Option<u64>) -> Result<(Entry, u64), Refusal> {
    let lowest = vizhuthamen::find(deal, segment.commitment.as_ref());
    match (place, lowest) {
        (None, Ok(found)) if found.size == segment.size => {
            Ok((Entry { commitment: segment.commitment, offset: found.offset, size: found.size }, found.place))
        }
        (_, Err(refusal)) if refusal != Refusal::NOT_KEPT => Err(refusal),
        _ => {
            if let Some(place) = place {
                survey::slot_at(deal, place)?;
            }
            let meant = |slot: &Slot| place.is_none_or(|place| slot.place == place);
            let slots = survey::survey(deal)?.slots;
            let kept = slots.iter().filter(|slot| meant(slot)).filter_map(|slot| Some((slot.kept()?, slot.place)));
            kept.into_iter().find(|(entry, _)| is_of(entry, segment)).ok_or(Refusal::NOT_KEPT)
        }
    }
}

/// Whether an entry says that it is of a segment.
fn is_of(entry: &Entry, segment: &Segment) -> bool {
    (entry.commitment, entry.size) == (segment.commitment, segment.size)
}

/// A refusal, with a note on what the deal has in the place of what was looked for.
pub fn not_located(
    refusal: Refusal,
    deal: &Content,
    file: &Content,
    segment: &Segment,
    padding: Padding,
    at: Option<At>,
) -> Answer {
    if refusal != Refusal::NOT_KEPT {
        return refused(refusal, deal);
    }
    let note = match at {
        Some(at) => format!("without {} {} is looked for in all of {}", at.option(), file.name, deal.name),
        None => taken_the_other_way(deal, file, padding).unwrap_or_else(|| in_its_place(deal, &file.name, segment)),
    };
    Answer::refused(refusal).with_note(note)
}

/// A file that is kept, but padded where it was looked for as it is, or the other way round.
fn taken_the_other_way(deal: &Content, file: &Content, padding: Padding) -> Option<String> {
    let (other, how) = match padding {
        Padding::Fr32 => (Padding::None, "as it is and not padded: prove takes such a segment with --segment"),
        Padding::None => (Padding::Fr32, "padded, as a plain file: prove takes it without --segment"),
    };
    let segment = Segment::of(file, other).ok()?;
    locate(&deal.bytes, &segment, None).ok().map(|_| format!("{} keeps {} {how}", deal.name, file.name))
}

/// What a deal has in the place of a segment that it does not keep.
fn in_its_place(deal: &Content, name: &str, segment: &Segment) -> String {
    let house = &deal.name;
    let slots = survey::survey(&deal.bytes).map_or(vec![], |survey| survey.slots);
    let spoilt = slots.iter().find(|slot| slot.standing().is_some_and(|entry| is_of(&entry, segment)));
    let kept = slots.iter().filter_map(|slot| Some((slot.kept()?, slot.place)));
    let other = kept.into_iter().find(|(entry, _)| entry.commitment == segment.commitment);
    match (spoilt, other) {
        (Some(slot), _) => format!(
            "slot {} (place {}) has the entry of {name}, but the bytes in {house} are no longer its own; \
             see: vizhuthamen fsck {}",
            slot.number,
            slot.place,
            deal.operand()
        ),
        (None, Some((entry, place))) => format!(
            "{house} keeps no {name}, but at place {place} a file that differs in the zeros at its end alone: \
             its segment has {} bytes, and that of {name} {}",
            entry.size, segment.size
        ),
        (None, None) => {
            format!("{house} does not keep {name}; what it keeps is shown by: vizhuthamen list {}", deal.operand())
        }
    }
}
