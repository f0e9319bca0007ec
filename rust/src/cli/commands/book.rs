//! Booking a segment into a deal file.
use super::super::answer::Answer;
use super::super::args::ToBook;
use super::super::failure::{self, Failure};
use super::super::files::Content;
use super::super::progress::Progress;
use super::super::segments;
use super::super::store::DealFile;
use super::super::survey::{self, Slot, State};
use super::house::Housed;
use super::logged::{Called, Logged};
use super::{entry_at, path_of, refused, unsound, with_entry};
use vizhuthamen::{Booking, Entry, Line, Position, Refusal};

/// Books a segment, or that of a plain file, for a house, and puts the new deal and the new table of owners in the
/// place of the old ones. A log gets a line on it with these, and alone where the segment is not booked.
pub fn book(given: &ToBook) -> Result<Answer, Failure> {
    let path = path_of(&given.deal)?;
    // The segment first: it may come from a pipe, and nobody is kept waiting for that.
    let segment = match segments::read(&given.segment, given.raw)? {
        Ok(segment) => segment,
        Err(answer) => return Ok(answer),
    };
    let mut old = DealFile::open(path, given.access)?;
    old.open_or(given.reopen)?;
    let mut housed = Housed::open(&old, given.house)?;
    let mut log = Logged::open(given.log.as_deref(), &old)?;
    let progress = Progress::start("booking", old.content.bytes.len());
    let (mut bytes, number) = (old.content.bytes.clone(), housed.house());
    let booked = vizhuthamen::book(&mut bytes, None, &mut housed.table.bytes, number, &segment.bytes);
    if log.wanted() {
        log.will_get(&line(number, &segment.bytes, booked), &Called::of(&old, &housed, &bytes))?;
    }
    let booking = match booked {
        Ok(booking) => booking,
        Err(refusal) => return not_booked(refusal, &old, &housed, &segment, log),
    };
    let (Booking::Booked(Position { place, .. }) | Booking::AlreadyKept(Position { place, .. })) = booking;
    let entry = entry_at(&bytes, place)?;
    let answer = match booking {
        Booking::Booked(_) => {
            if !given.force {
                spares(&old.content, &entry, place, "--force books all the same")?;
            }
            old.replace_logged(&bytes, Some(&housed.table), vec![], log.file())?;
            Answer::done("done").writing()
        }
        Booking::AlreadyKept(_) => {
            log.write(&old)?;
            Answer::refused(Refusal::ALREADY_KEPT)
        }
    };
    drop(progress);
    Ok(log.told(housed.with_house(with_entry(answer, &entry, place))))
}

/// The line on a booking, where its code gets one. What is refused before is no segment of the deal, or its house none.
fn line(house: u8, segment: &[u8], answer: Result<Booking, Refusal>) -> Vec<Line> {
    let commitment = segments::commitment(segment).ok();
    commitment.and_then(|node| Line::booking(house, node, segment.len() as u64, answer)).into_iter().collect()
}

/// The answer where nothing is booked; its line is added.
fn not_booked(
    refusal: Refusal,
    deal: &DealFile,
    housed: &Housed,
    segment: &Content,
    mut log: Logged,
) -> Result<Answer, Failure> {
    log.write(deal)?;
    let answer = housed.refused(refusal, refused_booking(refusal, &deal.content, segment), &deal.content);
    Ok(log.told(if refusal == Refusal::NO_PLACE { log.ends_with_collection(answer) } else { answer }))
}

/// A refusal, with a note on what it is about.
fn refused_booking(refusal: Refusal, deal: &Content, segment: &Content) -> Answer {
    let note = match refusal {
        Refusal::SEGMENT_SIZE => {
            format!("{}; a segment here has 1 to {} bytes", segment.described(), deal.bytes.len() / 2)
        }
        // The code does not say which of the two has the stray bits.
        Refusal::STRAY_BITS if survey::stray(&deal.bytes).is_empty() => {
            let plain = format!("vizhuthamen book {} --raw {}", deal.name, segment.operand());
            format!("{}; a plain file is padded and booked by: {plain}", segments::stray(segment))
        }
        _ => return refused(refusal, deal),
    };
    Answer::refused(refusal).with_note(note)
}

/// Refuses a booking that takes a slot that is not blank, or bytes that may be those of a damaged slot's segment.
pub fn spares(deal: &Content, booked: &Entry, place: u64, force: &str) -> Result<(), Failure> {
    let slots = survey::slots(&deal.bytes).map_err(failure::data)?;
    let found = slot_in_the_way(&slots, place).or_else(|| segment_in_the_way(&deal.bytes, &slots, booked));
    let name = &deal.name;
    match found {
        None => Ok(()),
        Some(why) => Err(unsound(format!("{why}; nothing is changed"), name, force)),
    }
}

/// What stands in the slot that a booking takes, where it is not blank.
fn slot_in_the_way(slots: &[Slot], place: u64) -> Option<String> {
    let slot = slots.iter().find(|slot| slot.place == place && slot.unsound())?;
    Some(format!("{}, and the booking would overwrite it", slot.described()))
}

/// A damaged slot, where a booking takes an area that was not zero and may be that of the slot's segment.
fn segment_in_the_way(deal: &[u8], slots: &[Slot], booked: &Entry) -> Option<String> {
    let offset = booked.offset;
    let area = &deal[offset as usize..][..survey::area(booked.size) as usize];
    let slot = slots.iter().find(|slot| slot.state == State::Damaged && area.iter().any(|byte| *byte != 0))?;
    let what = slot.described();
    Some(format!("{what}, and the booking would overwrite bytes at offset {offset} that may be its segment's"))
}
