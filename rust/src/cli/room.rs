//! How full a deal is, and what would be booked into it.
use super::answer::Answer;
use super::files::Content;
use super::json::Json;
use super::survey::{self, area, Slot};
use vizhuthamen::Refusal;

/// The smallest area, of which every other is a multiple.
const LEAST: u64 = 128;

/// What is free in a deal.
#[derive(Clone, Copy, Debug, PartialEq, Eq)]
pub struct Room {
    /// The number of slots, and of those without a standing entry.
    pub entries: u64,
    pub free_slots: u64,
    /// The number of bytes before the index, and of those that no standing entry's area covers.
    pub bytes: u64,
    pub free_bytes: u64,
    /// The largest area at a multiple of itself that covers free bytes alone; 0 where there is none.
    pub largest_area: u64,
    /// The same after a collection, where no two standing entries overlap.
    pub collected_area: Option<u64>,
}

impl Room {
    /// What is free in a deal, by its slots and without hashing. Refusals: 2.
    pub fn of(deal: &[u8]) -> Result<Room, Refusal> {
        let bytes = survey::numbers(deal)?.start;
        let slots = survey::slots(deal)?;
        let mut free = vec![true; (bytes / LEAST) as usize];
        let mut sum = 0;
        for entry in slots.iter().filter_map(Slot::standing) {
            let (first, units) = ((entry.offset / LEAST) as usize, (area(entry.size) / LEAST) as usize);
            free[first..first + units].fill(false);
            sum += units;
        }
        let overlaps = slots.iter().any(|slot| slot.overlaps().is_some());
        let collected = || (0..free.len()).map(|unit| unit >= sum).collect();
        Ok(Room {
            entries: slots.len() as u64,
            free_slots: slots.iter().filter(|slot| slot.standing().is_none()).count() as u64,
            bytes,
            free_bytes: free.iter().filter(|unit| **unit).count() as u64 * LEAST,
            collected_area: (!overlaps).then(|| largest(collected())),
            largest_area: largest(free),
        })
    }

    /// The size of the largest segment that would be booked now; 0 where none would.
    pub fn largest_segment(&self) -> u64 {
        if self.free_slots == 0 {
            return 0;
        }
        self.largest_area
    }
}

/// The length of the longest raw archive whose segment fills an area.
fn raw(area: u64) -> u64 {
    area / 128 * 127
}

/// The largest area at a multiple of itself that is free: of its units, each two that are joined must be.
fn largest(mut free: Vec<bool>) -> u64 {
    let (mut area, mut found) = (LEAST, 0);
    while free.contains(&true) {
        found = area;
        area *= 2;
        free = free.chunks_exact(2).map(|pair| pair[0] && pair[1]).collect();
    }
    found
}

/// Adds to a refusal to book how full the deal is, and what would be booked instead.
pub fn told(answer: Answer, deal: &Content) -> Answer {
    let Ok(room) = Room::of(&deal.bytes) else { return answer };
    let answer = filled(answer, deal, &room, room.largest_segment(), &fitting(&room));
    more(&room, &deal.name).into_iter().fold(answer, Answer::with_note)
}

/// The same where the house holds too many slots: nothing of it would be booked, whatever is free.
pub fn told_to_house(answer: Answer, deal: &Content, house: u64) -> Answer {
    let Ok(room) = Room::of(&deal.bytes) else { return answer };
    filled(answer, deal, &room, 0, &format!("no segment of house {house} would be booked now, of whatever size"))
}

/// The same of a deal that is not there yet, in words only what it has.
pub fn of_empty(answer: Answer, deal: &Content) -> Answer {
    let Ok(room) = Room::of(&deal.bytes) else { return answer };
    let Room { entries, bytes, .. } = room;
    let size = deal.length();
    let note = format!("a deal of {size} bytes has {entries} slots, and {bytes} bytes before its index");
    answer.with_text(String::new(), members(&room, room.largest_segment())).with_note(note)
}

/// Adds what is free, and the size of the largest segment that would be booked, also in words.
fn filled(answer: Answer, deal: &Content, room: &Room, largest: u64, fitting: &str) -> Answer {
    let Room { entries, free_slots, bytes, free_bytes, .. } = room;
    let full = format!("{free_slots} of {entries} slots and {free_bytes} of {bytes} bytes before the index are free");
    answer.with_text(String::new(), members(room, largest)).with_note(format!("{}: {full}; {fitting}", deal.name))
}

/// What is free, for JSON.
fn members(room: &Room, largest: u64) -> Vec<(&'static str, Json)> {
    vec![
        ("entries", Json::Number(room.entries)),
        ("free_slots", Json::Number(room.free_slots)),
        ("free_bytes", Json::Number(room.free_bytes)),
        ("largest_segment", Json::Number(largest)),
        ("largest_raw", Json::Number(raw(largest))),
    ]
}

/// What would be booked now, in words.
fn fitting(room: &Room) -> String {
    match room.largest_segment() {
        0 => "no segment would be booked now, of whatever size".to_string(),
        size => {
            let raw = raw(size);
            format!(
                "the largest segment that would be booked now has {size} bytes (that of a raw archive of {raw} bytes)"
            )
        }
    }
}

/// What makes more room, in words.
fn more(room: &Room, name: &str) -> Option<String> {
    match room.collected_area {
        // Some entry is nobody's: of two houses that hold all slots each holds half.
        _ if room.free_slots == 0 => Some(format!(
            "a slot is freed by: vizhuthamen cancel {name} PLACE, and one that is nobody's after: vizhuthamen owner \
             {name} HOUSE PLACE; a second deal is made by: vizhuthamen new"
        )),
        Some(after) if after > room.largest_area => {
            Some(format!("without the gaps the largest would have {after} bytes: vizhuthamen collect {name} NEW"))
        }
        _ => None,
    }
}

#[cfg(test)]
mod tests {
    use super::*;
    use vizhuthamen::{book, cancel, make_entry, Booking, Position};

    /// A segment of this size, another one for every seed.
    fn segment(seed: u8, size: usize) -> Vec<u8> {
        vec![seed % 64; size]
    }

    /// A deal of four slots with segments of these sizes, by turns of house 1 and house 2, and its table.
    fn booked(size: usize, sizes: &[usize]) -> (Vec<u8>, [u8; 4]) {
        let (mut deal, mut table) = (vec![0; size], [0; 4]);
        for (seed, size) in (0..).zip(sizes) {
            let booked = book(&mut deal, None, &mut table, 1 + seed % 2, &segment(seed + 1, *size));
            assert!(matches!(booked, Ok(Booking::Booked(_))));
        }
        (deal, table)
    }

    /// A deal of four slots whose entries have these offsets and sizes.
    fn standing(size: usize, entries: &[(u64, u64)]) -> Vec<u8> {
        let mut deal = vec![0; size];
        for (slot, (offset, length)) in entries.iter().enumerate() {
            deal[size - 256 + 64 * slot..][..64].copy_from_slice(&make_entry(&[0; 32], *offset, *length).unwrap());
        }
        deal
    }

    #[test]
    fn an_empty_and_a_full_deal() {
        let empty = Room::of(&[0; 1024]).unwrap();
        let all = Room {
            entries: 4,
            free_slots: 4,
            bytes: 768,
            free_bytes: 768,
            largest_area: 512,
            collected_area: Some(512),
        };
        assert_eq!((empty, empty.largest_segment(), raw(empty.largest_segment())), (all, 512, 508));
        let full = Room::of(&booked(512, &[128, 100]).0).unwrap();
        assert_eq!((full.free_slots, full.free_bytes, full.largest_segment()), (2, 0, 0));
        let no_slot = Room::of(&booked(1024, &[128; 4]).0).unwrap();
        assert_eq!((no_slot.free_slots, no_slot.free_bytes, no_slot.largest_area), (0, 256, 256));
        assert_eq!(no_slot.largest_segment(), 0);
        assert_eq!(Room::of(&[0; 1000]), Err(Refusal::SIZE));
    }

    #[test]
    fn gaps_that_a_collection_closes() {
        let (mut deal, mut table) = booked(1024, &[128; 4]);
        for place in [768, 896] {
            cancel(&mut deal, None, &mut table, 1, place).unwrap();
        }
        let room = Room::of(&deal).unwrap();
        assert_eq!((room.free_bytes, room.largest_area, room.collected_area), (512, 256, Some(256)));
        let room = Room::of(&standing(2048, &[(0, 128), (512, 100), (1024, 128)])).unwrap();
        assert_eq!((room.free_bytes, room.largest_area, room.collected_area), (1408, 256, Some(512)));
        let room = Room::of(&standing(1024, &[(0, 256), (512, 256)])).unwrap();
        assert_eq!((room.free_bytes, room.largest_area, room.collected_area), (256, 256, Some(256)));
    }

    #[test]
    fn overlapping_entries() {
        let room = Room::of(&standing(1024, &[(0, 256), (128, 128)])).unwrap();
        assert_eq!((room.free_bytes, room.largest_area, room.collected_area), (512, 256, None));
    }

    /// Of every deal that a row of bookings and cancellations of two houses leaves: a segment of the size that is told
    /// is booked by a house that holds fewer than half of the slots, and one of a byte more is not.
    #[test]
    fn what_is_told_is_what_the_library_books() {
        let mut state = 58u64;
        let mut next = move |below: u64| {
            state = state.wrapping_mul(6_364_136_223_846_793_005).wrapping_add(1_442_695_040_888_963_407);
            (state >> 33) % below
        };
        let mut met = std::collections::BTreeMap::new();
        for height in [9, 10, 12, 17, 21] {
            let (mut deal, mut places) = (vec![0; 1 << height], vec![]);
            let mut table = vec![0; survey::numbers(&deal).unwrap().entries as usize];
            for _ in 0..150 {
                let size = Room::of(&deal).unwrap().largest_segment() as usize;
                *met.entry(size).or_insert(0) += 1;
                let books =
                    |house, size| book(&mut deal.clone(), None, &mut table.clone(), house, &segment(61, size)).is_ok();
                let would = |size| books(1, size) || books(2, size);
                assert_eq!((would(size), would(size + 1)), (size > 0, false), "{size}");
                let most = 1 << (height - 1 - next(4));
                let held = |house| table.iter().filter(|byte| **byte == house).count();
                let house = if held(1) > held(2) { 2 } else { 1 };
                match book(&mut deal, None, &mut table, house, &segment(next(60) as u8, 1 + next(most) as usize)) {
                    Ok(Booking::Booked(Position { place, .. })) => places.push((place, house)),
                    Ok(Booking::AlreadyKept(_)) => {}
                    Err(_) => {
                        let (place, house) = places.swap_remove(next(places.len() as u64) as usize);
                        cancel(&mut deal, None, &mut table, house, place).unwrap()
                    }
                }
            }
        }
        assert!(met.len() > 12 && met[&0] > 20, "{met:?}");
    }
}
