//! The routines over a deal of 16 MiB beside one pass over it: reading every byte, and hashing its tree. Worst cases
//! with them.
use crate::aims::Aim;
use crate::passes::{Passes, Works};
use crate::record::{filled, DEAL_NUMBER};
use crate::timing::Work;
use crate::{DEAL, SEGMENT};
use std::hint::black_box;
use vizhuthamen::{table_length, Booking, Node, Settled, SlotState, MAX_TABLE};

const HASHING: &str = "one pass: commitment of the deal";
const BUILD: &str = "build: the record of the last of 64 entries";
const BUILD_HALF: &str = "build: the record of a segment of half the deal";
const SETTLE: &str = "settle: that record with the deal";
const COLLECT: &str = "collect: 64 segments of 64 KiB into a second deal";
const COLLECT_WORK: &str = "a tally, and a copy of the deal's bytes";
const FIND_SIZE: &str = "worst find: 128 entries over one half (16)";
const FIND_SIZES: &str = "worst find: 128 sizes over one half (16)";
const FIND_AREAS: &str = "worst find: 128 areas, the largest first (16)";
const AUDIT: &str = "audit: 64 segments of 64 KiB";
const AUDIT_HALF: &str = "audit: one segment, of half the deal";
const AUDIT_AREAS: &str = "audit: 128 areas that overlap, the largest first";

/// Prints the times and how many passes each is. The aims are in passes that hash.
pub fn print() -> Vec<Aim> {
    let (deal, last) = booked_deal(64);
    let half = deal_with_half();
    let named = Node([1; 32]);
    let areas = deals_of_worst_finds(&named);
    let mut works = passes(&deal);
    works.extend(lookups(&deal, last));
    works.extend(records(&deal, last, &half));
    works.extend([FIND_SIZE, FIND_SIZES, FIND_AREAS].into_iter().zip(&areas).map(|(name, deal)| {
        let find = move || assert_eq!(vizhuthamen::find(black_box(deal), named.as_ref()).unwrap_err().code(), 16);
        (name, Work::new(find))
    }));
    works.extend([(AUDIT, &deal), (AUDIT_HALF, &half.0), (AUDIT_AREAS, &areas[2])].map(|(name, deal)| {
        let audit = move || {
            black_box(vizhuthamen::audit(black_box(deal)).unwrap());
        };
        (name, Work::new(audit))
    }));
    works.extend([booking(&deal, true), booking(&deal, false)]);
    works.extend(collecting(&deal));
    let passes = Passes::print(works, ["reading passes", "hashing passes"]);
    let hashing = |works: &[&str]| passes.slowest(works, HASHING);
    let collecting = passes.slowest(&[COLLECT], COLLECT_WORK);
    vec![
        Aim::at_most("build, passes of hashing over the deal", 1.15, hashing(&[BUILD, BUILD_HALF])),
        Aim::at_most("settle with the deal, passes of hashing", 1.15, hashing(&[SETTLE])),
        Aim::at_most("worst find, passes of hashing", 8.0, hashing(&[FIND_SIZE, FIND_SIZES, FIND_AREAS])),
        Aim::at_most("audit, passes of hashing over the deal", 1.15, hashing(&[AUDIT, AUDIT_HALF, AUDIT_AREAS])),
        Aim::at_most("collect, time over a tally and a copy of the deal's bytes", 1.5, collecting),
    ]
}

/// A deal of 16 MiB that keeps so many segments of 64 KiB, and its last entry place.
pub fn booked_deal(segments: u8) -> (Vec<u8>, u64) {
    let mut deal = vec![0; DEAL];
    let mut last = 0;
    for i in 0..segments {
        let mut segment = filled(SEGMENT);
        segment[0] = i;
        last = booked(&mut deal, &segment);
    }
    (deal, last)
}

/// A deal that keeps one segment, of half its size.
fn deal_with_half() -> (Vec<u8>, u64) {
    let mut deal = vec![0; DEAL];
    let place = booked(&mut deal, &filled(DEAL / 2));
    (deal, place)
}

/// A table of a deal of 16 MiB: the houses take turns, from slot to slot.
pub fn owners() -> Vec<u8> {
    (0..table_length(DEAL)).map(|slot| 1 + slot as u8 % 2).collect()
}

/// Books a segment for a house that holds no slot.
fn booked(deal: &mut [u8], segment: &[u8]) -> u64 {
    match vizhuthamen::book(deal, None, &mut [0; MAX_TABLE], 1, segment) {
        Ok(Booking::Booked(position)) => position.place,
        other => panic!("booking: {other:?}"),
    }
}

/// Deals whose 128 entries name one commitment that no area has: over one half with one size, over one half with 128
/// sizes, and over the 128 largest areas that a deal has.
fn deals_of_worst_finds(named: &Node) -> [Vec<u8>; 3] {
    let half = DEAL as u64 / 2;
    let one_size = (0..).map(|_| (0, half));
    let sizes = (0..).map(|i| (0, half - i));
    // Half the deal, three quarters, seven eighths and so on: the last area of a size has the index in it.
    let areas =
        (1..).flat_map(|level| (0..(1 << level) - 1).map(move |i| (i * (DEAL as u64 >> level), DEAL as u64 >> level)));
    [indexed(named, one_size), indexed(named, sizes), indexed(named, areas)]
}

/// A deal whose entries name the commitment, each with an offset and a size; all stand.
fn indexed(named: &Node, numbers: impl Iterator<Item = (u64, u64)>) -> Vec<u8> {
    let mut deal = filled(DEAL);
    let index = vizhuthamen::index_numbers(DEAL as u64).expect("a size of a deal");
    let places = (0..index.entries).map(|i| index.start + 64 * i);
    for (place, (offset, size)) in places.zip(numbers) {
        let entry = vizhuthamen::make_entry(named.as_ref(), offset, size).expect("a node");
        deal[place as usize..][..64].copy_from_slice(&entry);
    }
    assert!(vizhuthamen::audit(&deal).expect("a deal").into_iter().all(|state| state > SlotState::NotStanding));
    deal
}

fn passes(deal: &[u8]) -> Works<'_> {
    let read = move || {
        black_box(deal).chunks_exact(8).fold(0, |sum: u64, word| sum ^ u64::from_le_bytes(word.try_into().unwrap()))
    };
    let reading = Work::new(move || {
        black_box(read());
    });
    let hashing = Work::new(|| {
        black_box(vizhuthamen::commitment_with_threads(deal, 1).unwrap());
    });
    vec![("one pass: every byte read", reading), (HASHING, hashing)]
}

fn lookups(deal: &[u8], last: u64) -> Works<'_> {
    let commitment = &deal[last as usize..last as usize + 32];
    let found = Work::new(move || {
        black_box(vizhuthamen::find(deal, commitment).unwrap());
    });
    let missing = Work::new(|| {
        black_box(vizhuthamen::find(deal, &[0; 32]).unwrap_err());
    });
    vec![("find: the segment of the last of 64 entries", found), ("find: a commitment that no entry has (16)", missing)]
}

fn records<'a>(deal: &'a [u8], last: u64, (half, place): &'a (Vec<u8>, u64)) -> Works<'a> {
    let build = move || vizhuthamen::build(black_box(deal), None, DEAL_NUMBER, last).unwrap();
    let record = build();
    let build_half = move || vizhuthamen::build(black_box(half), None, DEAL_NUMBER, *place).unwrap();
    let settle = move || vizhuthamen::settle_with_deal(deal, None, DEAL_NUMBER, black_box(&record)).unwrap();
    assert!(matches!(settle(), Settled::Same));
    vec![
        (
            BUILD,
            Work::new(move || {
                black_box(build());
            }),
        ),
        (
            BUILD_HALF,
            Work::new(move || {
                black_box(build_half());
            }),
        ),
        (
            SETTLE,
            Work::new(move || {
                black_box(settle());
            }),
        ),
    ]
}

/// Booking one more segment and taking it out again; or booking one that is kept. The house has each second slot.
fn booking<'a>(deal: &[u8], fresh: bool) -> (&'static str, Work<'a>) {
    let (mut deal, mut table) = (deal.to_vec(), owners());
    let mut segment = filled(SEGMENT);
    segment[0] = if fresh { 200 } else { 63 };
    let name = if fresh { "book: a 65th segment of 64 KiB" } else { "book: the 64th segment again (15)" };
    let book = move || match vizhuthamen::book(black_box(&mut deal), None, &mut table, 2, &segment) {
        Ok(Booking::Booked(position)) if fresh => {
            deal[position.offset as usize..][..SEGMENT].fill(0);
            deal[position.place as usize..][..64].fill(0);
        }
        Ok(Booking::AlreadyKept(_)) if !fresh => {}
        other => panic!("booking: {other:?}"),
    };
    (name, Work::new(book))
}

/// Collecting into a second deal; and what it cannot do without: the pass for stray bits, the checksums of all slots,
/// and each byte of the second deal written.
fn collecting(deal: &[u8]) -> Works<'_> {
    let (mut second, mut copy) = (vec![0; DEAL], vec![0; DEAL]);
    let (table, mut second_table) = (owners(), [0; MAX_TABLE]);
    let collect = move || {
        assert_eq!(vizhuthamen::collect(black_box(deal), &table, &mut second, None, &mut second_table), Ok(()));
    };
    let work = move || {
        black_box(vizhuthamen::tally(black_box(deal)).unwrap());
        black_box(&mut copy).copy_from_slice(deal);
    };
    vec![(COLLECT, Work::new(collect)), (COLLECT_WORK, Work::new(work))]
}
