//! The routines over a deal of 16 MiB with its tree in hand, beside the work that they cannot do without.
use crate::aims::Aim;
use crate::deal::{booked_deal, owners};
use crate::passes::{Passes, Works};
use crate::record::{filled, DEAL_NUMBER};
use crate::timing::Work;
use std::hint::black_box;
use vizhuthamen::{Booking, Refusal, Settled};

const STRAY: &str = "one pass: stray bits (a build with the tree, refused with 6)";
const COMMITMENT: &str = "one pass: commitment of the deal";
const FILL: &str = "fill the tree";
const BUILD: &str = "build with the tree: the record of the last of 128 entries";
const SETTLE: &str = "settle with the tree: that record";
const RECORDS: &str = "fill the tree, and build all 128 records";
const RECORDS_WORK: &str = "two commitments, and 128 passes for stray bits";
const BOOK: &str = "book with the tree: a 65th segment, of 4 MiB";
const BOOK_WORK: &str = "a tally, two commitments of 4 MiB, and 21 node hashes";
const CANCEL: &str = "cancel with the tree: the last of 128 entries";
const CANCEL_WORK: &str = "one pass for stray bits, and 20 node hashes";

/// Segments of a full deal, and the bytes of the one that is booked.
const FULL: u8 = 128;
const BOOKED: usize = 1 << 22;
/// Nodes of the deal's tree above the booked segment, and above its entry: heights 18 and 19, and 1 to 19.
const NODES_ABOVE: usize = 2 + 19;
/// The checksum of an entry, and the nodes above it.
const ENTRY_HASHES: usize = 1 + 19;
/// No entry place.
const NO_PLACE: u64 = 300;

/// A deal with its tree, and the place of its last entry.
#[derive(Clone)]
struct InHand {
    deal: Vec<u8>,
    tree: Vec<u8>,
    last: u64,
}

impl InHand {
    fn new(segments: u8) -> InHand {
        let (deal, last) = booked_deal(segments);
        let tree = vizhuthamen::filled_tree(&deal).expect("a deal");
        InHand { deal, tree, last }
    }

    fn build(&self, place: u64) -> Result<Vec<u8>, Refusal> {
        vizhuthamen::build(black_box(&self.deal), Some(&self.tree), DEAL_NUMBER, place)
    }

    /// All that is judged before a place is: one pass over the deal for stray bits.
    fn stray_pass(&self) {
        assert_eq!(self.build(NO_PLACE), Err(Refusal::PLACE));
    }

    fn commitment(&self) {
        black_box(vizhuthamen::commitment_with_threads(black_box(&self.deal), 1).expect("a deal"));
    }

    /// The places of all entries of a full deal.
    fn places(&self) -> impl Iterator<Item = u64> {
        let last = self.last;
        (0..u64::from(FULL)).map(move |i| last - 64 * i)
    }
}

/// Prints the times in passes over the deal. The aims are what each routine takes over the work that it cannot do
/// without.
pub fn print() -> Vec<Aim> {
    let (full, half) = (InHand::new(FULL), InHand::new(FULL / 2));
    let mut works = passes(&full);
    works.extend(records(&full));
    works.extend(bookings(half));
    works.extend(cancellations(&full));
    let passes = Passes::print(works, ["stray-bit passes", "commitments"]);
    let over = |work: &str, other: &str| passes.slowest(&[work], other);
    vec![
        Aim::at_most("build with the tree, time over a stray-bit pass", 1.1, over(BUILD, STRAY)),
        Aim::at_most("fill the tree, time over the commitment", 1.1, over(FILL, COMMITMENT)),
        Aim::at_most(
            "book 4 MiB with the tree, time over a tally, hashing the segment twice and the nodes above",
            1.1,
            over(BOOK, BOOK_WORK),
        ),
        Aim::at_most(
            "cancel with the tree, time over a stray-bit pass, the entry's checksum and the nodes above it",
            1.1,
            over(CANCEL, CANCEL_WORK),
        ),
        Aim::at_most(
            "fill a tree and build 128 records, time over two commitments and 128 stray-bit passes",
            1.0,
            over(RECORDS, RECORDS_WORK),
        ),
    ]
}

fn passes(full: &InHand) -> Works<'_> {
    vec![(STRAY, Work::new(|| full.stray_pass())), (COMMITMENT, Work::new(|| full.commitment()))]
}

fn records(full: &InHand) -> Works<'_> {
    let mut tree = full.tree.clone();
    let fill =
        move || vizhuthamen::tree_fill_with_threads(&full.deal, black_box(&mut tree), 1).expect("a deal and its tree");
    let record = full.build(full.last).expect("it is kept");
    let settle = move || {
        let record = black_box(&record);
        let settled = vizhuthamen::settle_with_deal(&full.deal, Some(&full.tree), DEAL_NUMBER, record);
        assert_eq!(settled, Ok(Settled::Same));
    };
    let build = |place| {
        black_box(full.build(place).expect("it is kept"));
    };
    let mut refill = fill.clone();
    let all = move || {
        refill();
        full.places().for_each(build);
    };
    let all_work = || {
        (0..2).for_each(|_| full.commitment());
        full.places().for_each(|_| full.stray_pass());
    };
    vec![
        (FILL, Work::new(fill)),
        (BUILD, Work::new(move || build(full.last))),
        (SETTLE, Work::new(settle)),
        (RECORDS, Work::new(all)),
        (RECORDS_WORK, Work::new(all_work)),
    ]
}

/// Booking a segment and taking its entry out again; and the work that is named for it: the tally has the stray-bit
/// pass and the checksums of all slots, the segment is hashed for its entry and for the tree, and each node above it
/// and above the entry once.
fn bookings<'a>(InHand { mut deal, mut tree, .. }: InHand) -> Works<'a> {
    let (lent, segment, mut table) = (deal.clone(), filled(BOOKED), owners());
    let hashed = segment.clone();
    let book = move || match vizhuthamen::book(black_box(&mut deal), Some(&mut tree), &mut table, 2, &segment) {
        Ok(Booking::Booked(position)) => deal[position.place as usize..][..64].fill(0),
        other => panic!("booking: {other:?}"),
    };
    let work = move || {
        black_box(vizhuthamen::tally(black_box(&lent)).expect("a deal"));
        let commitment = |run: &[u8]| {
            black_box(vizhuthamen::commitment_with_threads(black_box(run), 1).expect("a run"));
        };
        (0..2).for_each(|_| commitment(&hashed));
        (0..NODES_ABOVE).for_each(|_| commitment(&hashed[..64]));
    };
    vec![(BOOK, Work::new(book)), (BOOK_WORK, Work::new(work))]
}

/// Cancelling an entry that is put in again; and the work that is named for it. Either has a deal of its own, so that
/// neither finds more of it in the processor's cache.
fn cancellations<'a>(full: &InHand) -> Works<'a> {
    let (InHand { mut deal, mut tree, last }, lent) = (full.clone(), full.clone());
    let (entry, owners) = (deal[last as usize..][..64].to_vec(), owners());
    let cancel = move || {
        deal[last as usize..][..64].copy_from_slice(&entry);
        let mut table = owners.clone();
        assert_eq!(vizhuthamen::cancel(black_box(&mut deal), Some(&mut tree), &mut table, 2, last), Ok(()));
    };
    let work = move || {
        lent.stray_pass();
        (0..ENTRY_HASHES).for_each(|_| {
            black_box(vizhuthamen::commitment(black_box(&lent.deal[..64])).expect("a run"));
        });
    };
    vec![(CANCEL, Work::new(cancel)), (CANCEL_WORK, Work::new(work))]
}
