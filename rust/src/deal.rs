//! A deal in memory: its slots and their owners, finding a segment, booking and cancelling one, collecting all.
use crate::codes::{accepted, Refusal};
use crate::ffi;

/// The largest deal that is held in memory, in bytes.
pub const MAX_DEAL: usize = 1 << 24;

/// The longest table of owners, in bytes: that of the largest deal.
pub const MAX_TABLE: usize = table_length(MAX_DEAL);

/// The length of the table of owners of a deal of that many bytes: a byte for each slot. The table is kept beside the
/// deal; a new deal's is all zeros. A slot's byte is 1 or 2 for the house that owns the entry there, and any other one
/// for nobody; it counts only where an entry stands. [`book`] sets it, [`cancel`] clears it, and [`collect`] writes a
/// second table.
pub const fn table_length(size: usize) -> usize {
    match size / 131_072 {
        0..=3 => 4,
        slots => slots,
    }
}

/// How many slots of an index are of each kind; together they are the number of entries.
#[derive(Clone, Copy, Debug, PartialEq, Eq)]
pub struct Tally {
    /// Slots whose 64 bytes are all zero.
    pub blank: u64,
    /// Slots that are not blank, with a wrong checksum.
    pub damaged: u64,
    /// Slots with a right checksum, whether their entry stands or not.
    pub valid: u64,
}

/// A segment that was found: where it is, and its bytes, a part of the deal, without the zeros after them.
#[derive(Clone, Copy, Debug, PartialEq, Eq)]
pub struct Found<'d> {
    /// The byte of the deal at which the segment starts.
    pub offset: u64,
    /// The segment's length in bytes, as its entry states it.
    pub size: u64,
    /// The byte of the deal at which its entry starts.
    pub place: u64,
    /// The segment's bytes.
    pub segment: &'d [u8],
}

/// Where a segment and its index entry are.
#[derive(Clone, Copy, Debug, PartialEq, Eq)]
pub struct Position {
    /// The byte of the deal at which the segment starts.
    pub offset: u64,
    /// The byte of the deal at which its entry starts.
    pub place: u64,
}

/// The answer of a booking that is not refused.
#[derive(Clone, Copy, Debug, PartialEq, Eq)]
pub enum Booking {
    /// The segment, zeros to the end of its area, and its entry were written.
    Booked(Position),
    /// Code 15: the house has the segment in the deal, which was not changed. It is kept here, in its lowest such slot.
    AlreadyKept(Position),
}

/// How many slots of a deal's index are blank, damaged and valid. Refusals: 2, 11.
pub fn tally(deal: &[u8]) -> Result<Tally, Refusal> {
    let (mut blank, mut damaged, mut valid) = (0, 0, 0);
    // SAFETY: the slice is live, and the three numbers are locals of their own.
    let code = unsafe { ffi::vz_tally(deal.as_ptr(), deal.len(), &mut blank, &mut damaged, &mut valid) };
    accepted(code).map(|()| Tally { blank, damaged, valid })
}

/// The lowest slot that holds a kept entry with this commitment. Refusals: 1, 2, 11, 16.
pub fn find<'d>(deal: &'d [u8], commitment: &[u8]) -> Result<Found<'d>, Refusal> {
    let (mut offset, mut size, mut place) = (0, 0, 0);
    // SAFETY: both slices are live, and all that is written are locals of their own.
    let code = unsafe {
        ffi::vz_find(
            deal.as_ptr(),
            deal.len(),
            commitment.as_ptr(),
            commitment.len(),
            &mut offset,
            &mut size,
            &mut place,
        )
    };
    accepted(code)?;
    Ok(Found { offset, size, place, segment: part(deal, offset, size) })
}

/// The `length` bytes from `start` on. With code 0 the library's numbers lie within the slice it was lent.
pub(crate) fn part(bytes: &[u8], start: u64, length: u64) -> &[u8] {
    let (start, length) = (start as usize, length as usize);
    &bytes[start..start + length]
}

/// Books a segment of 1 byte to half of the deal for a house, 1 or 2: it, zeros after it to the end of its area (the
/// smallest power of two at or above both its size and 128), its entry, and the house in the slot's byte of the table
/// (see [`table_length`]) are written, unless the house has the segment in the deal. Refusals: 23 for another house, 2,
/// 23 for a table of another length, 4, 11, 22 where the house's entries stand in half of the slots or more, 13, 14;
/// with a tree 12 after 11.
///
/// With a tree (see [`tree_fill`](crate::tree_fill)), whether an entry is kept is read there: its commitment is the
/// node over its area. Every node above the bytes that are written to the deal is worked out anew; no other byte of the
/// tree changes.
///
/// ```
/// use vizhuthamen::{book, table_length, Booking, Refusal};
///
/// let mut deal = vec![0; 1024];
/// let mut table = vec![0; table_length(deal.len())];
/// book(&mut deal, None, &mut table, 1, &[1; 128])?;
/// assert!(matches!(book(&mut deal, None, &mut table, 1, &[1; 128]), Ok(Booking::AlreadyKept(_))));
/// book(&mut deal, None, &mut table, 2, &[1; 128])?; // what the other house has does not count
/// book(&mut deal, None, &mut table, 1, &[2; 128])?;
/// assert_eq!(table, [1, 2, 1, 0]);
/// assert_eq!(book(&mut deal, None, &mut table, 1, &[3; 128]), Err(Refusal::QUOTA));
/// # Ok::<(), Refusal>(())
/// ```
pub fn book(
    deal: &mut [u8],
    tree: Option<&mut [u8]>,
    table: &mut [u8],
    house: u8,
    segment: &[u8],
) -> Result<Booking, Refusal> {
    let (mut offset, mut place) = (0, 0);
    let (d, n, o, k) = (deal.as_mut_ptr(), deal.len(), table.as_mut_ptr(), table.len());
    let (s, m) = (segment.as_ptr(), segment.len());
    // SAFETY: the slices are live and apart, since all but one are borrowed mutably; the two numbers are locals of
    // their own.
    let code = unsafe {
        match tree {
            None => ffi::vz_book(d, n, o, k, house, s, m, &mut offset, &mut place),
            Some(tree) => {
                let (t, l) = (tree.as_mut_ptr(), tree.len());
                ffi::vz_book_with_tree(d, n, t, l, o, k, house, s, m, &mut offset, &mut place)
            }
        }
    };
    let position = Position { offset, place };
    match accepted(code) {
        Ok(()) => Ok(Booking::Booked(position)),
        Err(Refusal::ALREADY_KEPT) => Ok(Booking::AlreadyKept(position)),
        Err(refusal) => Err(refusal),
    }
}

/// Cancels the house's entry that stands at a place, kept or not: its 64 bytes and its slot's byte of the table (see
/// [`table_length`]) are zeros afterwards, and no other byte changes. Its slot is then free for booking, and so are its
/// segment's bytes wherever no other standing entry covers them. Refusals: 23 for a house other than 1 or 2, 2, 23 for
/// a table of another length, 11, 6, 16 where no entry of the house stands; with a tree 12 after 11.
///
/// With a tree (see [`tree_fill`](crate::tree_fill)), every node above the 64 bytes is worked out anew; no other byte
/// of the tree changes.
///
/// ```
/// use vizhuthamen::{book, cancel, Booking, Refusal};
///
/// let (mut deal, mut table) = ([0; 512], [0; 4]);
/// let Booking::Booked(position) = book(&mut deal, None, &mut table, 1, &[1; 128])? else {
///     unreachable!("nothing is kept yet")
/// };
/// assert_eq!(cancel(&mut deal, None, &mut table, 2, position.place), Err(Refusal::NOT_KEPT));
/// cancel(&mut deal, None, &mut table, 1, position.place)?;
/// assert_eq!(deal[..128], [1; 128]); // the segment's bytes stay
/// assert_eq!(table, [0; 4]);
/// assert_eq!(book(&mut deal, None, &mut table, 2, &[2; 128]), Ok(Booking::Booked(position)));
/// # Ok::<(), Refusal>(())
/// ```
pub fn cancel(
    deal: &mut [u8],
    tree: Option<&mut [u8]>,
    table: &mut [u8],
    house: u8,
    place: u64,
) -> Result<(), Refusal> {
    let (d, n, o, k) = (deal.as_mut_ptr(), deal.len(), table.as_mut_ptr(), table.len());
    // SAFETY: the slices are live and apart, since all are borrowed mutably.
    let code = unsafe {
        match tree {
            None => ffi::vz_cancel(d, n, o, k, house, place),
            Some(tree) => ffi::vz_cancel_with_tree(d, n, tree.as_mut_ptr(), tree.len(), o, k, house, place),
        }
    };
    accepted(code)
}

/// Collects a deal into a second one of the same length, whatever that holds. The segments of the standing entries, all
/// bytes of each area, are packed from 0 by falling area, equal ones by old offset; the entries, with commitment and
/// size as they were, stand from the first slot on in that order; all else is zero. The second table gets each entry's
/// byte, as it was, for its new slot, and zeros after them (see [`table_length`]). The deal itself and its table stay;
/// records that were built from it belong to its commitment, not to the second deal's. Refusals: 2, 23 for a table of
/// another length, 12 for a second deal of any other length, 11, 20; with a tree 12 after 11.
///
/// The tree is one for the second deal, and is left filled for it (see [`tree_fill`](crate::tree_fill)), whatever it
/// held.
///
/// ```
/// use vizhuthamen::{audit, book, cancel, collect, SlotState};
///
/// let (mut deal, mut table) = ([0; 1024], [0; 4]);
/// for (house, byte) in [(1, 1), (1, 2), (2, 3)] {
///     book(&mut deal, None, &mut table, house, &[byte; 128])?;
/// }
/// cancel(&mut deal, None, &mut table, 1, 832)?; // the second of them
/// let (mut second, mut owners) = ([7; 1024], [7; 4]);
/// collect(&deal, &table, &mut second, None, &mut owners)?;
/// assert_eq!(second[..256], [[1; 128], [3; 128]].concat());
/// assert_eq!(audit(&second)?, [SlotState::Kept, SlotState::Kept, SlotState::Blank, SlotState::Blank]);
/// assert_eq!((table, owners), ([1, 0, 2, 0], [1, 2, 0, 0]));
/// # Ok::<(), vizhuthamen::Refusal>(())
/// ```
pub fn collect(
    deal: &[u8],
    table: &[u8],
    second: &mut [u8],
    tree: Option<&mut [u8]>,
    second_table: &mut [u8],
) -> Result<(), Refusal> {
    let (d, n, o, k) = (deal.as_ptr(), deal.len(), table.as_ptr(), table.len());
    let (s, m, p, l) = (second.as_mut_ptr(), second.len(), second_table.as_mut_ptr(), second_table.len());
    // SAFETY: the slices are live and apart, since all but two, which are only read, are borrowed mutably.
    let code = unsafe {
        match tree {
            None => ffi::vz_collect(d, n, o, k, s, m, p, l),
            Some(tree) => ffi::vz_collect_with_tree(d, n, o, k, s, m, tree.as_mut_ptr(), tree.len(), p, l),
        }
    };
    accepted(code)
}

#[cfg(test)]
mod tests {
    use super::*;
    use crate::audit::{audit, SlotState};
    use crate::entry::{index_numbers, make_entry, read_entry, Entry, ReadEntry};
    use crate::hash::commitment;
    use crate::testing::{put, segment};
    use crate::tree::filled_tree;

    fn booked(offset: u64, place: u64) -> Result<Booking, Refusal> {
        Ok(Booking::Booked(Position { offset, place }))
    }

    fn kept(offset: u64, place: u64) -> Result<Booking, Refusal> {
        Ok(Booking::AlreadyKept(Position { offset, place }))
    }

    /// A deal with its table.
    struct Housed<const N: usize> {
        deal: [u8; N],
        table: [u8; 4],
    }

    impl<const N: usize> Housed<N> {
        fn new() -> Housed<N> {
            Housed { deal: [0; N], table: [0; 4] }
        }

        fn book(&mut self, house: u8, segment: &[u8]) -> Result<Booking, Refusal> {
            book(&mut self.deal, None, &mut self.table, house, segment)
        }

        fn cancel(&mut self, house: u8, place: u64) -> Result<(), Refusal> {
            cancel(&mut self.deal, None, &mut self.table, house, place)
        }
    }

    /// The entry at a place of a deal of four slots, which is in this state.
    fn standing(deal: &[u8], place: usize, state: SlotState) -> Entry {
        let slot = (place + 256 - deal.len()) / 64;
        assert_eq!(audit(deal).unwrap()[slot], state, "{place}");
        match read_entry(&deal[place..place + 64]) {
            Ok(ReadEntry::Valid(entry)) => entry,
            other => panic!("{place}: {other:?}"),
        }
    }

    /// What a refusal leaves: nothing is changed.
    fn refused<const N: usize, T>(
        housed: &mut Housed<N>,
        refusal: Refusal,
        call: impl Fn(&mut Housed<N>) -> Result<T, Refusal>,
    ) {
        let before = (housed.deal, housed.table);
        assert_eq!(call(housed).err(), Some(refusal));
        assert_eq!((housed.deal, housed.table), before);
    }

    #[test]
    fn a_table_has_a_byte_for_each_slot() {
        for size in (9..=24).map(|k| 1 << k) {
            assert_eq!(table_length(size) as u64, index_numbers(size as u64).unwrap().entries);
        }
        assert_eq!(MAX_TABLE, 128);
    }

    /// The paper's run on an all-zero deal of 512 bytes, done by one house: the quota is reached before room runs out.
    #[test]
    fn one_house_in_512_bytes() {
        let mut housed = Housed::<512>::new();
        assert_eq!(housed.book(1, &segment(1, 128)), booked(0, 256));
        let first = housed.deal;
        assert_eq!(housed.book(1, &segment(1, 128)), kept(0, 256));
        assert_eq!(housed.deal, first);
        assert_eq!(housed.book(1, &segment(2, 128)), booked(128, 320));
        assert_eq!(housed.deal[128..256], segment(2, 128));
        assert_eq!(housed.table, [1, 1, 0, 0]);
        refused(&mut housed, Refusal::QUOTA, |housed| housed.book(1, &segment(3, 128)));
        refused(&mut housed, Refusal::NO_PLACE, |housed| housed.book(2, &segment(3, 128)));
        assert_eq!(housed.book(1, &segment(2, 128)), kept(128, 320)); // 15 before 22
    }

    /// The paper's other run: with two houses the fifth segment meets the quota of either before slots run out.
    #[test]
    fn two_houses_in_1024_bytes() {
        let mut housed = Housed::<1024>::new();
        for (i, house) in (0..).zip([1, 1, 2, 2]) {
            let place = 768 + 64 * u64::from(i);
            assert_eq!(housed.book(house, &segment(i, 128)), booked(128 * u64::from(i), place));
            if i == 1 {
                refused(&mut housed, Refusal::QUOTA, |housed| housed.book(1, &segment(9, 128)));
            }
        }
        assert_eq!(housed.table, [1, 1, 2, 2]);
        for house in [1, 2] {
            refused(&mut housed, Refusal::QUOTA, |housed| housed.book(house, &segment(9, 128)));
        }
    }

    /// Where nobody's entries stand in all slots, no house holds any, and no slot is free.
    #[test]
    fn nobodys_entries_fill_the_slots() {
        let mut housed = Housed::<1024>::new();
        for seed in 0..4 {
            put(&mut housed.deal, &segment(seed, 128));
        }
        for byte in [0, 3, 7, 255] {
            housed.table = [byte; 4];
            refused(&mut housed, Refusal::NO_SLOT, |housed| housed.book(1, &segment(9, 128)));
            refused(&mut housed, Refusal::NO_SLOT, |housed| housed.book(1, &segment(1, 128))); // not the house's own
            refused(&mut housed, Refusal::NOT_KEPT, |housed| housed.cancel(2, 768));
        }
    }

    #[test]
    fn the_quota_counts_standing_entries_kept_or_not() {
        let mut housed = Housed::<1024>::new();
        housed.table = [1; 4]; // at free slots the bytes count nothing
        assert_eq!(housed.book(1, &segment(1, 128)), booked(0, 768));
        assert_eq!(housed.book(1, &segment(2, 128)), booked(128, 832));
        housed.deal[0] ^= 1; // the first one is not kept now
        refused(&mut housed, Refusal::QUOTA, |housed| housed.book(1, &segment(1, 128)));
        housed.deal[768] ^= 1; // nor does it stand
        assert_eq!(housed.book(1, &segment(1, 128)), booked(0, 768));
        assert_eq!(housed.table, [1; 4]);
    }

    #[test]
    fn each_house_sees_its_own_entries_alone() {
        let mut housed = Housed::<2048>::new();
        assert_eq!(housed.book(2, &segment(1, 128)), booked(0, 1792));
        assert_eq!(housed.book(1, &segment(1, 128)), booked(128, 1856));
        assert_eq!(housed.book(2, &segment(1, 128)), kept(0, 1792));
        assert_eq!(housed.book(1, &segment(1, 128)), kept(128, 1856));
        assert_eq!(housed.table, [2, 1, 0, 0]);
        refused(&mut housed, Refusal::NOT_KEPT, |housed| housed.cancel(1, 1792));
        refused(&mut housed, Refusal::NOT_KEPT, |housed| housed.cancel(2, 1856));
        assert_eq!(housed.cancel(2, 1792), Ok(()));
        assert_eq!(housed.table, [0, 1, 0, 0]);
        housed.table = [1; 4];
        assert_eq!(housed.book(2, &segment(1, 128)), booked(0, 1792));
        housed.table[0] = 1; // both are the first house's now: the lowest is answered
        assert_eq!(housed.book(1, &segment(1, 128)), kept(0, 1792));
    }

    #[test]
    fn houses_and_tables_that_are_none() {
        let mut housed = Housed::<512>::new();
        assert_eq!(housed.book(1, &segment(1, 128)), booked(0, 256));
        for house in [0, 3, 4, 129, 255] {
            refused(&mut housed, Refusal::HOUSE, |housed| housed.book(house, &[]));
            refused(&mut housed, Refusal::HOUSE, |housed| housed.cancel(house, 256));
            assert_eq!(book(&mut [], None, &mut [], house, &[]), Err(Refusal::HOUSE));
            assert_eq!(cancel(&mut [], None, &mut [], house, 0), Err(Refusal::HOUSE));
        }
        let Housed { mut deal, .. } = housed;
        let (before, mut second) = (deal, [7; 512]);
        for length in [0, 3, 5, 8, 128, 512] {
            let (mut table, mut owners) = (vec![1; length], vec![7; length]);
            assert_eq!(book(&mut deal, None, &mut table, 1, &[]), Err(Refusal::HOUSE), "{length}");
            assert_eq!(cancel(&mut deal, None, &mut table, 1, 300), Err(Refusal::HOUSE), "{length}");
            assert_eq!(collect(&deal, &table, &mut [], None, &mut [7; 4]), Err(Refusal::HOUSE), "{length}");
            assert_eq!(collect(&deal, &[1; 4], &mut second, None, &mut owners), Err(Refusal::HOUSE), "{length}");
            assert_eq!(book(&mut deal[..500], None, &mut table, 1, &[]), Err(Refusal::SIZE), "{length}");
            assert_eq!(cancel(&mut deal[..500], None, &mut table, 1, 300), Err(Refusal::SIZE), "{length}");
            assert_eq!(collect(&deal[..500], &table, &mut second, None, &mut owners), Err(Refusal::SIZE), "{length}");
            assert_eq!((table, owners), (vec![1; length], vec![7; length]));
        }
        assert_eq!((deal, second), (before, [7; 512]));
    }

    #[test]
    fn the_all_zero_segment_is_booked_like_any_other() {
        let mut housed = Housed::<512>::new();
        assert_eq!(housed.book(1, &[0; 128]), booked(0, 256));
        assert_eq!(housed.book(1, &[0; 128]), kept(0, 256));
    }

    #[test]
    fn zeros_follow_a_segment_in_its_area() {
        let mut housed = Housed::<1024>::new();
        housed.deal[..768].fill(1);
        let short = &segment(1, 160)[..130];
        assert_eq!(housed.book(1, short), booked(0, 768));
        assert_eq!(housed.deal[..130], *short);
        assert_eq!(housed.deal[130..256], [0; 126]);
        assert_eq!(housed.deal[256..768], [1; 512]);
        let entry = standing(&housed.deal, 768, SlotState::Kept);
        assert_eq!(entry.commitment, commitment(&housed.deal[..256]).unwrap());
        assert_eq!(find(&housed.deal, entry.commitment.as_ref()).unwrap().segment, short);
        assert_eq!(housed.book(1, short), kept(0, 768));
        assert_eq!(housed.book(1, &short[..129]), booked(256, 832));
    }

    #[test]
    fn refused_bookings_change_nothing() {
        let cases = [(511, 128, Refusal::SIZE), (0, 128, Refusal::SIZE), (512, 512, Refusal::SEGMENT_SIZE)];
        for (size, length, refusal) in cases {
            let (mut deal, mut table) = (vec![0; size], [0; 4]);
            assert_eq!(book(&mut deal, None, &mut table, 1, &vec![0; length]), Err(refusal));
            assert!(deal.iter().chain(&table).all(|byte| *byte == 0));
        }
        let mut housed = Housed::<512>::new();
        refused(&mut housed, Refusal::SEGMENT_SIZE, |housed| housed.book(1, &[]));
        refused(&mut housed, Refusal::STRAY_BITS, |housed| housed.book(1, &[0xff; 128]));
        housed.deal[31] = 0x40;
        refused(&mut housed, Refusal::STRAY_BITS, |housed| housed.book(2, &[0; 128]));
    }

    /// A deal of 1,024 bytes: areas of 128, 256 and 128 at 0, 256 and 128, in the first three slots.
    fn three_segments() -> Housed<1024> {
        let mut housed = Housed::new();
        assert_eq!(housed.book(1, &segment(1, 128)), booked(0, 768));
        assert_eq!(housed.book(2, &segment(2, 256)), booked(256, 832));
        assert_eq!(housed.book(1, &segment(3, 100)), booked(128, 896));
        assert_eq!(housed.table, [1, 2, 1, 0]);
        housed
    }

    #[test]
    fn a_cancelled_entry_leaves_its_bytes() {
        let mut housed = three_segments();
        let before = housed.deal;
        assert_eq!(housed.cancel(2, 832), Ok(()));
        assert_eq!(housed.deal[832..896], [0; 64]);
        assert_eq!((&housed.deal[..832], &housed.deal[896..]), (&before[..832], &before[896..]));
        assert_eq!(housed.table, [1, 0, 1, 0]);
        refused(&mut housed, Refusal::NOT_KEPT, |housed| housed.cancel(2, 832));
        assert_eq!(housed.book(2, &segment(2, 256)), booked(256, 832));
        assert_eq!((housed.deal, housed.table), (before, [1, 2, 1, 0]));
    }

    #[test]
    fn zeros_follow_a_segment_over_cancelled_bytes() {
        let mut housed = three_segments();
        housed.cancel(2, 832).unwrap();
        assert_eq!(housed.book(2, &segment(4, 130)), booked(256, 832));
        assert_eq!(housed.deal[256..386], segment(4, 130));
        assert_eq!(housed.deal[386..512], [0; 126]);
    }

    #[test]
    fn an_entry_that_stands_is_cancelled_kept_or_not() {
        let mut housed = three_segments();
        housed.deal[300] ^= 1;
        standing(&housed.deal, 832, SlotState::WrongCommitment);
        assert_eq!(housed.cancel(2, 832), Ok(()));
        housed.deal[768] ^= 1; // the first entry is damaged
        housed.deal[960..].copy_from_slice(&make_entry(&[7; 32], 1, 1).unwrap()); // valid, and stands not
        housed.table = [2; 4];
        for place in [768, 832, 960] {
            refused(&mut housed, Refusal::NOT_KEPT, |housed| housed.cancel(2, place));
        }
    }

    #[test]
    fn refused_cancellations_change_nothing() {
        let mut housed = three_segments();
        for place in [0, 704, 767, 769, 800, 1024, 768 + (1 << 32), u64::MAX - 63] {
            refused(&mut housed, Refusal::PLACE, |housed| housed.cancel(1, place));
        }
        refused(&mut housed, Refusal::SIZE, |housed| cancel(&mut housed.deal[..1023], None, &mut housed.table, 1, 768));
        assert_eq!(cancel(&mut [], None, &mut [], 1, 0), Err(Refusal::SIZE));
        housed.deal[31] = 0x40;
        for place in [768, 960, 0] {
            refused(&mut housed, Refusal::STRAY_BITS, |housed| housed.cancel(1, place));
        }
    }

    #[test]
    fn a_collected_deal_has_no_gaps() {
        let mut housed = three_segments();
        housed.cancel(1, 768).unwrap();
        let Housed { deal, table } = housed;
        let (mut second, mut owners) = ([0xff; 1024], [0xff; 4]);
        assert_eq!(collect(&deal, &table, &mut second, None, &mut owners), Ok(()));
        assert_eq!((deal, table, owners), (housed.deal, [0, 2, 1, 0], [2, 1, 0, 0]));
        assert_eq!(second[..256], segment(2, 256));
        assert_eq!(second[256..356], segment(3, 100));
        assert_eq!(second[356..768], [0; 412]);
        let entry = |bytes: &[u8], offset, size| Entry { commitment: commitment(bytes).unwrap(), offset, size };
        assert_eq!(standing(&second, 768, SlotState::Kept), entry(&segment(2, 256), 0, 256));
        assert_eq!(standing(&second, 832, SlotState::Kept), entry(&second[256..384], 256, 100));
        assert_eq!(second[896..], [0; 128]);
        let (mut third, mut again) = ([0; 1024], [7; 4]);
        assert_eq!(collect(&second, &owners, &mut third, None, &mut again), Ok(()));
        assert_eq!((third, again), (second, owners));
    }

    /// What a byte says does not matter to collection, and what stands in no slot is left behind.
    #[test]
    fn bytes_of_the_table_move_as_they_are() {
        let housed = three_segments();
        let (mut second, mut owners) = ([0; 1024], [9; 4]);
        for [first, second_slot, third] in [[7, 255, 0], [0, 1, 2], [3, 3, 1]] {
            let table = [first, second_slot, third, 5];
            assert_eq!(collect(&housed.deal, &table, &mut second, None, &mut owners), Ok(()));
            assert_eq!(owners, [second_slot, first, third, 0]);
        }
    }

    #[test]
    fn entries_that_are_not_kept_move_as_they_are() {
        let Housed { mut deal, .. } = three_segments();
        deal[228..256].fill(9); // other bytes than zeros after the size
        deal[300] ^= 1;
        deal[960..].copy_from_slice(&make_entry(&[7; 32], 640, 1).unwrap());
        deal[800] ^= 1; // the first entry is damaged
        let (mut second, mut owners) = ([0; 1024], [0; 4]);
        assert_eq!(collect(&deal, &[1, 2, 7, 0], &mut second, None, &mut owners), Ok(()));
        assert_eq!(second[..512], [&deal[256..512], &deal[128..256], &deal[640..768]].concat());
        assert_eq!(owners, [2, 7, 0, 0]);
        for (place, old, offset) in [(768, 832, 0), (832, 896, 256), (896, 960, 384)] {
            let entry = standing(&deal, old, SlotState::WrongCommitment);
            assert_eq!(standing(&second, place, SlotState::WrongCommitment), Entry { offset, ..entry });
        }
        assert_eq!(second[960..], [0; 64]);
    }

    #[test]
    fn refused_collections_change_nothing() {
        let Housed { mut deal, table } = three_segments();
        deal[960..].copy_from_slice(&make_entry(&[7; 32], 128, 1).unwrap()); // as the third, so that two overlap
        let expected = |deal: &[u8], length: usize, refusal: Refusal| {
            let (mut second, mut owners) = (vec![0xff; length], [0xff; 4]);
            assert_eq!(collect(deal, &table, &mut second, None, &mut owners), Err(refusal), "{length}");
            assert!(second.iter().chain(&owners).all(|byte| *byte == 0xff));
        };
        expected(&deal, 1024, Refusal::OVERLAP);
        deal[31] = 0x40;
        expected(&deal, 1024, Refusal::STRAY_BITS);
        for length in [0, 1, 512, 1023, 1025, 2048] {
            expected(&deal, length, Refusal::OUTPUT);
            expected(&deal[..1000], length, Refusal::SIZE);
        }
        expected(&deal[..1000], 1000, Refusal::SIZE);
        expected(&[], 0, Refusal::SIZE);
    }

    /// An area of half the deal fits at 0 alone, and collecting packs from there.
    #[test]
    fn half_a_deal_is_not_booked_beside_others() {
        let mut housed = Housed::<1024>::new();
        assert_eq!(housed.book(1, &segment(1, 512)), booked(0, 768));
        assert_eq!(housed.book(2, &segment(2, 128)), booked(512, 832));
        housed.cancel(1, 768).unwrap();
        let mut second = Housed::<1024>::new();
        collect(&housed.deal, &housed.table, &mut second.deal, None, &mut second.table).unwrap();
        assert_eq!(second.book(1, &segment(1, 512)), Err(Refusal::NO_PLACE));
        assert_eq!(housed.book(1, &segment(1, 512)), booked(0, 768));
    }

    /// Two deals that differ in the bytes and the commitment of the other house's segment alone.
    #[test]
    fn a_house_is_answered_alike_whatever_the_other_has_booked() {
        let answers = [4, 5].map(|other| {
            let mut housed = Housed::<2048>::new();
            let mut tree = filled_tree(&housed.deal).unwrap();
            let mut book = |house, segment: &[u8]| {
                let tree = Some(&mut tree[..]);
                book(&mut housed.deal, tree, &mut housed.table, house, segment)
            };
            book(2, &segment(other, 300)).unwrap();
            let own = [1, 4, 5, 1].map(|seed| book(1, &segment(seed, 300)));
            (own, [1792, 1856, 1856, 1800].map(|place| housed.cancel(1, place)))
        });
        assert_eq!(answers[0], answers[1]);
        assert_eq!(answers[0].0[1..], [booked(1024, 1920), Err(Refusal::QUOTA), kept(512, 1856)]);
    }

    #[test]
    fn found_bytes_are_a_part_of_the_deal() {
        let mut deal = [0; 1024];
        put(&mut deal, &segment(1, 128));
        put(&mut deal, &segment(2, 256));
        let wanted = commitment(&segment(2, 256)).unwrap();
        let found = find(&deal, wanted.as_ref()).unwrap();
        assert_eq!((found.offset, found.size, found.place), (256, 256, 832));
        assert_eq!(found.segment.as_ptr_range(), deal[256..512].as_ptr_range());
        assert_eq!(find(&deal, &[0; 32]), Err(Refusal::NOT_KEPT));
        assert_eq!(find(&deal, &[0; 31]), Err(Refusal::COMMITMENT_LENGTH));
        assert_eq!(find(&deal[..1000], &[0; 32]), Err(Refusal::SIZE));
    }

    #[test]
    fn a_tally_counts_every_slot_once() {
        let mut deal = [0; 1024];
        assert_eq!(tally(&deal), Ok(Tally { blank: 4, damaged: 0, valid: 0 }));
        put(&mut deal, &segment(1, 128));
        put(&mut deal, &segment(2, 128));
        deal[832] ^= 1; // the second entry is damaged
        deal[960..].copy_from_slice(&make_entry(&[7; 32], 1, 1).unwrap()); // valid, and stands not
        assert_eq!(tally(&deal), Ok(Tally { blank: 1, damaged: 1, valid: 2 }));
        assert_eq!(put(&mut deal, &segment(3, 128)), Position { offset: 128, place: 832 }); // a damaged slot is free
        assert_eq!(tally(&deal), Ok(Tally { blank: 1, damaged: 0, valid: 3 }));
        assert_eq!(tally(&deal[..1023]), Err(Refusal::SIZE));
        deal[31] = 0x40;
        assert_eq!(tally(&deal), Err(Refusal::STRAY_BITS));
    }
}
