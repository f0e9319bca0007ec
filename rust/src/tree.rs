//! The tree beside a deal: a buffer with every inner node of the deal's tree.
use crate::codes::{accepted, Refusal};
use crate::ffi;
use crate::parts;

/// The length of the tree of a deal of that many bytes.
pub const fn tree_length(size: usize) -> usize {
    size.saturating_sub(32)
}

/// Writes every inner node of a deal into its tree, which has [`tree_length`] bytes: heights from the bottom, left to
/// right, so that node `i` of height `h`, from 1 on, stands at `D - D / 2^(h - 1) + 32 i` for a deal of `D` bytes, and
/// the deal's commitment in the last 32 bytes. Refusals: 2, 11, 12. From 2^20 bytes on all processors work on it.
///
/// [`book`](crate::book), [`cancel`](crate::cancel), [`build`](crate::build) and
/// [`settle_with_deal`](crate::settle_with_deal) take such a tree, and then every inner node as it stands there. With a
/// tree that was filled for the deal, where since then both were changed by this function and by `book` and `cancel`
/// with the tree in hand alone, they answer as they do without one. With any other tree they answer too, but a record
/// that is built may be refused by the check, a kept segment may be booked again, and the two strings that a settling
/// shows may have two node hashes. [`collect`](crate::collect) fills a tree for the second deal, as this function
/// would.
pub fn tree_fill(deal: &[u8], tree: &mut [u8]) -> Result<(), Refusal> {
    tree_fill_with_threads(deal, tree, parts::threads(deal.len()))
}

/// [`tree_fill`] with that many threads at most, this one among them. Below 2^20 bytes this one does all.
pub fn tree_fill_with_threads(deal: &[u8], tree: &mut [u8], threads: usize) -> Result<(), Refusal> {
    let fits = threads > 1 && parts::pay_off(deal.len()) && tree.len() == tree_length(deal.len());
    match fits && no_stray_bits(deal, threads) {
        true => fill_by_parts(deal, tree, threads),
        false => fill_by_one_call(deal, tree),
    }
}

/// The bytes of a part in which one thread looks for stray bits: a thread looks through that many while another starts.
const SEARCHED: usize = 1 << 20;

/// Whether no node of a deal has stray bits. What has some is left to one call, which refuses it and writes nothing.
fn no_stray_bits(deal: &[u8], threads: usize) -> bool {
    let clear = |part: &[u8]| part.chunks_exact(32).fold(0, |bits, node| bits | node[31]) < 0x40;
    parts::each(threads, deal.chunks(SEARCHED), clear).into_iter().all(|clear| clear)
}

/// The library hashes up to so many nodes at once.
const LANES: usize = 16;

/// Fewer parts are not worth a thread's start, and more make slices of rows so short that the start of each costs time.
const PARTS: (usize, usize) = (4, 128);

/// Fills the tree by parts of the deal. That it is then the one that `vz_tree_fill` writes is proved, however the rows
/// are cut: `filled_by_ranges` in crates/tree/specs/RowAboveLaws.antt.
fn fill_by_parts(deal: &[u8], tree: &mut [u8], threads: usize) -> Result<(), Refusal> {
    fill_rows_by_parts(deal, rows(deal.len(), tree), threads)
}

/// Writes each row from the one below it: over each part by itself as long as a part has nodes for all lanes, and then
/// the rows above, which are over 16 nodes a part, in the same way.
fn fill_rows_by_parts(below: &[u8], mut low: Vec<&mut [u8]>, threads: usize) -> Result<(), Refusal> {
    let part = parts::PART.max(below.len() / PARTS.1);
    let count = below.len() / part;
    if count < PARTS.0 {
        return fill_rows(below, low);
    }
    let high = low.split_off((part / 32 / LANES).ilog2() as usize);
    let mut over: Vec<Vec<&mut [u8]>> = (0..count).map(|_| vec![]).collect();
    for row in &mut low {
        let slices = row.chunks_exact_mut(row.len() / count);
        over.iter_mut().zip(slices).for_each(|(rows, slice)| rows.push(slice));
    }
    let work = below.chunks_exact(part).zip(over);
    parts::each(threads, work, |(part, rows)| fill_rows(part, rows)).into_iter().collect::<Result<(), Refusal>>()?;
    fill_rows_by_parts(low[low.len() - 1], high, threads)
}

/// The rows of the tree of a deal of that many bytes, from height 1 on.
fn rows(size: usize, tree: &mut [u8]) -> Vec<&mut [u8]> {
    let (mut rows, mut rest, mut length) = (vec![], tree, size / 2);
    while length >= 32 {
        let (row, above) = rest.split_at_mut(length);
        rows.push(row);
        (rest, length) = (above, length / 2);
    }
    rows
}

/// Writes each row from the one below it.
fn fill_rows<'a>(below: &'a [u8], rows: impl IntoIterator<Item = &'a mut [u8]>) -> Result<(), Refusal> {
    rows.into_iter().try_fold(below, |below, row| tree_row(below, row).map(|()| &*row)).map(drop)
}

/// Writes the nodes over the pairs of `below` into `above`: a row of a tree, or a part of one, from the row below it.
/// `below` has a whole number of pairs of nodes, and `above` is half as long. Refusals: 12. Stray bits are not looked
/// for.
pub fn tree_row(below: &[u8], above: &mut [u8]) -> Result<(), Refusal> {
    // SAFETY: the slices are live and apart, since one is borrowed mutably.
    let code = unsafe { ffi::vz_tree_row(below.as_ptr(), below.len(), above.as_mut_ptr(), above.len()) };
    accepted(code)
}

fn fill_by_one_call(deal: &[u8], tree: &mut [u8]) -> Result<(), Refusal> {
    // SAFETY: the slices are live and apart, since one is borrowed mutably.
    let code = unsafe { ffi::vz_tree_fill(deal.as_ptr(), deal.len(), tree.as_mut_ptr(), tree.len()) };
    accepted(code)
}

/// A new tree, filled for a deal. Refusals: 2, 11.
pub fn filled_tree(deal: &[u8]) -> Result<Vec<u8>, Refusal> {
    let mut tree = vec![0; tree_length(deal.len())];
    tree_fill(deal, &mut tree).map(|()| tree)
}

#[cfg(test)]
mod tests {
    use super::*;
    use crate::deal::{book, cancel, collect, Booking, Position};
    use crate::hash::commitment;
    use crate::record::{build, settle_with_deal, Settled};
    use crate::testing::{noise, put, segment};

    /// Every node of the tree, from the definition: the commitments of all runs of a power of two of nodes.
    fn nodes(deal: &[u8]) -> Vec<u8> {
        let sizes = std::iter::successors(Some(64), |size| Some(2 * size)).take_while(|size| *size <= deal.len());
        sizes.flat_map(|size| deal.chunks(size)).flat_map(|run| commitment(run).unwrap().0).collect()
    }

    #[test]
    fn a_filled_tree_has_every_inner_node() {
        for size in [512, 1024, 4096] {
            let deal = segment(9, size);
            let tree = filled_tree(&deal).unwrap();
            assert_eq!(tree.len(), tree_length(size));
            assert_eq!(tree, nodes(&deal));
            assert_eq!(tree[size - 64..], commitment(&deal).unwrap().0);
        }
    }

    #[test]
    fn by_parts_as_by_one_call() {
        let sizes = [1 << 20, 1 << 20, 1 << 21, 1 << 22];
        let deals = (0..).zip(sizes).map(|(seed, size)| noise(seed, size));
        for deal in deals.chain([segment(9, 1 << 24)]) {
            let length = tree_length(deal.len());
            let mut one = vec![1; length];
            assert_eq!(fill_by_one_call(&deal, &mut one), Ok(()));
            for threads in 0..4 {
                let mut parts = vec![2; length];
                assert_eq!(fill_by_parts(&deal, &mut parts, threads), Ok(()));
                assert!(one == parts, "{}, {threads}", deal.len());
            }
            assert!(filled_tree(&deal) == Ok(one), "{}", deal.len());
        }
    }

    #[test]
    fn refused_fillings_of_2_to_the_20_bytes_change_nothing() {
        let mut deal = noise(3, 1 << 20);
        let before = noise(4, 1 << 20);
        let expected = |deal: &[u8], length: usize, refusal: Refusal| {
            let (mut one, mut tree) = (before[..length].to_vec(), before[..length].to_vec());
            assert_eq!(fill_by_one_call(deal, &mut one), Err(refusal));
            for threads in [1, 3] {
                assert_eq!(tree_fill_with_threads(deal, &mut tree, threads), Err(refusal));
                assert!(tree == before[..length]);
            }
        };
        let length = tree_length(deal.len());
        for tree in [0, length - 32, length - 1, length + 1, length + 32] {
            expected(&deal, tree, Refusal::OUTPUT);
            expected(&deal[..3 << 18], tree, Refusal::SIZE);
            expected(&deal[..(1 << 20) - 1], tree, Refusal::SIZE);
        }
        for part in [0, 1, (1 << 20) / parts::PART - 1] {
            for node in [0, 1000, parts::PART / 32 - 1] {
                let last = part * parts::PART + 32 * node + 31;
                for bit in [0x40, 0x80] {
                    deal[last] ^= bit;
                    expected(&deal, length, Refusal::STRAY_BITS);
                    expected(&deal, length - 1, Refusal::STRAY_BITS);
                    deal[last] ^= bit;
                }
            }
        }
        assert!(filled_tree(&deal).is_ok());
    }

    #[test]
    fn a_row_is_the_nodes_over_the_pairs() {
        let below = noise(5, 64 * 100);
        let expected: Vec<u8> = below.chunks(64).flat_map(|pair| commitment(pair).unwrap().0).collect();
        for (first, count) in [(0, 100), (0, 0), (0, 1), (3, 16), (5, 17), (40, 33), (99, 1)] {
            let mut above = noise(6, 32 * count);
            assert_eq!(tree_row(&below[64 * first..][..64 * count], &mut above), Ok(()));
            assert_eq!(above, expected[32 * first..][..32 * count], "{first} {count}");
        }
    }

    #[test]
    fn rows_of_other_lengths() {
        let below = [1; 192];
        for (pairs, nodes) in
            [(0, 1), (0, 32), (32, 0), (32, 16), (63, 31), (63, 32), (64, 31), (64, 33), (64, 64), (96, 48), (192, 64)]
        {
            let mut above = [7; 64];
            assert_eq!(tree_row(&below[..pairs], &mut above[..nodes]), Err(Refusal::OUTPUT), "{pairs} {nodes}");
            assert_eq!(above, [7; 64]);
        }
    }

    #[test]
    fn a_row_over_nodes_with_stray_bits() {
        let (below, mut above) = ([0xff; 64], [0; 32]);
        assert_eq!(tree_row(&below, &mut above), Ok(()));
        let mut expected = crate::hash::sha256(&below).unwrap();
        expected[31] &= 0x3f;
        assert_eq!(above, expected);
    }

    #[test]
    fn refused_fillings_change_nothing() {
        let mut deal = [0; 512];
        let expected = |deal: &[u8], length: usize, refusal: Refusal| {
            let mut tree = vec![7; length];
            assert_eq!(tree_fill(deal, &mut tree), Err(refusal), "{length}");
            assert!(tree.iter().all(|byte| *byte == 7));
        };
        for length in [0, 479, 481, 512] {
            expected(&deal, length, Refusal::OUTPUT);
            expected(&deal[..500], length, Refusal::SIZE);
        }
        deal[31] = 0x40;
        expected(&deal, 480, Refusal::STRAY_BITS);
        expected(&deal, 481, Refusal::STRAY_BITS);
        assert_eq!(filled_tree(&[]), Err(Refusal::SIZE));
    }

    #[test]
    fn a_tree_kept_over_bookings_is_that_of_the_deal() {
        let (mut plain, mut plain_table) = (vec![0; 2048], [0; 4]);
        let (mut deal, mut table) = (vec![0; 2048], [0; 4]);
        let mut tree = filled_tree(&deal).unwrap();
        let calls = [(1, 1, 128), (2, 2, 300), (1, 1, 128), (2, 3, 1), (1, 4, 512), (2, 5, 128)];
        for (house, seed, size) in calls {
            let segment = segment(seed, size);
            let expected = book(&mut plain, None, &mut plain_table, house, &segment);
            assert_eq!(book(&mut deal, Some(&mut tree), &mut table, house, &segment), expected);
            assert_eq!((&deal, table), (&plain, plain_table));
            assert_eq!(tree, nodes(&deal));
        }
        for place in (1792..2048).step_by(64) {
            let record = build(&deal, Some(&tree), 9, place);
            assert_eq!(record, build(&deal, None, 9, place));
            assert_eq!(settle_with_deal(&deal, Some(&tree), 9, &record.unwrap()), Ok(Settled::Same));
        }
    }

    #[test]
    fn a_tree_kept_over_cancellations_is_that_of_the_deal() {
        let mut deal = vec![0; 2048];
        for (seed, size) in [(1, 128), (2, 300), (3, 1), (4, 512)] {
            put(&mut deal, &segment(seed, size));
        }
        let (mut plain, mut plain_table, mut table) = (deal.clone(), [1, 2, 1, 0], [1, 2, 1, 0]);
        let mut tree = filled_tree(&deal).unwrap();
        for (house, place) in [(1, 1856), (2, 1856), (2, 1856), (1, 1792), (1, 1984), (1, 1920), (1, 1800)] {
            let expected = cancel(&mut plain, None, &mut plain_table, house, place);
            assert_eq!(cancel(&mut deal, Some(&mut tree), &mut table, house, place), expected);
            assert_eq!((&deal, table), (&plain, plain_table));
            assert_eq!(tree, nodes(&deal));
        }
        assert_eq!(table, [0; 4]);
    }

    #[test]
    fn cancelling_writes_one_node_of_each_height() {
        let mut deal = [0; 1024];
        put(&mut deal, &segment(1, 128));
        put(&mut deal, &segment(2, 128));
        let before = segment(9, tree_length(1024)); // any other bytes
        let mut tree = before.clone();
        assert_eq!(cancel(&mut deal, Some(&mut tree), &mut [1; 4], 1, 832), Ok(()));
        let changed: Vec<usize> =
            (0..992).step_by(32).filter(|at| tree[*at..at + 32] != before[*at..at + 32]).collect();
        assert_eq!(changed, [32 * 13, 512 + 32 * 6, 768 + 32 * 3, 896 + 32, 960]);
        assert_eq!(tree[960..], commitment(&tree[896..960]).unwrap().0);
    }

    #[test]
    fn a_collected_deal_has_its_tree() {
        let mut deal = vec![0; 2048];
        for (seed, size) in [(1, 128), (2, 300), (3, 1)] {
            put(&mut deal, &segment(seed, size));
        }
        let mut table = [1, 2, 7, 0];
        cancel(&mut deal, None, &mut table, 1, 1792).unwrap();
        let (mut plain, mut second, mut tree) = (vec![7; 2048], vec![0xff; 2048], vec![0xff; tree_length(2048)]);
        let (mut plain_table, mut second_table) = ([9; 4], [0; 4]);
        assert_eq!(collect(&deal, &table, &mut plain, None, &mut plain_table), Ok(()));
        assert_eq!(collect(&deal, &table, &mut second, Some(&mut tree), &mut second_table), Ok(()));
        assert_eq!((&second, second_table), (&plain, plain_table));
        assert_eq!(second_table, [2, 7, 0, 0]);
        assert_eq!(tree, nodes(&second));
        assert_eq!(build(&second, Some(&tree), 9, 1856), build(&second, None, 9, 1856));
    }

    #[test]
    fn a_stale_tree_is_believed() {
        let (mut deal, mut table) = ([0; 1024], [0; 4]);
        let mut tree = filled_tree(&deal).unwrap();
        book(&mut deal, None, &mut table, 1, b"x").unwrap();
        assert_eq!(build(&deal, Some(&tree), 9, 768), Err(Refusal::NOT_KEPT));
        let record = build(&deal, None, 9, 768).unwrap();
        assert_eq!(settle_with_deal(&deal, Some(&tree), 9, &record), Err(Refusal::SEGMENT_PATH));
        let again = Ok(Booking::Booked(Position { offset: 128, place: 832 }));
        assert_eq!(book(&mut deal, Some(&mut tree), &mut table, 1, b"x"), again);
    }

    #[test]
    fn a_spoilt_tree_shows_strings_that_do_not_collide() {
        let mut deal = [0; 1024];
        put(&mut deal, &segment(1, 256));
        let mut tree = filled_tree(&deal).unwrap();
        let record = build(&deal, None, 9, 768).unwrap();
        tree[896] ^= 1; // the left one of the two nodes below the top
        let Ok(Settled::Collision { left, right }) = settle_with_deal(&deal, Some(&tree), 9, &record) else {
            panic!("a node on the way differs");
        };
        assert_eq!(right[..32], tree[896..928]);
        assert_ne!(commitment(&left), commitment(&right));
    }

    #[test]
    fn trees_of_another_length() {
        let (mut deal, mut tree, mut table) = ([0; 512], [0; 512], [1; 4]);
        put(&mut deal, &segment(1, 128));
        let before = deal;
        for length in [0, 479, 481, 512] {
            let lent = Some(&mut tree[..length]);
            assert_eq!(book(&mut deal, lent, &mut table, 1, &segment(1, 128)), Err(Refusal::OUTPUT));
            assert_eq!(build(&deal, Some(&tree[..length]), 9, 300), Err(Refusal::OUTPUT));
            assert_eq!(settle_with_deal(&deal, Some(&tree[..length]), 9, &[]), Err(Refusal::OUTPUT));
            assert_eq!(cancel(&mut deal, Some(&mut tree[..length]), &mut table, 1, 300), Err(Refusal::OUTPUT));
            let (mut second, mut owners) = ([7; 512], [7; 4]);
            let collected = collect(&deal, &table, &mut second, Some(&mut tree[..length]), &mut owners);
            assert_eq!(collected, Err(Refusal::OUTPUT));
            assert_eq!((second, owners), ([7; 512], [7; 4]));
        }
        assert_eq!((deal, tree, table), (before, [0; 512], [1; 4]));
    }
}
