//! Inclusion records: building, checking, settling, and reading their fields.
use crate::codes::{accepted, Refusal};
use crate::deal::part;
use crate::ffi;

/// The length of the longest record that is accepted, and so of the longest that is built.
pub const MAX_RECORD: usize = 1973;

/// The answer of a settling that is not refused.
#[derive(Clone, Copy, Debug, PartialEq, Eq)]
pub enum Settled {
    /// Code 0: no string differs.
    Same,
    /// Code 17: two different 64-byte strings, with one node hash unless a tree that is not the deal's was in hand.
    Collision {
        /// The string of the first record, or of the record.
        left: [u8; 64],
        /// The string of the second record, or of the deal.
        right: [u8; 64],
    },
}

/// A field of a record: its tag, where its content starts, the content, and the next field's place.
#[derive(Clone, Copy, Debug, PartialEq, Eq)]
pub struct Field<'r> {
    /// The tag, of any value.
    pub tag: u8,
    /// The byte of the record at which the content starts.
    pub start: u64,
    /// The content.
    pub content: &'r [u8],
    /// The byte of the record at which the next field would start.
    pub next: u64,
}

/// Builds the record of the entry at a place, for the deal of this number, into the first bytes of an output, and
/// answers its length. Refusals: 2, 11, 6, 16, 12; with a tree 12 after 11 too, for its length.
///
/// With a tree (see [`tree_fill`](crate::tree_fill)), every inner node is taken from it as it stands there.
pub fn build_into(
    deal: &[u8],
    tree: Option<&[u8]>,
    number: u64,
    place: u64,
    output: &mut [u8],
) -> Result<usize, Refusal> {
    let mut length = 0;
    let (d, n, r, m) = (deal.as_ptr(), deal.len(), output.as_mut_ptr(), output.len());
    // SAFETY: the slices are live and apart, since one is borrowed mutably; the number is a local of its own.
    let code = unsafe {
        match tree {
            None => ffi::vz_build(d, n, number, place, r, m, &mut length),
            Some(tree) => ffi::vz_build_with_tree(d, n, tree.as_ptr(), tree.len(), number, place, r, m, &mut length),
        }
    };
    accepted(code).map(|()| length as usize)
}

/// The record of the entry at a place of a deal with this number, with a tree as in [`build_into`]. Refusals: 2, 11, 6,
/// 16; with a tree 12 after 11.
pub fn build(deal: &[u8], tree: Option<&[u8]>, number: u64, place: u64) -> Result<Vec<u8>, Refusal> {
    let mut record = vec![0; MAX_RECORD];
    let length = build_into(deal, tree, number, place, &mut record)?;
    record.truncate(length);
    Ok(record)
}

/// Checks a record against a deal's commitment, size and number. Refusals, in this order: 1, 2, 3, 21, 4, 5, 6, 7, 8,
/// 19, 9, 10.
pub fn check(commitment: &[u8], size: u64, number: u64, record: &[u8]) -> Result<(), Refusal> {
    let (c, n, r, m) = (commitment.as_ptr(), commitment.len(), record.as_ptr(), record.len());
    // SAFETY: both slices are live, and nothing is written.
    let code = unsafe { ffi::vz_check(c, n, size, number, r, m) };
    accepted(code)
}

/// Settles two records for one deal commitment, size and number.
/// Refusals: those of the first one's check, of the second one's, 18.
pub fn settle_records(
    commitment: &[u8],
    size: u64,
    number: u64,
    first: &[u8],
    second: &[u8],
) -> Result<Settled, Refusal> {
    let (mut left, mut right) = ([0; 64], [0; 64]);
    // SAFETY: the slices are live, and those that are written are locals of their own.
    let code = unsafe {
        ffi::vz_settle_records(
            commitment.as_ptr(),
            commitment.len(),
            size,
            number,
            first.as_ptr(),
            first.len(),
            second.as_ptr(),
            second.len(),
            left.as_mut_ptr(),
            left.len(),
            right.as_mut_ptr(),
            right.len(),
        )
    };
    settled(code, left, right)
}

/// Settles a record with a deal in hand, whose number this is. Refusals: 2, 11, those of the check against the deal's
/// own commitment and length and this number; with a tree 12 after 11.
///
/// With a tree (see [`tree_fill`](crate::tree_fill)), the deal's commitment is the last node there, and the deal's
/// strings are the pairs of nodes as they stand there, but for the entry's 64 bytes. So strings of a tree that is not
/// the deal's need not collide.
pub fn settle_with_deal(deal: &[u8], tree: Option<&[u8]>, number: u64, record: &[u8]) -> Result<Settled, Refusal> {
    let (mut left, mut right) = ([0; 64], [0; 64]);
    let (d, n, r, m) = (deal.as_ptr(), deal.len(), record.as_ptr(), record.len());
    let (v, w) = (left.as_mut_ptr(), right.as_mut_ptr());
    // SAFETY: the slices are live, and those that are written are locals of their own.
    let code = unsafe {
        match tree {
            None => ffi::vz_settle_with_deal(d, n, number, r, m, v, 64, w, 64),
            Some(tree) => ffi::vz_settle_with_tree(d, n, tree.as_ptr(), tree.len(), number, r, m, v, 64, w, 64),
        }
    };
    settled(code, left, right)
}

/// What a settling's code and strings stand for.
fn settled(code: u32, left: [u8; 64], right: [u8; 64]) -> Result<Settled, Refusal> {
    match accepted(code) {
        Ok(()) => Ok(Settled::Same),
        Err(Refusal::COLLISION) => Ok(Settled::Collision { left, right }),
        Err(refusal) => Err(refusal),
    }
}

/// The field at a place of a record, whatever its tag. Refusals: 3 where no field lies there.
pub fn read_field(record: &[u8], place: u64) -> Result<Field<'_>, Refusal> {
    let mut tag = 0;
    let (mut start, mut length, mut next) = (0, 0, 0);
    // SAFETY: the slice is live, and all that is written are locals of their own.
    let code = unsafe {
        ffi::vz_read_field(record.as_ptr(), record.len(), place, &mut tag, &mut start, &mut length, &mut next)
    };
    accepted(code)?;
    Ok(Field { tag: tag as u8, start, content: part(record, start, length), next })
}

/// The fields of a record from place 0 on, up to the first place that is no field.
pub fn fields(record: &[u8]) -> Fields<'_> {
    Fields { record, place: 0 }
}

/// Reads the fields of a record in turn.
#[derive(Clone, Debug)]
pub struct Fields<'r> {
    record: &'r [u8],
    place: u64,
}

impl Fields<'_> {
    /// The place that is read next.
    pub fn place(&self) -> u64 {
        self.place
    }
}

impl<'r> Iterator for Fields<'r> {
    type Item = Field<'r>;

    fn next(&mut self) -> Option<Field<'r>> {
        let field = read_field(self.record, self.place).ok()?;
        self.place = field.next;
        Some(field)
    }
}

#[cfg(test)]
mod tests {
    use super::*;
    use crate::hash::commitment;
    use crate::testing::{put, segment};

    const NUMBER: u64 = 0x0102_0304_0506_0708;

    /// A deal of 512 bytes that keeps two segments, with its commitment and the records of both.
    fn example() -> ([u8; 512], [u8; 32], Vec<u8>, Vec<u8>) {
        let mut deal = [0; 512];
        put(&mut deal, &segment(1, 128));
        put(&mut deal, &segment(2, 128));
        let root = commitment(&deal).unwrap().0;
        let (first, second) = (build(&deal, None, NUMBER, 256).unwrap(), build(&deal, None, NUMBER, 320).unwrap());
        (deal, root, first, second)
    }

    #[test]
    fn a_built_record_is_accepted() {
        let (_, root, first, second) = example();
        assert_eq!(first.len(), 245);
        assert_eq!(check(&root, 512, NUMBER, &first), Ok(()));
        assert_eq!(check(&root, 512, NUMBER, &second), Ok(()));
        assert_ne!(first, second);
    }

    #[test]
    fn a_record_with_any_byte_changed_is_refused() {
        let (_, root, first, _) = example();
        for at in 0..first.len() {
            let mut changed = first.clone();
            changed[at] ^= 1;
            assert!(check(&root, 512, NUMBER, &changed).is_err(), "byte {at}");
        }
    }

    #[test]
    fn the_refusals_of_the_check() {
        let (_, root, first, _) = example();
        let changed = |at: usize, value: u8| {
            let mut record = first.clone();
            record[at] = value;
            record
        };
        let early: [(&[u8], u64, &[u8], Refusal); 6] = [
            (&root[..31], 511, &[], Refusal::COMMITMENT_LENGTH),
            (&root, 511, &[], Refusal::SIZE),
            (&root, 512, &[], Refusal::FORM),
            (&root, 512, &first[..244], Refusal::FORM),
            (&root, 512, &first[..234], Refusal::FORM), // without the number's field
            (&root, 512, &[&first[..], &[0]].concat(), Refusal::FORM),
        ];
        for (root, size, record, refusal) in early {
            assert_eq!(check(root, size, NUMBER, record), Err(refusal));
            assert_eq!(check(root, size, NUMBER + 1, record), Err(refusal));
        }
        let late = [
            (512, changed(49, 0), Refusal::SEGMENT_SIZE),
            (512, changed(38, 64), Refusal::OFFSET),
            (512, changed(60, 1), Refusal::PLACE),
            (1024, first.clone(), Refusal::PLACE),
            (512, [&first[..68], &[5, 0, 0, 6, 0, 0], &first[234..]].concat(), Refusal::PATH_LENGTH),
            (512, changed(34, 0xff), Refusal::COMMITMENT_BITS),
            (512, changed(102, 0xff), Refusal::PATH_BITS),
            (512, changed(233, 0x40), Refusal::PATH_BITS),
            (512, changed(72, !first[72]), Refusal::SEGMENT_PATH),
            (512, changed(232, !first[232]), Refusal::ENTRY_PATH),
        ];
        for (size, record, refusal) in late {
            assert_eq!(check(&root, size, NUMBER, &record), Err(refusal));
            assert_eq!(check(&root, size, NUMBER + 1, &record), Err(Refusal::DEAL_NUMBER), "before {refusal}");
        }
    }

    #[test]
    fn a_record_names_the_number_of_its_deal() {
        let (deal, root, first, second) = example();
        for number in [0, 1, 1 << 63, u64::MAX, NUMBER] {
            let record = build(&deal, None, number, 256).unwrap();
            assert_eq!(record[..234], first[..234]);
            assert_eq!(record[234..], [&[7, 8, 0], &number.to_le_bytes()[..]].concat());
            assert_eq!(check(&root, 512, number, &record), Ok(()));
            assert_eq!(settle_with_deal(&deal, None, number, &record), Ok(Settled::Same));
            for bit in 0..64 {
                let other = number ^ 1 << bit;
                assert_eq!(check(&root, 512, other, &record), Err(Refusal::DEAL_NUMBER));
                assert_eq!(settle_with_deal(&deal, None, other, &record), Err(Refusal::DEAL_NUMBER));
                assert_eq!(settle_records(&root, 512, other, &record, &[]), Err(Refusal::DEAL_NUMBER));
            }
        }
        let other = build(&deal, None, NUMBER + 1, 320).unwrap();
        assert_eq!(settle_records(&root, 512, NUMBER, &first, &other), Err(Refusal::DEAL_NUMBER));
        assert_eq!(settle_records(&root, 512, NUMBER, &first, &second), Err(Refusal::OTHER_PLACE));
        assert_eq!(settle_records(&root, 512, NUMBER, &other, &first[..244]), Err(Refusal::DEAL_NUMBER));
        assert_eq!(settle_records(&root, 512, NUMBER, &first[..244], &other), Err(Refusal::FORM));
    }

    #[test]
    fn an_output_that_is_too_short_stays() {
        let (deal, _, first, _) = example();
        let mut output = [9; 244];
        assert_eq!(build_into(&deal, None, NUMBER, 256, &mut output), Err(Refusal::OUTPUT));
        assert_eq!(output, [9; 244]);
        assert_eq!(build_into(&deal, None, NUMBER, 256, &mut []), Err(Refusal::OUTPUT));
        let mut output = [9; 250];
        assert_eq!(build_into(&deal, None, NUMBER, 256, &mut output), Ok(245));
        assert_eq!(output[..245], first);
        assert_eq!(output[245..], [9; 5]);
    }

    #[test]
    fn refused_buildings() {
        let (mut deal, ..) = example();
        assert_eq!(build(&deal, None, NUMBER, 384), Err(Refusal::NOT_KEPT));
        assert_eq!(build(&deal, None, NUMBER, 300), Err(Refusal::PLACE));
        assert_eq!(build(&deal[..256], None, NUMBER, 192), Err(Refusal::SIZE));
        deal[0] ^= 1;
        assert_eq!(build(&deal, None, NUMBER, 256), Err(Refusal::NOT_KEPT));
        deal[31] |= 0x80;
        assert_eq!(build(&deal, None, NUMBER, 300), Err(Refusal::STRAY_BITS));
    }

    #[test]
    fn settling() {
        let (mut deal, root, first, second) = example();
        assert_eq!(settle_records(&root, 512, NUMBER, &first, &first), Ok(Settled::Same));
        assert_eq!(settle_records(&root, 512, NUMBER, &first, &second), Err(Refusal::OTHER_PLACE));
        assert_eq!(settle_records(&root, 512, NUMBER, &first, &[]), Err(Refusal::FORM));
        assert_eq!(settle_with_deal(&deal, None, NUMBER, &first), Ok(Settled::Same));
        assert_eq!(settle_with_deal(&deal[..100], None, NUMBER, &first), Err(Refusal::SIZE));
        deal[0] ^= 1;
        assert_eq!(settle_with_deal(&deal, None, NUMBER, &first), Err(Refusal::SEGMENT_PATH));
    }

    #[test]
    fn code_17_is_a_collision_with_its_pair() {
        let (left, right) = ([1; 64], [2; 64]);
        assert_eq!(settled(17, left, right), Ok(Settled::Collision { left, right }));
        assert_eq!(settled(0, left, right), Ok(Settled::Same));
        assert_eq!(settled(18, left, right), Err(Refusal::OTHER_PLACE));
    }

    #[test]
    fn fields_in_turn() {
        let (_, _, first, _) = example();
        let mut reader = fields(&first);
        let read: Vec<_> = reader.by_ref().map(|f| (f.tag, f.start, f.content.len())).collect();
        assert_eq!(read, [(1, 3, 32), (2, 38, 8), (3, 49, 8), (4, 60, 8), (5, 71, 64), (6, 138, 96), (7, 237, 8)]);
        assert_eq!(reader.place(), 245);
        let mut cut = fields(&first[..100]);
        assert_eq!(cut.by_ref().count(), 4);
        assert_eq!(cut.place(), 68);
        assert_eq!(fields(&[]).next(), None);
        for place in [243, 245, 246, u64::MAX, u64::MAX - 2] {
            assert_eq!(read_field(&first, place), Err(Refusal::FORM), "{place}");
        }
    }
}
