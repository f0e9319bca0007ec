//! The functions of the static library, as include/vizhuthamen.h declares them.
//!
//! A caller lends a pointer and a length; no pointer is null, and memory that is written overlaps no other argument.

extern "C" {
    /// SHA-256 of a message of 0 to 2^24 bytes. `digest`: 32 bytes. Codes: 12, 2.
    pub fn vz_sha256(message: *const u8, message_len: usize, digest: *mut u8, digest_len: usize) -> u32;

    /// The commitment of a run, a power of two from 32 to 2^24 bytes. `node`: 32 bytes. Codes: 12, 2, 11.
    pub fn vz_commitment(run: *const u8, run_len: usize, node: *mut u8, node_len: usize) -> u32;

    /// A new start of a stream. `state`: [`STREAM_STATE`](crate::STREAM_STATE) bytes. Codes: 12.
    pub fn vz_stream_new(state: *mut u8, state_len: usize) -> u32;

    /// Takes one more piece of a stream. Codes: 12, 11, 2; the last two stick until a new start.
    pub fn vz_stream_take(state: *mut u8, state_len: usize, piece: *const u8, piece_len: usize) -> u32;

    /// The commitment of a stream's bytes, and their number. `node`: 32 bytes. Codes: 12, 11, 2.
    pub fn vz_stream_end(state: *const u8, state_len: usize, node: *mut u8, node_len: usize, count: *mut u64) -> u32;

    /// Writes the segment of raw bytes into the first bytes of `segment`. Codes: 2, 12.
    pub fn vz_fr32_pad(raw: *const u8, raw_len: usize, segment: *mut u8, segment_len: usize, length: *mut u64) -> u32;

    /// Writes the raw bytes of a segment into the first bytes of `raw`. Codes: 2, 24, 11, 12.
    pub fn vz_fr32_unpad(
        raw_length: u64,
        segment: *const u8,
        segment_len: usize,
        raw: *mut u8,
        raw_len: usize,
        length: *mut u64,
    ) -> u32;

    /// The number of entries and the index start for a deal size. Codes: 2.
    pub fn vz_index_numbers(size: u64, entries: *mut u64, start: *mut u64) -> u32;

    /// The index entry for a commitment and two numbers. `entry`: 64 bytes. Codes: 12, 1, 8.
    pub fn vz_make_entry(
        commitment: *const u8,
        commitment_len: usize,
        offset: u64,
        size: u64,
        entry: *mut u8,
        entry_len: usize,
    ) -> u32;

    /// The kind and the fields of the 64 bytes of an entry. `commitment`: 32 bytes. Codes: 12, 2.
    pub fn vz_read_entry(
        entry: *const u8,
        entry_len: usize,
        kind: *mut u32,
        commitment: *mut u8,
        commitment_len: usize,
        offset: *mut u64,
        size: *mut u64,
    ) -> u32;

    /// Writes the state of every slot of a deal into the first bytes of `states`, one byte each. Codes: 2, 11, 12.
    pub fn vz_audit(deal: *const u8, deal_len: usize, states: *mut u8, states_len: usize) -> u32;

    /// How many slots of a deal's index are blank, damaged and valid. Codes: 2, 11.
    pub fn vz_tally(deal: *const u8, deal_len: usize, blank: *mut u64, damaged: *mut u64, valid: *mut u64) -> u32;

    /// The lowest slot that holds a kept entry with this commitment. Codes: 1, 2, 11, 16.
    pub fn vz_find(
        deal: *const u8,
        deal_len: usize,
        commitment: *const u8,
        commitment_len: usize,
        offset: *mut u64,
        size: *mut u64,
        place: *mut u64,
    ) -> u32;

    /// Books a segment into a deal for a house, 1 or 2. `table`: a byte for each slot. Numbers are written with
    /// 0 and 15. Codes: 23 (house), 2, 23 (table), 4, 11, 15, 22, 13, 14.
    pub fn vz_book(
        deal: *mut u8,
        deal_len: usize,
        table: *mut u8,
        table_len: usize,
        house: u8,
        segment: *const u8,
        segment_len: usize,
        offset: *mut u64,
        place: *mut u64,
    ) -> u32;

    /// Cancels a house's entry that stands at a place of a deal: its 64 bytes and its byte of the table are zeros
    /// with 0. Codes: 23 (house), 2, 23 (table), 11, 6, 16.
    pub fn vz_cancel(deal: *mut u8, deal_len: usize, table: *mut u8, table_len: usize, house: u8, place: u64) -> u32;

    /// Collects a deal and its table into a second deal and a second table of the same lengths.
    /// Codes: 2, 23, 12, 11, 20.
    pub fn vz_collect(
        deal: *const u8,
        deal_len: usize,
        table: *const u8,
        table_len: usize,
        second: *mut u8,
        second_len: usize,
        second_table: *mut u8,
        second_table_len: usize,
    ) -> u32;

    /// Plays a log back on an empty ledger for a deal of this size. `rows`: [`ROWS`](crate::ROWS) bytes, written with
    /// `count` where it answers 0. Codes: 12, 2, 3; or [`WRONG_LINE`](crate::WRONG_LINE), with which the four other
    /// numbers are written.
    pub fn vz_playback(
        size: u64,
        log: *const u8,
        log_len: usize,
        line: *mut u64,
        code: *mut u32,
        offset: *mut u64,
        place: *mut u64,
        count: *mut u64,
        rows: *mut u8,
        rows_len: usize,
    ) -> u32;

    /// Builds the record of the entry at a place, for the deal of this number, into the first bytes of `record`. Codes:
    /// 2, 11, 6, 16, 12.
    pub fn vz_build(
        deal: *const u8,
        deal_len: usize,
        number: u64,
        place: u64,
        record: *mut u8,
        record_len: usize,
        length: *mut u64,
    ) -> u32;

    /// Checks a record against a deal's commitment, size and number. Codes, in this order: 1, 2, 3, 21, 4, 5, 6, 7, 8,
    /// 19, 9, 10.
    pub fn vz_check(
        commitment: *const u8,
        commitment_len: usize,
        size: u64,
        number: u64,
        record: *const u8,
        record_len: usize,
    ) -> u32;

    /// Settles two records for one deal. `left`, `right`: 64 bytes each, written with 0 and 17. Codes: 12, the first
    /// one's check, the second one's, 18, 17.
    pub fn vz_settle_records(
        commitment: *const u8,
        commitment_len: usize,
        size: u64,
        number: u64,
        first: *const u8,
        first_len: usize,
        second: *const u8,
        second_len: usize,
        left: *mut u8,
        left_len: usize,
        right: *mut u8,
        right_len: usize,
    ) -> u32;

    /// Settles a record with a deal in hand. `left`, `right`: as above. Codes: 12, 2, 11, those of the check, 17.
    pub fn vz_settle_with_deal(
        deal: *const u8,
        deal_len: usize,
        number: u64,
        record: *const u8,
        record_len: usize,
        left: *mut u8,
        left_len: usize,
        right: *mut u8,
        right_len: usize,
    ) -> u32;

    /// Writes every inner node of a deal into its tree, which has 32 bytes less than the deal. Codes: 2, 11, 12.
    pub fn vz_tree_fill(deal: *const u8, deal_len: usize, tree: *mut u8, tree_len: usize) -> u32;

    /// Writes the nodes over the pairs of nodes of `below` into `above`, which is half as long. Codes: 12.
    pub fn vz_tree_row(below: *const u8, below_len: usize, above: *mut u8, above_len: usize) -> u32;

    /// [`vz_book`] with the deal's tree in hand, which is brought up to date. Codes: 23 (house), 2, 23 (table), 4, 11,
    /// 12, 15, 22, 13, 14.
    pub fn vz_book_with_tree(
        deal: *mut u8,
        deal_len: usize,
        tree: *mut u8,
        tree_len: usize,
        table: *mut u8,
        table_len: usize,
        house: u8,
        segment: *const u8,
        segment_len: usize,
        offset: *mut u64,
        place: *mut u64,
    ) -> u32;

    /// [`vz_cancel`] with the deal's tree in hand, which is brought up to date. Codes: 23 (house), 2, 23 (table), 11,
    /// 12, 6, 16.
    pub fn vz_cancel_with_tree(
        deal: *mut u8,
        deal_len: usize,
        tree: *mut u8,
        tree_len: usize,
        table: *mut u8,
        table_len: usize,
        house: u8,
        place: u64,
    ) -> u32;

    /// [`vz_collect`] with a tree for the second deal, which is filled.
    /// Codes: 2, 23, 12 (second deal), 11, 12 (tree), 20.
    pub fn vz_collect_with_tree(
        deal: *const u8,
        deal_len: usize,
        table: *const u8,
        table_len: usize,
        second: *mut u8,
        second_len: usize,
        tree: *mut u8,
        tree_len: usize,
        second_table: *mut u8,
        second_table_len: usize,
    ) -> u32;

    /// [`vz_build`] with the deal's tree in hand. Codes: 2, 11, 12 (tree), 6, 16, 12 (record).
    pub fn vz_build_with_tree(
        deal: *const u8,
        deal_len: usize,
        tree: *const u8,
        tree_len: usize,
        number: u64,
        place: u64,
        record: *mut u8,
        record_len: usize,
        length: *mut u64,
    ) -> u32;

    /// [`vz_settle_with_deal`] with the deal's tree in hand.
    /// Codes: 12 (strings), 2, 11, 12 (tree), those of the check, 17.
    pub fn vz_settle_with_tree(
        deal: *const u8,
        deal_len: usize,
        tree: *const u8,
        tree_len: usize,
        number: u64,
        record: *const u8,
        record_len: usize,
        left: *mut u8,
        left_len: usize,
        right: *mut u8,
        right_len: usize,
    ) -> u32;

    /// The field at a place of a record. Codes: 3 where no field lies there.
    pub fn vz_read_field(
        record: *const u8,
        record_len: usize,
        place: u64,
        tag: *mut u32,
        start: *mut u64,
        length: *mut u64,
        next: *mut u64,
    ) -> u32;
}

/// What the header says of outputs beyond the safe functions' reach: a wrong length gets 12 before all else, and
/// outputs stay as they were with every code that writes none.
#[cfg(test)]
mod tests {
    use super::*;
    use crate::STREAM_STATE;

    const LENGTHS: [usize; 8] = [0, 31, 32, 33, 63, 65, 1071, 1073];
    const PATTERN: u8 = 0xa5;
    const NUMBER: u64 = 0xa5a5_a5a5_a5a5_a5a5;

    /// Lends an output of each wrong length, full of a pattern, and expects code 12 and the pattern.
    fn refuses_lengths(right: usize, call: impl Fn(&mut [u8]) -> u32) {
        for length in LENGTHS.into_iter().filter(|length| *length != right) {
            let mut output = vec![PATTERN; length];
            assert_eq!(call(&mut output), 12, "{length}");
            assert!(output.iter().all(|byte| *byte == PATTERN), "{length}");
        }
        assert_ne!(call(&mut vec![PATTERN; right]), 12);
    }

    #[test]
    fn one_output_of_a_fixed_length() {
        // An input that is refused too: the output's length is judged first.
        for input in [&[0; 32][..], &[]] {
            refuses_lengths(32, |out| unsafe { vz_sha256(input.as_ptr(), input.len(), out.as_mut_ptr(), out.len()) });
            refuses_lengths(32, |out| unsafe {
                vz_commitment(input.as_ptr(), input.len(), out.as_mut_ptr(), out.len())
            });
            refuses_lengths(64, |out| unsafe {
                vz_make_entry(input.as_ptr(), input.len(), 0, 0, out.as_mut_ptr(), out.len())
            });
        }
    }

    #[test]
    fn an_output_beside_numbers() {
        for input in [&[0; 512][..], &[0; 64], &[]] {
            refuses_lengths(32, |out| {
                let (mut word, mut offset, mut size) = (7, NUMBER, NUMBER);
                let code = unsafe {
                    let (out, len) = (out.as_mut_ptr(), out.len());
                    vz_read_entry(input.as_ptr(), input.len(), &mut word, out, len, &mut offset, &mut size)
                };
                assert!(code == 0 || (word, offset, size) == (7, NUMBER, NUMBER));
                code
            });
        }
    }

    #[test]
    fn two_outputs() {
        let (deal, tree, record, root) = ([0; 512], [0; 480], [0; 245], [0; 32]);
        let records = |left: &mut [u8], right: &mut [u8]| unsafe {
            let (l, ln, r, rn) = (left.as_mut_ptr(), left.len(), right.as_mut_ptr(), right.len());
            vz_settle_records(root.as_ptr(), 32, 512, 9, record.as_ptr(), 245, record.as_ptr(), 245, l, ln, r, rn)
        };
        let with_deal = |left: &mut [u8], right: &mut [u8]| unsafe {
            let (l, ln, r, rn) = (left.as_mut_ptr(), left.len(), right.as_mut_ptr(), right.len());
            vz_settle_with_deal(deal.as_ptr(), 512, 9, record.as_ptr(), 245, l, ln, r, rn)
        };
        let with_tree = |left: &mut [u8], right: &mut [u8]| unsafe {
            let (l, ln, r, rn) = (left.as_mut_ptr(), left.len(), right.as_mut_ptr(), right.len());
            vz_settle_with_tree(deal.as_ptr(), 512, tree.as_ptr(), 480, 9, record.as_ptr(), 245, l, ln, r, rn)
        };
        refuses_lengths(64, |out| records(out, &mut [0; 64]));
        refuses_lengths(64, |out| records(&mut [0; 64], out));
        refuses_lengths(64, |out| with_deal(out, &mut [0; 64]));
        refuses_lengths(64, |out| with_deal(&mut [0; 64], out));
        refuses_lengths(64, |out| with_tree(out, &mut [0; 64]));
        refuses_lengths(64, |out| with_tree(&mut [0; 64], out));
    }

    #[test]
    fn the_state_of_a_stream() {
        // A state of another length is neither read nor written, whatever the piece.
        for piece in [&[][..], &[0xff; 32]] {
            refuses_lengths(STREAM_STATE, |state| unsafe {
                vz_stream_take(state.as_mut_ptr(), state.len(), piece.as_ptr(), piece.len())
            });
        }
        refuses_lengths(STREAM_STATE, |state| unsafe { vz_stream_new(state.as_mut_ptr(), state.len()) });
        let end = |state: &[u8], node: &mut [u8]| {
            let mut count = NUMBER;
            let code = unsafe {
                let (node, len) = (node.as_mut_ptr(), node.len());
                vz_stream_end(state.as_ptr(), state.len(), node, len, &mut count)
            };
            assert!(code == 0 || count == NUMBER);
            code
        };
        refuses_lengths(STREAM_STATE, |state| end(state, &mut [0; 32]));
        refuses_lengths(32, |node| end(&[0; STREAM_STATE], node));
        let mut node = [PATTERN; 32];
        assert_eq!(end(&[0; STREAM_STATE - 1], &mut node), 12);
        assert_eq!(end(&[0; STREAM_STATE], &mut node), 2);
        assert_eq!(node, [PATTERN; 32]);
    }

    #[test]
    fn numbers_stay_with_refusals() {
        let (mut a, mut b, mut c, mut tag) = (NUMBER, NUMBER, NUMBER, 7);
        let (mut deal, mut tree, mut table) = ([0; 512], [0; 480], [0; 4]);
        let stray = [0xff; 128];
        unsafe {
            assert_eq!(vz_index_numbers(511, &mut a, &mut b), 2);
            assert_eq!(vz_tally(deal.as_ptr(), 511, &mut a, &mut b, &mut c), 2);
            assert_eq!(vz_find(deal.as_ptr(), 512, deal.as_ptr(), 32, &mut a, &mut b, &mut c), 16);
            assert_eq!(vz_build(deal.as_ptr(), 512, 9, 256, [0; 300].as_mut_ptr(), 300, &mut a), 16);
            let (lent, t, owners) = (deal.as_mut_ptr(), tree.as_mut_ptr(), table.as_mut_ptr());
            for (house, slots, length, code) in [(3, 4, 128, 23), (1, 3, 128, 23), (1, 4, 0, 4), (2, 4, 128, 11)] {
                assert_eq!(vz_book(lent, 512, owners, slots, house, stray.as_ptr(), length, &mut a, &mut b), code);
                let with_tree =
                    vz_book_with_tree(lent, 512, t, 479, owners, slots, house, stray.as_ptr(), length, &mut a, &mut b);
                assert_eq!(with_tree, code);
            }
            assert_eq!(vz_book_with_tree(lent, 512, t, 479, owners, 4, 1, [0; 128].as_ptr(), 128, &mut a, &mut b), 12);
            assert_eq!(vz_build_with_tree(lent, 512, t, 479, 9, 256, [0; 300].as_mut_ptr(), 300, &mut a), 12);
            assert_eq!(vz_build_with_tree(lent, 512, t, 480, 9, 256, [0; 300].as_mut_ptr(), 300, &mut a), 16);
            assert_eq!(vz_read_field(deal.as_ptr(), 2, 0, &mut tag, &mut a, &mut b, &mut c), 3);
            assert_eq!(vz_fr32_pad(deal.as_ptr(), 0, [0; 300].as_mut_ptr(), 300, &mut a), 2);
            assert_eq!(vz_fr32_pad(deal.as_ptr(), 128, [0; 300].as_mut_ptr(), 129, &mut a), 12);
            assert_eq!(vz_fr32_unpad(128, deal.as_ptr(), 128, [0; 300].as_mut_ptr(), 300, &mut a), 24);
            assert_eq!(vz_fr32_unpad(128, deal.as_ptr(), 130, [0; 300].as_mut_ptr(), 127, &mut a), 12);
        }
        assert_eq!((a, b, c, tag), (NUMBER, NUMBER, NUMBER, 7));
    }
}
