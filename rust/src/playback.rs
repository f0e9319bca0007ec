//! Playing a log back: whether the rules give the answers that its lines say, and the ledger's rows after the last one.
use crate::codes::{accepted, Refusal};
use crate::ffi;
use crate::log::{bytes_at, number_at, Answers};
use crate::node::Node;

/// The bytes of a row: house, commitment, size, offset, entry place.
pub const ROW: usize = 57;

/// The bytes of the rows of a ledger for the largest deal in memory, which has 128 slots.
pub const ROWS: usize = 128 * ROW;

/// What the library answers where a line's answers are not those that the rules give: a number past all codes.
pub const WRONG_LINE: u32 = 256;

/// A row of a ledger: a segment that was booked, and not cancelled since.
#[derive(Clone, Copy, Debug, PartialEq, Eq, Hash)]
pub struct LedgerRow {
    /// The house whose it is.
    pub house: u8,
    /// The commitment of the segment's area, as the log's line has it.
    pub commitment: Node,
    /// The size of the segment.
    pub size: u64,
    /// The offset of the segment.
    pub offset: u64,
    /// The place of its entry.
    pub place: u64,
}

impl LedgerRow {
    /// The row of these bytes, [`ROW`] of them.
    fn from_bytes(bytes: &[u8]) -> LedgerRow {
        LedgerRow {
            house: bytes[0],
            commitment: Node(bytes_at(bytes, 1)),
            size: number_at(bytes, 33),
            offset: number_at(bytes, 41),
            place: number_at(bytes, 49),
        }
    }
}

/// What playing back a log says that is not refused.
#[derive(Clone, Debug, PartialEq, Eq)]
pub enum Playback {
    /// The rules give the answers of every line. These are the rows after the last one, by rising entry place.
    Confirmed(Vec<LedgerRow>),
    /// The rules do not give the answers of this line, and give those of every line before it.
    WrongLine {
        /// The number of the line, from 1.
        line: u64,
        /// What the rules give for it.
        ruling: Answers,
    },
}

/// Plays a log back on an empty ledger for a deal of that size: every line in turn, by the rules of booking and
/// cancelling, up to the first one whose answers they do not give. Commitments are taken as they are; a booking is
/// answered 15 where the house has a row of equal size and commitment. Refusals: 2 for a size that no deal in memory
/// has, 3 for a log that is malformed anywhere, which is told before any line is played ([`lines`](crate::lines) says
/// where).
///
/// ```
/// use vizhuthamen::{playback, Answers, LedgerRow, Line, Node, Playback};
///
/// let (house, commitment, size) = (1, Node([5; 32]), 100);
/// let booked = Line::Booking { house, commitment, size, code: 0, offset: 0, place: 256 };
/// let row = LedgerRow { house, commitment, size, offset: 0, place: 256 };
/// assert_eq!(playback(512, &booked.to_bytes()), Ok(Playback::Confirmed(vec![row])));
///
/// let twice = [booked.to_bytes(), booked.to_bytes()].concat();
/// let ruling = Answers { code: 15, offset: 0, place: 256 };
/// assert_eq!(playback(512, &twice), Ok(Playback::WrongLine { line: 2, ruling }));
/// ```
pub fn playback(size: u64, log: &[u8]) -> Result<Playback, Refusal> {
    let (mut line, mut code, mut offset, mut place, mut count) = (0, 0, 0, 0, 0);
    let mut rows = [0; ROWS];
    // SAFETY: the log is live, and all that is written are locals of their own.
    let answer = unsafe {
        ffi::vz_playback(
            size,
            log.as_ptr(),
            log.len(),
            &mut line,
            &mut code,
            &mut offset,
            &mut place,
            &mut count,
            rows.as_mut_ptr(),
            rows.len(),
        )
    };
    if answer == WRONG_LINE {
        return Ok(Playback::WrongLine { line, ruling: Answers { code: code as u8, offset, place } });
    }
    accepted(answer)?;
    Ok(Playback::Confirmed(rows.chunks(ROW).take(count as usize).map(LedgerRow::from_bytes).collect()))
}

#[cfg(test)]
mod tests {
    use super::*;
    use crate::audit::{audit, SlotState};
    use crate::deal::{book, cancel, table_length};
    use crate::entry::{index_numbers, read_entry, Entry, ReadEntry};
    use crate::hash::commitment;
    use crate::log::{lines, Line};
    use crate::testing::{noise, segment};
    use crate::tree::filled_tree;
    use std::collections::BTreeSet;

    const PATTERN: u8 = 0xa5;
    const NUMBER: u64 = 0xa5a5_a5a5_a5a5_a5a5;
    const WORD: u32 = 0xa5a5_a5a5;

    fn booking(house: u8, commitment: u8, size: u64, code: u8, offset: u64, place: u64) -> Line {
        Line::Booking { house, commitment: Node([commitment; 32]), size, code, offset, place }
    }

    fn cancelling(house: u8, place: u64, code: u8) -> Line {
        Line::Cancelling { house, place, code }
    }

    fn log_of(lines: &[Line]) -> Vec<u8> {
        lines.iter().flat_map(Line::to_bytes).collect()
    }

    fn wrong(line: u64, code: u8, offset: u64, place: u64) -> Result<Playback, Refusal> {
        Ok(Playback::WrongLine { line, ruling: Answers { code, offset, place } })
    }

    /// A deal that both houses change, and its log.
    struct Day {
        deal: Vec<u8>,
        tree: Option<Vec<u8>>,
        table: Vec<u8>,
        log: Vec<u8>,
    }

    impl Day {
        fn new(size: usize, with_tree: bool) -> Day {
            let deal = vec![0; size];
            let tree = with_tree.then(|| filled_tree(&deal).unwrap());
            Day { deal, tree, table: vec![0; table_length(size)], log: vec![] }
        }

        fn book(&mut self, house: u8, segment: &[u8]) {
            let answer = book(&mut self.deal, self.tree.as_deref_mut(), &mut self.table, house, segment);
            let mut area = segment.to_vec();
            area.resize(segment.len().max(128).next_power_of_two(), 0);
            let node = commitment(&area).unwrap_or_default();
            let line = Line::booking(house, node, segment.len() as u64, answer);
            self.log.extend(line.iter().flat_map(Line::to_bytes));
        }

        fn cancel(&mut self, house: u8, place: u64) {
            let answer = cancel(&mut self.deal, self.tree.as_deref_mut(), &mut self.table, house, place);
            self.log.extend(Line::cancelling(house, place, answer).iter().flat_map(Line::to_bytes));
        }

        fn codes(&self) -> Vec<u8> {
            lines(self.deal.len() as u64, &self.log).map(|line| line.unwrap().answers().code).collect()
        }

        /// The standing entries with their owners.
        fn standing(&self) -> Vec<LedgerRow> {
            let start = index_numbers(self.deal.len() as u64).unwrap().start;
            let slots = audit(&self.deal).unwrap().into_iter().zip(&self.table).zip((start..).step_by(64));
            let standing = slots.filter(|((state, _), _)| *state > SlotState::NotStanding);
            let row = |((_, house), place): ((SlotState, &u8), u64)| {
                let Ok(ReadEntry::Valid(Entry { commitment, offset, size })) =
                    read_entry(&self.deal[place as usize..][..64])
                else {
                    panic!("what stands is valid");
                };
                LedgerRow { house: *house, commitment, size, offset, place }
            };
            standing.map(row).collect()
        }
    }

    /// The claim: the log of all calls from zeros on is confirmed, and its rows are the standing entries.
    #[test]
    fn the_log_of_a_day_is_confirmed() {
        let mut codes = BTreeSet::new();
        for (size, with_tree) in [(512, false), (512, true), (2048, false), (2048, true), (1 << 20, true)] {
            let mut day = Day::new(size, with_tree);
            for chance in noise(size as u64, 160).chunks(4) {
                let house = 1 + chance[0] % 2;
                match chance[1] % 3 {
                    0 => day.cancel(house, size as u64 - 64 * u64::from(chance[2] % 5)),
                    _ => {
                        let length = [128, 1, 257, 130, 2048][usize::from(chance[2]) % 5].min(size / 2);
                        day.book(house, &segment(chance[3] % 3, length));
                    }
                }
                assert_eq!(playback(size as u64, &day.log), Ok(Playback::Confirmed(day.standing())), "{size}");
            }
            codes.extend(day.codes());
        }
        assert_eq!(codes, BTreeSet::from([0, 14, 15, 16, 22]));
    }

    #[test]
    fn calls_without_a_line() {
        let mut day = Day::new(512, false);
        day.book(3, &[1; 128]);
        day.book(1, &[]);
        day.book(1, &[0xff; 128]);
        day.cancel(1, 300);
        day.cancel(0, 256);
        assert_eq!(day.log, []);
        assert_eq!(playback(512, &day.log), Ok(Playback::Confirmed(vec![])));
    }

    #[test]
    fn the_first_wrong_line_is_named() {
        let right = [booking(1, 7, 100, 0, 0, 256), booking(1, 7, 100, 15, 0, 256), cancelling(2, 256, 16)];
        assert!(matches!(playback(512, &log_of(&right)), Ok(Playback::Confirmed(rows)) if rows.len() == 1));
        let mut log = right;
        log[2] = cancelling(2, 256, 0);
        assert_eq!(playback(512, &log_of(&log)), wrong(3, 16, 0, 0));
        log[1] = booking(1, 7, 100, 0, 128, 320);
        assert_eq!(playback(512, &log_of(&log)), wrong(2, 15, 0, 256));
        log[0] = booking(1, 7, 100, 0, 128, 256);
        assert_eq!(playback(512, &log_of(&log)), wrong(1, 0, 0, 256));
        assert_eq!(playback(512, &[log_of(&log), vec![0]].concat()), Err(Refusal::FORM), "the form is judged first");
        assert_eq!(playback(513, &[log_of(&log), vec![0]].concat()), Err(Refusal::SIZE), "and the size before it");
    }

    /// Line 3 is not code 3, and code 2 not line 2.
    #[test]
    fn lines_are_told_apart_from_codes() {
        let line = |n: usize| [vec![cancelling(1, 256, 16); n], vec![cancelling(1, 0, 16)]].concat();
        for n in 0..30 {
            assert_eq!(playback(512, &log_of(&line(n))), wrong(n as u64 + 1, 6, 0, 0));
        }
    }

    #[test]
    fn rows_come_by_rising_place() {
        let place = |slot: u64| (1 << 24) - 8192 + 64 * slot;
        let filled = (0..128).map(|i| booking(1 + i as u8 % 2, i as u8, 128, 0, 128 * i, place(i)));
        let mut lines: Vec<Line> = filled.collect();
        lines.extend([
            cancelling(1, place(6), 0),
            booking(1, 200, 1, 0, 128 * 6, place(6)),
            booking(2, 9, 1, 22, 0, 0),
        ]);
        let Ok(Playback::Confirmed(rows)) = playback(1 << 24, &log_of(&lines)) else {
            panic!("the log is right");
        };
        assert_eq!(rows.len(), 128);
        for (i, row) in (0..).zip(rows) {
            let (commitment, size) = if i == 6 { (Node([200; 32]), 1) } else { (Node([i as u8; 32]), 128) };
            let house = 1 + i as u8 % 2;
            assert_eq!(row, LedgerRow { house, commitment, size, offset: 128 * i, place: place(i) });
        }
    }

    /// Every output of a call: the line's number, the rules' code, offset and place, the number of rows, and these.
    type Outputs = (u64, u32, u64, u64, u64, Vec<u8>);

    fn raw(size: u64, log: &[u8], room: usize) -> (u32, Outputs) {
        let (mut line, mut code, mut offset, mut place, mut count) = (NUMBER, WORD, NUMBER, NUMBER, NUMBER);
        let mut rows = vec![PATTERN; room];
        // SAFETY: the log is live, and all that is written are locals of their own.
        let answer = unsafe {
            let (l, c, o, p, n) = (&mut line, &mut code, &mut offset, &mut place, &mut count);
            ffi::vz_playback(size, log.as_ptr(), log.len(), l, c, o, p, n, rows.as_mut_ptr(), rows.len())
        };
        (answer, (line, code, offset, place, count, rows))
    }

    #[test]
    fn outputs_are_written_with_their_answers_alone() {
        let untouched = |room| (NUMBER, WORD, NUMBER, NUMBER, NUMBER, vec![PATTERN; room]);
        let right = booking(2, 7, 100, 0, 0, 256).to_bytes();
        let late = log_of(&[booking(2, 7, 100, 0, 0, 256), booking(2, 7, 100, 14, 0, 0)]);
        for room in [0, 1, ROW, ROWS - ROW, ROWS - 1, ROWS + 1, 2 * ROWS] {
            for (size, log) in [(512, &right[..]), (512, &late), (512, &[0]), (511, &right), (0, &[])] {
                assert_eq!(raw(size, log, room), (12, untouched(room)), "12 before all else");
            }
        }
        assert_eq!(raw(511, &[0], ROWS), (2, untouched(ROWS)));
        assert_eq!(raw(512, &[0], ROWS), (3, untouched(ROWS)));
        assert_eq!(raw(512, &late, ROWS), (256, (2, 15, 0, 256, NUMBER, vec![PATTERN; ROWS])));
        let mut rows =
            [&[2][..], &[7; 32], &100_u64.to_le_bytes(), &0_u64.to_le_bytes(), &256_u64.to_le_bytes()].concat();
        rows.resize(ROWS, 0);
        assert_eq!(raw(512, &right, ROWS), (0, (NUMBER, WORD, NUMBER, NUMBER, 1, rows)));
        assert_eq!(raw(512, &[], ROWS), (0, (NUMBER, WORD, NUMBER, NUMBER, 0, vec![0; ROWS])));
    }
}
