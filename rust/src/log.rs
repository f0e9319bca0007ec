//! The clerks' log of a deal: a line for every booking and every cancellation whose answer gets one, as data and bytes.
use crate::codes::Refusal;
use crate::deal::{Booking, Position};
use crate::node::Node;
use std::error::Error;
use std::fmt;

/// The bytes of a line for a booking: tag 1, a length of two bytes, and the content of 58.
pub const BOOKING_LINE: usize = 61;

/// The bytes of a line for a cancellation: tag 2, a length of two bytes, and the content of 10.
pub const CANCELLING_LINE: usize = 13;

/// The codes of the bookings that get a line.
const BOOKING_CODES: [u8; 5] = [0, 13, 14, 15, 22];

/// The codes of the cancellations that get a line.
const CANCELLING_CODES: [u8; 2] = [0, 16];

/// A line of a log: what a house asked for, and what was answered.
#[derive(Clone, Copy, Debug, PartialEq, Eq, Hash)]
pub enum Line {
    /// A booking that was answered 0, 13, 14, 15 or 22.
    Booking {
        /// The house, 1 or 2.
        house: u8,
        /// The commitment of the segment, filled with zeros to the end of its area.
        commitment: Node,
        /// The size of the segment, without these zeros.
        size: u64,
        /// The code that was answered.
        code: u8,
        /// The offset that was answered: 0 but with codes 0 and 15.
        offset: u64,
        /// The entry place that was answered: 0 but with codes 0 and 15.
        place: u64,
    },
    /// A cancellation that was answered 0 or 16.
    Cancelling {
        /// The house, 1 or 2.
        house: u8,
        /// The entry place that was to be cancelled.
        place: u64,
        /// The code that was answered.
        code: u8,
    },
}

/// What a line says was answered, or what the rules give for it: a code, and for a booking with 0 or 15 the two numbers
/// beside it. They are 0 otherwise.
#[derive(Clone, Copy, Debug, PartialEq, Eq, Hash)]
pub struct Answers {
    /// The code.
    pub code: u8,
    /// The offset of the segment.
    pub offset: u64,
    /// The place of its entry.
    pub place: u64,
}

impl Line {
    /// The line for a booking of a segment with this commitment (that of its area) and this size, as
    /// [`book`](crate::book) answered it; none where its code gets no line.
    ///
    /// ```
    /// use vizhuthamen::{book, commitment, lines, playback, Line, Playback};
    ///
    /// let (mut deal, mut table, mut log) = ([0; 512], [0; 4], Vec::new());
    /// for (house, segment) in [(1, [1; 128]), (1, [1; 128]), (2, [2; 128]), (2, [3; 128])] {
    ///     let answer = book(&mut deal, None, &mut table, house, &segment);
    ///     let line = Line::booking(house, commitment(&segment)?, 128, answer).expect("the code gets a line");
    ///     log.extend(line.to_bytes());
    /// }
    /// let codes: Vec<u8> = lines(512, &log).map(|line| line.unwrap().answers().code).collect();
    /// assert_eq!(codes, [0, 15, 0, 14]);
    /// assert!(matches!(playback(512, &log)?, Playback::Confirmed(rows) if rows.len() == 2));
    /// # Ok::<(), vizhuthamen::Refusal>(())
    /// ```
    pub fn booking(house: u8, commitment: Node, size: u64, answer: Result<Booking, Refusal>) -> Option<Line> {
        let (code, Position { offset, place }) = match answer {
            Ok(Booking::Booked(position)) => (0, position),
            Ok(Booking::AlreadyKept(position)) => (15, position),
            Err(refusal) => (refusal.code() as u8, Position { offset: 0, place: 0 }),
        };
        let line = Line::Booking { house, commitment, size, code, offset, place };
        BOOKING_CODES.contains(&code).then_some(line)
    }

    /// The line for a cancellation, as [`cancel`](crate::cancel) answered it; none where its code gets no line.
    pub fn cancelling(house: u8, place: u64, answer: Result<(), Refusal>) -> Option<Line> {
        let code = answer.map_or_else(|refusal| refusal.code() as u8, |()| 0);
        CANCELLING_CODES.contains(&code).then_some(Line::Cancelling { house, place, code })
    }

    /// The house.
    pub fn house(&self) -> u8 {
        match *self {
            Line::Booking { house, .. } | Line::Cancelling { house, .. } => house,
        }
    }

    /// What the line says was answered.
    pub fn answers(&self) -> Answers {
        match *self {
            Line::Booking { code, offset, place, .. } => Answers { code, offset, place },
            Line::Cancelling { code, .. } => Answers { code, offset: 0, place: 0 },
        }
    }

    /// The bytes of the line in a log: [`BOOKING_LINE`] or [`CANCELLING_LINE`] of them.
    pub fn to_bytes(&self) -> Vec<u8> {
        match *self {
            Line::Booking { house, commitment, size, code, offset, place } => [
                &[1, 58, 0, house],
                commitment.as_ref(),
                &size.to_le_bytes(),
                &[code],
                &offset.to_le_bytes(),
                &place.to_le_bytes(),
            ]
            .concat(),
            Line::Cancelling { house, place, code } => [&[2, 10, 0, house][..], &place.to_le_bytes(), &[code]].concat(),
        }
    }

    /// The line whose bytes a log begins with, whatever they say.
    fn first_of(log: &[u8]) -> Result<Line, Fault> {
        let length: u16 = match log[0] {
            1 => 58,
            2 => 10,
            tag => return Err(Fault::Tag(tag)),
        };
        let stated = log.get(1..3).map(|bytes| u16::from_le_bytes([bytes[0], bytes[1]])).ok_or(Fault::Cut)?;
        if stated != length {
            return Err(Fault::Length(stated));
        }
        let content = log[3..].get(..usize::from(length)).ok_or(Fault::Cut)?;
        Ok(match log[0] {
            1 => Line::Booking {
                house: content[0],
                commitment: Node(bytes_at(content, 1)),
                size: number_at(content, 33),
                code: content[41],
                offset: number_at(content, 42),
                place: number_at(content, 50),
            },
            _ => Line::Cancelling { house: content[0], place: number_at(content, 1), code: content[9] },
        })
    }

    /// What keeps the line from standing in the log of a deal of that size.
    fn fault(&self, deal_size: u64) -> Option<Fault> {
        let (codes, size) = match *self {
            Line::Booking { size, .. } => (&BOOKING_CODES[..], size),
            Line::Cancelling { .. } => (&CANCELLING_CODES[..], 1),
        };
        let (house, code) = (self.house(), self.answers().code);
        if !(1..=2).contains(&house) {
            return Some(Fault::House(house));
        }
        if !(1..=deal_size / 2).contains(&size) {
            return Some(Fault::Size(size));
        }
        (!codes.contains(&code)).then_some(Fault::Code(code))
    }
}

/// The bytes from a place on.
pub(crate) fn bytes_at<const N: usize>(bytes: &[u8], at: usize) -> [u8; N] {
    std::array::from_fn(|i| bytes[at + i])
}

/// The number of 8 bytes at a place.
pub(crate) fn number_at(bytes: &[u8], at: usize) -> u64 {
    u64::from_le_bytes(bytes_at(bytes, at))
}

/// Why the bytes of a log are no line that may stand there.
#[derive(Clone, Copy, Debug, PartialEq, Eq)]
pub enum Fault {
    /// The log ends within the line.
    Cut,
    /// The tag is neither 1, a booking's, nor 2, a cancellation's.
    Tag(u8),
    /// The content is not as long as that of its tag: 58 bytes, or 10.
    Length(u16),
    /// The house is neither 1 nor 2.
    House(u8),
    /// The segment's size is not allowed for the deal's.
    Size(u64),
    /// No line of its tag has this code.
    Code(u8),
}

impl fmt::Display for Fault {
    fn fmt(&self, f: &mut fmt::Formatter<'_>) -> fmt::Result {
        match self {
            Fault::Cut => f.write_str("the log ends within it"),
            Fault::Tag(tag) => write!(f, "tag {tag} is neither 1 nor 2"),
            Fault::Length(length) => write!(f, "{length} bytes are not the length of its tag"),
            Fault::House(house) => write!(f, "house {house} is neither 1 nor 2"),
            Fault::Size(size) => write!(f, "segment size {size} is not allowed for the deal's"),
            Fault::Code(code) => write!(f, "code {code} is none that gets a line"),
        }
    }
}

/// Where a log is malformed, and why. Playing it back is refused with 3.
#[derive(Clone, Copy, Debug, PartialEq, Eq)]
pub struct Malformed {
    /// The number of the line, from 1.
    pub line: u64,
    /// The byte of the log at which the line starts.
    pub at: usize,
    /// What is wrong with it.
    pub fault: Fault,
}

impl fmt::Display for Malformed {
    fn fmt(&self, f: &mut fmt::Formatter<'_>) -> fmt::Result {
        write!(f, "line {}, at byte {}: {}", self.line, self.at, self.fault)
    }
}

impl Error for Malformed {}

/// The lines of a log for a deal of that size, in turn, up to the first place where it is malformed. For a size that a
/// deal in memory has, a log without such a place is one that [`playback`](crate::playback) does not refuse.
pub fn lines(size: u64, log: &[u8]) -> Lines<'_> {
    Lines { size, log, at: 0, line: 0 }
}

/// Reads the lines of a log in turn.
#[derive(Clone, Debug)]
pub struct Lines<'l> {
    size: u64,
    log: &'l [u8],
    at: usize,
    line: u64,
}

impl Lines<'_> {
    /// The byte of the log at which the next line starts; where the log is malformed, that of the line that is.
    pub fn at(&self) -> usize {
        self.at
    }

    /// The line at which the log was found malformed is the last one that is read.
    fn malformed(&mut self, fault: Fault) -> Malformed {
        self.log = &self.log[..self.at];
        Malformed { line: self.line, at: self.at, fault }
    }
}

impl Iterator for Lines<'_> {
    type Item = Result<Line, Malformed>;

    fn next(&mut self) -> Option<Result<Line, Malformed>> {
        let rest = &self.log[self.at..];
        if rest.is_empty() {
            return None;
        }
        self.line += 1;
        let line = match Line::first_of(rest) {
            Ok(line) => line,
            Err(fault) => return Some(Err(self.malformed(fault))),
        };
        if let Some(fault) = line.fault(self.size) {
            return Some(Err(self.malformed(fault)));
        }
        self.at += match line {
            Line::Booking { .. } => BOOKING_LINE,
            Line::Cancelling { .. } => CANCELLING_LINE,
        };
        Some(Ok(line))
    }
}

#[cfg(test)]
mod tests {
    use super::*;
    use crate::playback::playback;

    const BOOKED: Line =
        Line::Booking { house: 1, commitment: Node([0xc7; 32]), size: 300, code: 0, offset: 512, place: 1792 };
    const CANCELLED: Line = Line::Cancelling { house: 2, place: 1792, code: 16 };

    #[test]
    fn the_bytes_of_a_line() {
        let booked = [
            &[1, 58, 0, 1][..],
            &[0xc7; 32],
            &[0x2c, 1, 0, 0, 0, 0, 0, 0],
            &[0],
            &[0, 2, 0, 0, 0, 0, 0, 0],
            &[0, 7, 0, 0, 0, 0, 0, 0],
        ];
        assert_eq!(BOOKED.to_bytes(), booked.concat());
        assert_eq!(CANCELLED.to_bytes(), [2, 10, 0, 2, 0, 7, 0, 0, 0, 0, 0, 0, 16]);
        assert_eq!((BOOKED.to_bytes().len(), CANCELLED.to_bytes().len()), (BOOKING_LINE, CANCELLING_LINE));
        assert_eq!(BOOKED.answers(), Answers { code: 0, offset: 512, place: 1792 });
        assert_eq!(CANCELLED.answers(), Answers { code: 16, offset: 0, place: 0 });
        assert_eq!((BOOKED.house(), CANCELLED.house()), (1, 2));
    }

    #[test]
    fn lines_there_and_back() {
        let log = [BOOKED.to_bytes(), CANCELLED.to_bytes(), BOOKED.to_bytes()].concat();
        let mut read = lines(4096, &log);
        assert_eq!(read.by_ref().collect::<Result<Vec<_>, _>>(), Ok(vec![BOOKED, CANCELLED, BOOKED]));
        assert_eq!((read.at(), read.next()), (log.len(), None));
        assert_eq!(lines(4096, &[]).next(), None);
    }

    /// The codes of all calls, and whether each gets a line.
    #[test]
    fn which_codes_get_a_line() {
        let position = Position { offset: 128, place: 320 };
        let booking = |answer| Line::booking(2, Node([7; 32]), 100, answer);
        let line = |code, Position { offset, place }| {
            Some(Line::Booking { house: 2, commitment: Node([7; 32]), size: 100, code, offset, place })
        };
        assert_eq!(booking(Ok(Booking::Booked(position))), line(0, position));
        assert_eq!(booking(Ok(Booking::AlreadyKept(position))), line(15, position));
        let none = Position { offset: 0, place: 0 };
        for (refusal, code) in [(Refusal::NO_SLOT, 13), (Refusal::NO_PLACE, 14), (Refusal::QUOTA, 22)] {
            assert_eq!(booking(Err(refusal)), line(code, none));
            assert_eq!(Line::cancelling(2, 320, Err(refusal)), None);
        }
        for refusal in
            [Refusal::SIZE, Refusal::SEGMENT_SIZE, Refusal::STRAY_BITS, Refusal::OUTPUT, Refusal::HOUSE, Refusal::PLACE]
        {
            assert_eq!(booking(Err(refusal)), None, "{refusal}");
            assert_eq!(Line::cancelling(2, 320, Err(refusal)), None, "{refusal}");
        }
        let cancelled = |code| Some(Line::Cancelling { house: 2, place: 320, code });
        assert_eq!(Line::cancelling(2, 320, Ok(())), cancelled(0));
        assert_eq!(Line::cancelling(2, 320, Err(Refusal::NOT_KEPT)), cancelled(16));
        assert_eq!(booking(Err(Refusal::NOT_KEPT)), None);
    }

    /// The log with other bytes at a place of its second line.
    fn changed(at: usize, bytes: &[u8]) -> Vec<u8> {
        let mut log = [CANCELLED.to_bytes(), BOOKED.to_bytes(), CANCELLED.to_bytes()].concat();
        log[CANCELLING_LINE + at..][..bytes.len()].copy_from_slice(bytes);
        log
    }

    #[test]
    fn where_a_log_is_malformed_and_why() {
        let second = |fault| Malformed { line: 2, at: 13, fault };
        let [long, none] = [2049_u64, 0].map(u64::to_le_bytes);
        for (log, malformed, words) in [
            (changed(0, &[3]), second(Fault::Tag(3)), "line 2, at byte 13: tag 3 is neither 1 nor 2"),
            (changed(0, &[2]), second(Fault::Length(58)), "line 2, at byte 13: 58 bytes are not the length of its tag"),
            (
                changed(2, &[1]),
                second(Fault::Length(314)),
                "line 2, at byte 13: 314 bytes are not the length of its tag",
            ),
            (changed(3, &[0]), second(Fault::House(0)), "line 2, at byte 13: house 0 is neither 1 nor 2"),
            (
                changed(36, &long),
                second(Fault::Size(2049)),
                "line 2, at byte 13: segment size 2049 is not allowed for the deal's",
            ),
            (
                changed(36, &none),
                second(Fault::Size(0)),
                "line 2, at byte 13: segment size 0 is not allowed for the deal's",
            ),
            (changed(44, &[16]), second(Fault::Code(16)), "line 2, at byte 13: code 16 is none that gets a line"),
            (changed(0, &[])[..73].to_vec(), second(Fault::Cut), "line 2, at byte 13: the log ends within it"),
            (changed(0, &[])[..14].to_vec(), second(Fault::Cut), "line 2, at byte 13: the log ends within it"),
            (
                [changed(0, &[]), vec![9]].concat(),
                Malformed { line: 4, at: 87, fault: Fault::Tag(9) },
                "line 4, at byte 87: tag 9 is neither 1 nor 2",
            ),
        ] {
            let mut read = lines(4096, &log);
            assert_eq!(read.find_map(Result::err), Some(malformed));
            assert_eq!((read.next(), read.at()), (None, malformed.at), "nothing is read after it");
            assert_eq!(malformed.to_string(), words);
            assert_eq!(playback(4096, &log), Err(Refusal::FORM));
        }
        assert!(playback(4096, &changed(0, &[])).is_ok());
    }
}
