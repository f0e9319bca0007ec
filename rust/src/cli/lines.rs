//! Lines of logs, in words.
use super::json::Json;
use vizhuthamen::{Answers, Fault, Line, Malformed, BOOKING_LINE, CANCELLING_LINE};

/// What a line is of, in a word: the command.
pub fn call(line: &Line) -> &'static str {
    match line {
        Line::Booking { .. } => "book",
        Line::Cancelling { .. } => "cancel",
    }
}

/// Its answer by the code, in a word or two. For a cancellation the rules may also give a code that no line has.
pub fn word(line: &Line, code: u8) -> &'static str {
    match (line, code) {
        (Line::Booking { .. }, 0) => "booked",
        (Line::Booking { .. }, 13) => "no slot",
        (Line::Booking { .. }, 14) => "no place",
        (Line::Booking { .. }, 15) => "already kept",
        (Line::Booking { .. }, 22) => "quota reached",
        (Line::Cancelling { .. }, 0) => "cancelled",
        (Line::Cancelling { .. }, 6) => "place not in the index",
        (Line::Cancelling { .. }, 16) => "nothing to cancel",
        _ => "another code",
    }
}

/// The same in a sentence. With the codes of a booking that has no place there are no numbers, unless these are asked
/// for.
fn said(line: &Line, answers: &Answers, numbers: bool) -> String {
    let Answers { code, offset, place } = *answers;
    match (line, code) {
        (Line::Booking { .. }, 0) => format!("0, booked at offset {offset}, entry place {place}"),
        (Line::Booking { .. }, 15) => format!("15, already kept at offset {offset}, entry place {place}"),
        (Line::Booking { .. }, _) => {
            let beside =
                if numbers { format!(", with offset {offset} and entry place {place}") } else { String::new() };
            format!("{code}, {}{beside}", vizhuthamen::meaning(u32::from(code)))
        }
        (Line::Cancelling { .. }, 0) => "0, cancelled".to_string(),
        (Line::Cancelling { .. }, 16) => "16, nothing of the house to cancel there".to_string(),
        (Line::Cancelling { .. }, 6) => "6, the place is not in the index".to_string(),
        (Line::Cancelling { .. }, _) => format!("{code}, {}", vizhuthamen::meaning(u32::from(code))),
    }
}

/// What a line says, and what the rules give in its place.
pub fn against(line: &Line, ruling: &Answers) -> String {
    let answers = line.answers();
    let same_code = answers.code == ruling.code;
    let numbers = same_code || (answers.offset, answers.place) != (0, 0);
    format!("says {}; the rules give {}", said(line, &answers, numbers), said(line, ruling, same_code))
}

/// Whose line it is, and of what.
pub fn described(line: &Line) -> String {
    match line {
        Line::Booking { house, commitment, size, .. } => {
            format!("house {house} books a segment of {size} bytes with the commitment {commitment}")
        }
        Line::Cancelling { house, place, .. } => format!("house {house} cancels at entry place {place}"),
    }
}

/// The line for JSON, without its answers: what was asked.
pub fn asked(line: &Line) -> Vec<(&'static str, Json)> {
    let mut members =
        vec![("call", Json::Text(call(line).to_string())), ("house", Json::Number(u64::from(line.house())))];
    match line {
        Line::Booking { commitment, size, .. } => members.extend([
            ("segment_size", Json::Number(*size)),
            ("segment_commitment", Json::Text(commitment.to_string())),
        ]),
        Line::Cancelling { place, .. } => members.push(("place", Json::Number(*place))),
    }
    members
}

/// Answers for JSON: of a booking with its numbers.
pub fn answered(line: &Line, answers: &Answers) -> Vec<(&'static str, Json)> {
    let mut members = vec![
        ("code", Json::Number(u64::from(answers.code))),
        ("answer", Json::Text(word(line, answers.code).to_string())),
    ];
    if let Line::Booking { .. } = line {
        members.extend([("offset", Json::Number(answers.offset)), ("place", Json::Number(answers.place))]);
    }
    members
}

/// Where a log breaks its form: the line, the byte at which it begins, and the one that is wrong; what stands there,
/// and what may.
pub struct Broken {
    pub line: u64,
    pub at: u64,
    pub byte: u64,
    pub why: String,
}

impl Broken {
    /// Where, and why, the log of a deal of that size is malformed.
    pub fn of(malformed: &Malformed, log: &[u8], size: u64) -> Broken {
        let at = malformed.at;
        let booking = log.get(at) == Some(&1);
        let (whose, whole) =
            if booking { ("a booking's", BOOKING_LINE) } else { ("a cancellation's", CANCELLING_LINE) };
        let content = whole - 3;
        let (byte, why) = match malformed.fault {
            Fault::Cut => {
                let (end, there) = (log.len(), log.len() - at);
                (end, format!("the log ends at byte {end}, after {there} of the {whole} bytes of {whose} line"))
            }
            Fault::Tag(tag) => {
                (at, format!("byte {at} is {tag}, and a line begins with 1 (of a booking) or 2 (of a cancellation)"))
            }
            Fault::Length(length) => {
                let (low, high) = (at + 1, at + 2);
                (
                    low,
                    format!("bytes {low} and {high} say {length}, and the content of {whose} line has {content} bytes"),
                )
            }
            Fault::House(house) => (at + 3, format!("byte {} says house {house}, and a house is 1 or 2", at + 3)),
            Fault::Size(segment) => {
                let allowed = match size {
                    u64::MAX => "a segment has 1 byte or more, and at most half of its deal's".to_string(),
                    _ => format!("a segment here has 1 to {} bytes", size / 2),
                };
                (
                    at + 36,
                    format!("the 8 bytes from byte {} on say a segment of {segment} bytes, and {allowed}", at + 36),
                )
            }
            Fault::Code(code) => {
                let (byte, codes) = if booking { (at + 44, "0, 13, 14, 15 or 22") } else { (at + 12, "0 or 16") };
                (byte, format!("byte {byte} says code {code}, and {whose} line has {codes}"))
            }
        };
        Broken { line: malformed.line, at: at as u64, byte: byte as u64, why }
    }

    /// All of it in words.
    pub fn described(&self) -> String {
        format!("line {}, which begins at byte {}: {}", self.line, self.at, self.why)
    }

    /// The same for JSON.
    pub fn members(&self) -> Vec<(&'static str, Json)> {
        vec![("line", Json::Number(self.line)), ("at", Json::Number(self.at)), ("byte", Json::Number(self.byte))]
    }
}

/// A number of lines, in words.
pub fn counted(lines: u64) -> String {
    match lines {
        1 => "the one line".to_string(),
        _ => format!("all {lines} lines"),
    }
}

#[cfg(test)]
mod tests {
    use super::*;
    use vizhuthamen::Node;

    fn booking(code: u8, offset: u64, place: u64) -> Line {
        Line::Booking { house: 1, commitment: Node([5; 32]), size: 100, code, offset, place }
    }

    fn cancelling(code: u8) -> Line {
        Line::Cancelling { house: 2, place: 320, code }
    }

    #[test]
    fn every_two_answers_are_told_apart() {
        let numbers =
            [(0, 0, 448), (0, 128, 448), (15, 0, 256), (13, 0, 0), (14, 0, 0), (22, 0, 0), (14, 128, 0), (14, 0, 7)];
        let all = numbers.map(|(code, offset, place)| Answers { code, offset, place });
        for (i, a) in all.iter().enumerate() {
            for b in all.iter().skip(i + 1) {
                let line = booking(a.code, a.offset, a.place);
                let text = against(&line, b);
                let (says, gives) = text.strip_prefix("says ").unwrap().split_once("; the rules give ").unwrap();
                assert_ne!(says, gives);
                assert!(says.starts_with(&format!("{}, ", a.code)) && gives.starts_with(&format!("{}, ", b.code)));
            }
        }
        let codes = [0, 16, 6].map(|code| said(&cancelling(0), &Answers { code, offset: 0, place: 0 }, false));
        assert_eq!(
            codes,
            ["0, cancelled", "16, nothing of the house to cancel there", "6, the place is not in the index"]
        );
    }

    #[test]
    fn in_words() {
        let ruling = Answers { code: 15, offset: 0, place: 256 };
        assert_eq!(
            against(&booking(0, 0, 448), &ruling),
            "says 0, booked at offset 0, entry place 448; the rules give 15, already kept at offset 0, entry place 256"
        );
        let none = Answers { code: 14, offset: 0, place: 0 };
        assert_eq!(
            against(&booking(14, 0, 448), &none),
            "says 14, no free place, with offset 0 and entry place 448; the rules give 14, no free place, with offset \
             0 and entry place 0"
        );
        assert_eq!(
            against(&booking(22, 0, 0), &none),
            "says 22, the house holds half the slots or more; the rules give 14, no free place"
        );
        assert_eq!(described(&cancelling(0)), "house 2 cancels at entry place 320");
        let codes = [0, 13, 14, 15, 22].map(|code| word(&booking(0, 0, 0), code));
        assert_eq!(codes, ["booked", "no slot", "no place", "already kept", "quota reached"]);
        assert_eq!([0, 16].map(|code| word(&cancelling(0), code)), ["cancelled", "nothing to cancel"]);
    }

    #[test]
    fn where_the_form_breaks() {
        let line = booking(0, 0, 256).to_bytes();
        let cancelled = cancelling(16).to_bytes();
        let broken = |log: &[u8], size| {
            let malformed = vizhuthamen::lines(size, log).find_map(Result::err).unwrap();
            let Broken { line, at, byte, why } = Broken::of(&malformed, log, size);
            (line, at, byte, why)
        };
        let changed = |log: &[u8], at: usize, byte: u8| {
            let mut log = [&line, log].concat();
            log[61 + at] = byte;
            broken(&log, 512)
        };
        let tag = "byte 61 is 7, and a line begins with 1 (of a booking) or 2 (of a cancellation)";
        assert_eq!(changed(&line, 0, 7), (2, 61, 61, tag.to_string()));
        let length = "bytes 62 and 63 say 59, and the content of a booking's line has 58 bytes";
        assert_eq!(changed(&line, 1, 59), (2, 61, 62, length.to_string()));
        assert_eq!(changed(&cancelled, 3, 3), (2, 61, 64, "byte 64 says house 3, and a house is 1 or 2".to_string()));
        let size = "the 8 bytes from byte 97 on say a segment of 356 bytes, and a segment here has 1 to 256 bytes";
        assert_eq!(changed(&line, 37, 1), (2, 61, 97, size.to_string()));
        let code = "byte 105 says code 16, and a booking's line has 0, 13, 14, 15 or 22";
        assert_eq!(changed(&line, 44, 16), (2, 61, 105, code.to_string()));
        let code = "byte 73 says code 6, and a cancellation's line has 0 or 16";
        assert_eq!(changed(&cancelled, 12, 6), (2, 61, 73, code.to_string()));
        let cut = "the log ends at byte 71, after 10 of the 13 bytes of a cancellation's line";
        let log = [&line, &cancelled[..10]].concat();
        assert_eq!(broken(&log, 512), (2, 61, 71, cut.to_string()));
        let half = "the 8 bytes from byte 36 on say a segment of 0 bytes, and a segment has 1 byte or more, and at \
                    most half of its deal's";
        let mut none = line.clone();
        none[36] = 0;
        assert_eq!(broken(&none, u64::MAX), (1, 0, 36, half.to_string()));
    }
}
