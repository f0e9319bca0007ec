//! The journal of a change: the files that are put in their places by it, and the lines that a log gets, as a text.
use super::change::Part;
use super::log::LogFile;
use super::names::{Home, MOST_PARTS};
use std::os::unix::ffi::OsStrExt;
use vizhuthamen::hex;

/// The first line of a journal.
const FORM: &str = "vizhuthamen journal 1";

/// The word that the line on a log begins with.
pub const LOG: &str = "log";

/// What a journal says.
#[derive(Debug, PartialEq, Eq)]
pub struct Journal {
    /// The number and the target's name in the deal's folder of each part.
    pub parts: Vec<(usize, Vec<u8>)>,
    /// What a log gets, if one does.
    pub log: Option<Growth>,
}

/// The lines that a log gets: its name, from the deal's folder on where it lies below that, its length before, and
/// their bytes.
#[derive(Debug, PartialEq, Eq)]
pub struct Growth {
    pub name: Vec<u8>,
    pub before: u64,
    pub bytes: Vec<u8>,
}

impl Journal {
    /// The journal of a change.
    pub fn of(home: &Home, parts: &[Part], log: Option<&LogFile>) -> Journal {
        let name = |part: &Part| part.target.file_name().unwrap_or_default().as_bytes().to_vec();
        let parts = parts.iter().enumerate().map(|(number, part)| (number, name(part))).collect();
        Journal { parts, log: log.map(|log| log.growth(home)) }
    }

    /// Its text: a line for each part, with its number and its target's name in hex, and one for the log, with the
    /// length before, its name and the new lines in hex.
    pub fn text(&self) -> String {
        let parts = self.parts.iter().map(|(number, name)| format!("{number} {}\n", hex::encode(name)));
        let log = self.log.iter().map(|Growth { name, before, bytes }| {
            format!("{LOG} {before} {} {}\n", hex::encode(name), hex::encode(bytes))
        });
        format!("{FORM}\n{}", parts.chain(log).collect::<String>())
    }

    /// The journal that a text is. None where it is none.
    pub fn parse(text: &[u8]) -> Option<Journal> {
        let mut lines = std::str::from_utf8(text).ok()?.lines();
        (lines.next()? == FORM).then_some(())?;
        let mut journal = Journal { parts: vec![], log: None };
        for line in lines {
            match line.split_once(' ')? {
                (LOG, growth) if journal.log.is_none() => journal.log = Some(Growth::parse(growth)?),
                (number, name) => journal.parts.push(part(number, name)?),
            }
        }
        Some(journal)
    }
}

/// The number and the name of a part, which lies in the deal's folder.
fn part(number: &str, name: &str) -> Option<(usize, Vec<u8>)> {
    let (number, name) = (number.parse().ok()?, hex::decode(name)?);
    let plain = number < MOST_PARTS && !name.is_empty() && !name.contains(&b'/') && !name.contains(&0);
    plain.then_some((number, name))
}

impl Growth {
    /// What a log gets: lines of a log, and nothing else.
    fn parse(words: &str) -> Option<Growth> {
        let mut words = words.split(' ');
        let before = words.next()?.parse().ok()?;
        let (name, bytes) = (hex::decode(words.next()?)?, hex::decode(words.next()?)?);
        let lines = !bytes.is_empty() && vizhuthamen::lines(u64::MAX, &bytes).all(|line| line.is_ok());
        let plain = lines && words.next().is_none() && !name.is_empty() && !name.contains(&0);
        plain.then_some(Growth { name, before, bytes })
    }
}

#[cfg(test)]
mod tests {
    use super::*;
    use std::ffi::OsStr;
    use std::path::Path;
    use vizhuthamen::Line;

    fn growth() -> Growth {
        let bytes = Line::Cancelling { house: 1, place: 256, code: 16 }.to_bytes();
        Growth { name: b"logs/day".to_vec(), before: 61, bytes }
    }

    #[test]
    fn a_journal_reads_back() {
        let part = |name: &[u8]| Part { target: Path::new("a").join(OsStr::from_bytes(name)), bytes: &[], keep: None };
        let home = Home::of(Path::new("a/deal"));
        let journal = Journal::of(&home, &[part(b"deal"), part(b"a\nb\xff")], None);
        assert_eq!(journal.text(), "vizhuthamen journal 1\n0 6465616c\n1 610a62ff\n");
        assert_eq!(journal.parts, [(0, b"deal".to_vec()), (1, b"a\nb\xff".to_vec())]);
        let logged = Journal { log: Some(growth()), ..Journal::of(&home, &[part(b"deal")], None) };
        assert_eq!(
            logged.text(),
            "vizhuthamen journal 1\n0 6465616c\nlog 61 6c6f67732f646179 020a0001000100000000000010\n"
        );
        let alone = Journal { parts: vec![], log: Some(growth()) };
        for journal in [journal, logged, alone] {
            assert_eq!(Journal::parse(journal.text().as_bytes()), Some(journal));
        }
    }

    #[test]
    fn other_texts_are_no_journals() {
        let line = "020a0001000100000000000010";
        let wrong_logs = [
            "log".to_string(),
            format!("log 61 6c {}", &line[2..]),
            format!("log 61 6c {line}00"),
            "log 61 6c ".to_string(),
            format!("log 61  {line}"),
            format!("log 61 6c00 {line}"),
            format!("log -1 6c {line}"),
            format!("log 6c {line}"),
            format!("log 61 6c {line} 00"),
            format!("log 61 6c {line}\nlog 61 6c {line}"),
        ];
        let wrong = ["", "0", "0 ", "0 2f", "0 612f62", "0 6100", "9 61", "-1 61", "0 6"].map(String::from);
        for line in wrong.iter().chain(&wrong_logs) {
            assert_eq!(Journal::parse(format!("{FORM}\n{line}\n").as_bytes()), None, "{line}");
        }
        for text in [&b""[..], b"\xff", b"vizhuthamen journal 2\n0 61\n"] {
            assert_eq!(Journal::parse(text), None);
        }
    }
}
