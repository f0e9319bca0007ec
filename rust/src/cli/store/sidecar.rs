//! What is known of a deal beside its bytes, in a small text file `DEAL.vz` that can be done without.
//!
//! The first line names the form and its version; every other line is a word and its value. Version 1 knows `size`, the
//! deal's length in bytes, `number`, the deal's number, once it is told, and `closed`, the commitment with which the
//! deal was closed, as long as it is. Words that are not known are left to later versions, and stay.
use super::names::{near, Home};
use crate::cli::args::decimal;
use crate::cli::failure::{self, Failure};
use std::fs;
use std::io::ErrorKind;
use std::path::Path;
use vizhuthamen::Node;

const FORM: &str = "vizhuthamen deal ";
const VERSION: &str = "1";

/// What is known of a deal, and the text that says so.
#[derive(Clone, Debug, PartialEq, Eq)]
pub struct Known {
    /// The deal's length in bytes.
    pub size: u64,
    /// The deal's number, once it is known.
    pub number: Option<u64>,
    /// The commitment with which the deal was closed, where it is.
    pub closed: Option<Node>,
    text: String,
}

impl Known {
    /// What is known of a new deal.
    pub fn new(size: u64, number: Option<u64>) -> Known {
        let known = Known { size, number: None, closed: None, text: format!("{FORM}{VERSION}\nsize {size}\n") };
        number.map_or(known.clone(), |number| known.with_number(number))
    }

    /// The text of the file.
    pub fn text(&self) -> &str {
        &self.text
    }

    /// The same with this number. All other lines stay.
    pub fn with_number(&self, number: u64) -> Known {
        Known { number: Some(number), text: self.with_line("number", Some(number.to_string())), ..self.clone() }
    }

    /// The same closed with this commitment, or open. All other lines stay.
    pub fn with_closed(&self, closed: Option<Node>) -> Known {
        Known { closed, text: self.with_line("closed", closed.map(|node| node.to_string())), ..self.clone() }
    }

    /// The text with this line for a word as its last one, or without any.
    fn with_line(&self, word: &str, new: Option<String>) -> String {
        let others = self.text.lines().filter(|line| value(line, word).is_none()).map(|line| format!("{line}\n"));
        others.chain(new.map(|new| format!("{word} {new}\n"))).collect()
    }

    /// What a text says, or why it cannot be read.
    fn parse(text: &[u8]) -> Result<Known, &'static str> {
        let text = std::str::from_utf8(text).map_err(|_| "it is no text")?;
        let mut lines = text.lines();
        match lines.next().and_then(|line| line.strip_prefix(FORM)) {
            Some(VERSION) => {}
            Some(_) => return Err("it is of a newer version of this program"),
            None => return Err("its first line is another one"),
        }
        let values = |word: &'static str| lines.clone().filter_map(move |line| value(line, word)).collect::<Vec<_>>();
        let size = match values("size").as_slice() {
            [size] => decimal(size).ok_or("its size is no number")?,
            _ => return Err("it does not have one line for the size"),
        };
        let number = match values("number").as_slice() {
            [] => None,
            [number] => Some(decimal(number).ok_or("its number is no number below 2^64")?),
            _ => return Err("it has several lines for the number"),
        };
        let closed = match values("closed").as_slice() {
            [] => None,
            [node] => Some(node.parse().map_err(|_| "it is closed with no commitment")?),
            _ => return Err("it has several lines that say that it is closed"),
        };
        Ok(Known { size, number, closed, text: text.to_string() })
    }
}

/// The value of a line that begins with this word.
fn value<'l>(line: &'l str, word: &str) -> Option<&'l str> {
    let (first, rest) = line.split_once(' ').unwrap_or((line, ""));
    (first == word).then_some(rest)
}

/// What is said beside a deal, whether it is true or not; nothing where there is no such file.
fn read(home: &Home) -> Result<Option<Known>, Failure> {
    let path = home.sidecar();
    let text = match fs::read(&path) {
        Err(error) if matches!(error.kind(), ErrorKind::NotFound | ErrorKind::InvalidFilename) => return Ok(None),
        Err(error) => return Err(failure::io(format!("cannot read {}: {error}", near(&path)))),
        Ok(text) => text,
    };
    let failed = |why| {
        failure::data(format!("{} cannot be understood: {why}", near(&path))).hint("without it nothing is compared")
    };
    Known::parse(&text).map(Some).map_err(failed)
}

/// What is known of the deal at a path, which has this length. A deal that is known to have another is refused.
pub fn known(deal: &Path, length: u64) -> Result<Option<Known>, Failure> {
    let home = Home::of(deal);
    match read(&home)? {
        Some(known) if known.size != length => Err(failure::data(format!(
            "{} has {length} bytes, and {} says that it has {}; nothing is done",
            near(deal),
            near(home.sidecar()),
            known.size
        ))
        .hint(format!("bring back the whole deal, or remove {} if the deal is another one now", near(home.sidecar())))),
        known => Ok(known),
    }
}

/// What is said beside a deal, true or not, if it can be read.
pub fn said(deal: &Path) -> Option<Known> {
    read(&Home::of(deal)).ok()?
}

/// Whether that which will be known of a new deal lies beside it already. Whatever else lies there is another deal's,
/// and refused.
pub fn lies_beside(deal: &Path, new: &Known) -> Result<bool, Failure> {
    let there = match known(deal, new.size)? {
        None => return Ok(false),
        Some(known) if known.number == new.number && known.closed.is_none() => return Ok(true),
        Some(known) => known,
    };
    let said = |known: &Known| match (known.number, known.closed) {
        (_, Some(_)) => "that the deal is closed".to_string(),
        (Some(number), None) => format!("the number {number}"),
        (None, None) => "no number".to_string(),
    };
    Err(failure::data(format!(
        "{} is there and says {}, and {} is to have {}; nothing is done",
        near(Home::of(deal).sidecar()),
        said(&there),
        near(deal),
        said(new)
    ))
    .hint(format!("remove {} if it is of another deal", near(Home::of(deal).sidecar()))))
}

#[cfg(test)]
mod tests {
    use super::*;

    #[test]
    fn a_text_reads_back() {
        assert_eq!(Known::new(1024, None).text(), "vizhuthamen deal 1\nsize 1024\n");
        assert_eq!(
            Known::new(512, Some(u64::MAX)).text(),
            "vizhuthamen deal 1\nsize 512\nnumber 18446744073709551615\n"
        );
        for known in [Known::new(1024, None), Known::new(1024, Some(0)), Known::new(512, Some(u64::MAX))] {
            assert_eq!(Known::parse(known.text().as_bytes()), Ok(known));
        }
        let known = Known::parse(b"vizhuthamen deal 1\nnumber 7\nsize 512\n").unwrap();
        assert_eq!((known.size, known.number), (512, Some(7)));
    }

    #[test]
    fn a_number_is_changed_and_other_lines_stay() {
        let known = Known::parse(b"vizhuthamen deal 1\nlater word\nnumber 7\nnumbers 8\nsize 512").unwrap();
        let changed = known.with_number(9);
        assert_eq!(changed.text(), "vizhuthamen deal 1\nlater word\nnumbers 8\nsize 512\nnumber 9\n");
        assert_eq!(Known::parse(changed.text().as_bytes()), Ok(changed.clone()));
        assert_eq!(changed.with_number(10), known.with_number(10));
    }

    #[test]
    fn closed_and_open_again() {
        let known = Known::parse(b"vizhuthamen deal 1\nsize 512\nnumber 7\nlater word\n").unwrap();
        let closed = known.with_closed(Some(Node([0xab; 32])));
        let line = format!("closed {}\n", "ab".repeat(32));
        assert_eq!(closed.text(), format!("vizhuthamen deal 1\nsize 512\nnumber 7\nlater word\n{line}"));
        assert_eq!(Known::parse(closed.text().as_bytes()), Ok(closed.clone()));
        assert_eq!(closed.with_closed(None), known);
        assert_eq!(closed.with_number(8).closed, Some(Node([0xab; 32])));
    }

    #[test]
    fn other_texts_are_refused() {
        for text in
            ["", "size 512\n", "vizhuthamen deal 2\nsize 512\n", "vizhuthamen deal 1\n", "vizhuthamen deal 1\nsize x\n"]
        {
            assert!(Known::parse(text.as_bytes()).is_err(), "{text}");
        }
        for lines in [
            "size 1024",
            "size",
            "number",
            "number ",
            "number x",
            "number +7",
            "number 7 8",
            "number 0x7",
            "number 7\nnumber 7",
            "closed",
            "closed 7",
            "closed 00 00",
        ] {
            assert!(Known::parse(format!("vizhuthamen deal 1\nsize 512\n{lines}\n").as_bytes()).is_err(), "{lines}");
        }
        assert!(Known::parse(b"vizhuthamen deal 1\nsize 512\nnumber 18446744073709551616\n").is_err());
        assert!(Known::parse(b"\xff").is_err());
    }
}
