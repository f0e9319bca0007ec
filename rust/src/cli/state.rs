//! The state of a stream in a file, so that a run that was ended before its answer can go on.
//!
//! The file is lines of text: the form and its version, what the stream takes, which file it reads, how many of its
//! bytes are taken, the state, and a check value, SHA-256 of all lines before it. It is written aside and renamed, so
//! that it is one whole state at any moment.
use super::failure::{self, Failure};
use super::files;
use super::output;
use super::pieces::Known;
use super::store::names::shown;
use std::fs;
use std::path::{Path, PathBuf};
use std::time::{Duration, Instant};
use vizhuthamen::{hex, STREAM_STATE};

const FORM: &str = "vizhuthamen stream ";
const VERSION: &str = "1";

/// The state is kept so often, and so much work at most is done again.
const EVERY: Duration = Duration::from_secs(5);

/// Where the state of a run is kept, and whether the run goes on from it.
#[derive(Clone, Debug, PartialEq, Eq)]
pub struct Place {
    pub path: PathBuf,
    pub resume: bool,
}

/// A state, with what it belongs to.
#[derive(Clone, Debug, PartialEq, Eq)]
pub struct State {
    /// Whether the stream takes the commitments of a raw archive's parts, and not the bytes themselves.
    pub raw: bool,
    /// The file that is read.
    pub known: Known,
    /// The number of its bytes that are taken.
    pub taken: u64,
    /// The stream's own state.
    pub bytes: [u8; STREAM_STATE],
}

impl State {
    fn text(&self) -> String {
        let Known { inode, length, modified } = self.known;
        let takes = if self.raw { "raw" } else { "bytes" };
        let text = format!(
            "{FORM}{VERSION}\ntakes {takes}\ninode {inode}\nlength {length}\nmodified {} {}\ntaken {}\nstate {}\n",
            modified.0,
            modified.1,
            self.taken,
            hex::encode(&self.bytes)
        );
        let check = vizhuthamen::sha256(text.as_bytes()).map(|digest| hex::encode(&digest)).unwrap_or_default();
        format!("{text}check {check}\n")
    }

    /// The state that a text is, or why it is none.
    fn parse(text: &[u8]) -> Result<State, &'static str> {
        let text = std::str::from_utf8(text).map_err(|_| "it is no text")?;
        let mut lines = text.lines();
        match lines.next().and_then(|line| line.strip_prefix(FORM)) {
            Some(VERSION) => {}
            Some(_) => return Err("it is of another version of this program"),
            None => return Err("its first line is another one"),
        }
        // What is not as it was written shows in the comparison of the whole text, check value and all.
        let state = fields(&mut lines).filter(|state| state.text() == text);
        state.ok_or("its check value is wrong: it is damaged")
    }
}

/// The fields of a state, in their order.
fn fields<'t>(lines: &mut impl Iterator<Item = &'t str>) -> Option<State> {
    let mut next = |word: &str| lines.next()?.strip_prefix(word)?.strip_prefix(' ');
    let raw = next("takes")? == "raw";
    let (inode, length) = (next("inode")?.parse().ok()?, next("length")?.parse().ok()?);
    let (seconds, nanoseconds) = next("modified")?.split_once(' ')?;
    let modified = (seconds.parse().ok()?, nanoseconds.parse().ok()?);
    let taken = next("taken")?.parse().ok()?;
    let bytes = hex::decode(next("state")?)?.try_into().ok()?;
    Some(State { raw, known: Known { inode, length, modified }, taken, bytes })
}

/// Reads the state at a path. It must be one of a stream of this kind over this file.
pub fn read(path: &Path, raw: bool, known: Known, name: &str) -> Result<State, Failure> {
    let text = fs::read(path).map_err(|error| {
        failure::io(format!("cannot read {}: {error}", shown(path))).hint("without a state begin without --resume")
    })?;
    let again = format!("remove {} and begin again without --resume", shown(path));
    let wrong = |why: String| failure::data(why).hint(&again);
    let state =
        State::parse(&text).map_err(|why| wrong(format!("{} is not the state of a stream: {why}", shown(path))))?;
    let old = state.known;
    let why = match () {
        _ if state.raw != raw => {
            format!("the state is that of a stream {} --raw", if raw { "without" } else { "with" })
        }
        _ if old.inode != known.inode => format!("{name} is another file than the one that the state is of"),
        _ if old.length != known.length => {
            format!("{name} has {} bytes, and had {} when the state was kept", known.length, old.length)
        }
        _ if old.modified != known.modified => format!("{name} was changed after the state was kept"),
        _ if state.taken > known.length => format!("the state is of more bytes than {name} has"),
        _ => return Ok(state),
    };
    Err(wrong(why))
}

/// Keeps the states of a run in a file.
pub struct Keeper {
    path: PathBuf,
    last: Instant,
    failing: bool,
}

impl Keeper {
    /// Begins with a new file. A state that is there is never overwritten: it may be hours of work.
    pub fn begin(path: &Path, state: &State) -> Result<Keeper, Failure> {
        match files::make(path, state.text().as_bytes())? {
            true => Ok(Keeper::resume(path)),
            false => Err(match fs::read(path).map(|text| State::parse(&text)) {
                Ok(Ok(_)) => failure::data(format!("{} is the state of a run that has not ended", shown(path)))
                    .hint(format!("go on with --resume, or remove {} to begin again", shown(path))),
                _ => failure::io(format!("cannot keep a state in {}: the file exists", shown(path)))
                    .hint("give another name"),
            }),
        }
    }

    /// Goes on with a file that is there.
    pub fn resume(path: &Path) -> Keeper {
        let path = fs::canonicalize(path).unwrap_or_else(|_| path.to_path_buf());
        Keeper { path, last: Instant::now(), failing: false }
    }

    /// Keeps a state where it is time to. Where that fails the run goes on, and it is tried again later.
    pub fn keep(&mut self, state: impl FnOnce() -> State) {
        if self.last.elapsed() < EVERY {
            return;
        }
        let kept = files::replace(&self.path, state().text().as_bytes());
        if let Some(failure) = kept.as_ref().err().filter(|_| !self.failing) {
            output::message(&format!("{}; the run goes on", failure.line()));
        }
        self.failing = kept.is_err();
        self.last = Instant::now();
    }

    /// Where the state is.
    pub fn path(&self) -> &Path {
        &self.path
    }
}

#[cfg(test)]
mod tests {
    use super::*;

    fn state() -> State {
        let known = Known { inode: 7, length: 1 << 30, modified: (-1, 999_999_999) };
        State { raw: true, known, taken: 1 << 29, bytes: std::array::from_fn(|i| i as u8) }
    }

    #[test]
    fn a_text_reads_back() {
        for raw in [false, true] {
            let state = State { raw, ..state() };
            assert_eq!(State::parse(state.text().as_bytes()), Ok(state));
        }
        let text = state().text();
        let lines: Vec<&str> = text.lines().map(|line| line.split(' ').next().unwrap()).collect();
        assert_eq!(lines, ["vizhuthamen", "takes", "inode", "length", "modified", "taken", "state", "check"]);
    }

    #[test]
    fn no_byte_can_be_changed_lost_or_added() {
        let text = state().text().into_bytes();
        for at in 0..text.len() {
            for other in [text[at] ^ 1, text[at] ^ 0x20, b'0', b'\n', 0xff] {
                if other != text[at] {
                    let mut changed = text.clone();
                    changed[at] = other;
                    assert!(State::parse(&changed).is_err(), "byte {at}: {other}");
                }
            }
            assert!(State::parse(&text[..at]).is_err(), "cut at {at}");
            let inserted = [&text[..at], b"0", &text[at..]].concat();
            assert!(State::parse(&inserted).is_err(), "inserted at {at}");
        }
        assert!(State::parse(&[&text[..], b"\n"].concat()).is_err());
    }

    #[test]
    fn other_texts_say_what_they_are() {
        let newer = state().text().replace("stream 1", "stream 2");
        assert_eq!(State::parse(newer.as_bytes()), Err("it is of another version of this program"));
        assert_eq!(State::parse(b"vizhuthamen deal 1\nsize 512\n"), Err("its first line is another one"));
        assert_eq!(State::parse(b""), Err("its first line is another one"));
        assert_eq!(State::parse(b"\xff"), Err("it is no text"));
    }
}
