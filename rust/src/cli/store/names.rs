//! Names of files: those beside a file, and those shown in messages.
use std::ffi::{OsStr, OsString};
use std::fmt::Write;
use std::fs;
use std::os::unix::ffi::OsStrExt;
use std::path::{Path, PathBuf};

/// How many files one change can have.
pub const MOST_PARTS: usize = 8;

/// The longest name from which another is made by adding to it. Of a longer one a number is taken.
const LONGEST: usize = 220;

/// A file, by its folder and its name in it.
#[derive(Clone, Debug)]
pub struct Home {
    pub folder: PathBuf,
    name: OsString,
}

impl Home {
    /// The home of a path that ends with a name.
    pub fn of(path: &Path) -> Home {
        let folder = match path.parent() {
            Some(parent) if parent != Path::new("") => parent,
            _ => Path::new("."),
        };
        Home { folder: folder.to_path_buf(), name: path.file_name().unwrap_or_default().to_os_string() }
    }

    /// The name of a part of a change for the moment before it is in its place.
    pub fn part(&self, number: usize) -> PathBuf {
        self.hidden(&format!("vz-new.{number}"))
    }

    /// The name of the journal of a change of several files.
    pub fn journal(&self) -> PathBuf {
        self.hidden("vz-journal")
    }

    /// The name of the file that says what is known of a deal.
    pub fn sidecar(&self) -> PathBuf {
        self.added("", "vz")
    }

    /// The name of the table of a deal's owners.
    pub fn table(&self) -> PathBuf {
        self.added("", "owners")
    }

    /// The name of the manifest of a deal.
    pub fn manifest(&self) -> PathBuf {
        self.added("", "manifest.json")
    }

    /// Whether a path is that of the file itself, or of one that this program makes beside it.
    pub fn owns(&self, path: &Path) -> bool {
        let own = [self.folder.join(&self.name), self.sidecar(), self.table(), self.manifest(), self.journal()];
        let parts = (0..=MOST_PARTS).map(|number| self.part(number));
        let copy = self.copy(0);
        let name = |path: &Path| path.file_name().unwrap_or_default().as_bytes().to_vec();
        let copied = path.parent() == copy.parent() && name(path).starts_with(&name(&copy));
        copied || own.into_iter().chain(parts).any(|own| own == path)
    }

    /// The name of a copy that is made before a repair.
    pub fn copy(&self, number: u64) -> PathBuf {
        match number {
            0 => self.added("", "before-repair"),
            _ => self.added("", &format!("before-repair.{number}")),
        }
    }

    fn hidden(&self, ending: &str) -> PathBuf {
        self.added(".", ending)
    }

    fn added(&self, before: &str, ending: &str) -> PathBuf {
        let mut name = OsString::from(before);
        match self.name.len() <= LONGEST {
            true => name.push(&self.name),
            false => name.push(format!("vz-{:016x}", number_of(&self.name))),
        }
        name.push(".");
        name.push(ending);
        self.folder.join(name)
    }
}

/// A number of a name, not the same for two names but by rare chance (FNV-1a).
fn number_of(name: &OsStr) -> u64 {
    name.as_bytes().iter().fold(0xcbf2_9ce4_8422_2325, |n, byte| (n ^ u64::from(*byte)).wrapping_mul(0x100_0000_01b3))
}

/// The name of a file beside a deal, for messages: from the current folder on where it lies below that.
pub fn near(path: impl AsRef<Path>) -> String {
    let path = path.as_ref();
    let here = fs::canonicalize(".").ok().filter(|here| here != Path::new("/"));
    let below = here.and_then(|here| path.strip_prefix(here).ok());
    shown(below.or_else(|| path.strip_prefix(".").ok()).unwrap_or(path))
}

/// A word or a file name for messages: on one line, and nothing in it that a terminal obeys.
pub fn shown(name: impl AsRef<OsStr>) -> String {
    let mut text = String::new();
    for chunk in name.as_ref().as_bytes().utf8_chunks() {
        for character in chunk.valid().chars() {
            match character {
                '\\' => text.push_str("\\\\"),
                _ if obeyed(character) => text.extend(character.escape_default()),
                _ => text.push(character),
            }
        }
        for byte in chunk.invalid() {
            let _ = write!(text, "\\x{byte:02x}");
        }
    }
    text
}

/// Control characters, line ends, and characters that turn the direction of writing.
fn obeyed(character: char) -> bool {
    let turning = ['\u{200e}', '\u{200f}', '\u{61c}', '\u{2028}', '\u{2029}', '\u{feff}'];
    character.is_control()
        || turning.contains(&character)
        || ('\u{202a}'..='\u{202e}').contains(&character)
        || ('\u{2066}'..='\u{2069}').contains(&character)
}

#[cfg(test)]
mod tests {
    use super::*;

    #[test]
    fn names_beside_a_file() {
        let home = Home::of(Path::new("a/deal"));
        assert_eq!(home.part(0), Path::new("a/.deal.vz-new.0"));
        assert_eq!(home.journal(), Path::new("a/.deal.vz-journal"));
        assert_eq!(home.sidecar(), Path::new("a/deal.vz"));
        assert_eq!(home.table(), Path::new("a/deal.owners"));
        assert_eq!(home.manifest(), Path::new("a/deal.manifest.json"));
        assert_eq!(home.copy(0), Path::new("a/deal.before-repair"));
        assert_eq!(home.copy(3), Path::new("a/deal.before-repair.3"));
        assert_eq!(Home::of(Path::new("deal")).part(1), Path::new("./.deal.vz-new.1"));
    }

    #[test]
    fn files_that_are_a_deals_own() {
        let home = Home::of(Path::new("/a/deal"));
        for name in [
            "deal",
            "deal.vz",
            "deal.owners",
            "deal.manifest.json",
            ".deal.vz-journal",
            ".deal.vz-new.8",
            "deal.before-repair.2",
        ] {
            assert!(home.owns(&Path::new("/a").join(name)), "{name}");
            assert!(!home.owns(&Path::new("/a/b").join(name)), "{name}");
        }
        for name in ["deals", "deal.vz2", ".deal", "deal.manifest", ".deal.vz-new.9"] {
            assert!(!home.owns(&Path::new("/a").join(name)), "{name}");
        }
    }

    #[test]
    fn a_long_name_gets_names_that_are_short_enough_and_its_own() {
        let long = |last: &str| Home::of(Path::new(&("x".repeat(254) + last)));
        let name = |path: PathBuf| path.file_name().unwrap().len();
        assert!(name(long("a").part(7)) < 255 && name(long("a").table()) < 255);
        assert_ne!(long("a").part(0), long("b").part(0));
    }

    #[test]
    fn names_in_messages() {
        assert_eq!(shown("deal \u{e9}"), "deal \u{e9}");
        assert_eq!(shown("a\nb\x1b[2J\u{202e}\\"), "a\\nb\\u{1b}[2J\\u{202e}\\\\");
        assert_eq!(shown(OsStr::from_bytes(b"a\xff\xfeb")), "a\\xff\\xfeb");
    }
}
