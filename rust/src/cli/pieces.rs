//! A source that is read piece by piece, and never held whole.
use super::args::Stream;
use super::failure::{self, Failure};
use super::files::{cannot, sized};
use super::store::names::shown;
use std::fs::{File, Metadata};
use std::io::{self, ErrorKind, Read, Seek, SeekFrom, StdinLock};
use std::os::unix::fs::MetadataExt;

/// Which regular file it is, its length, and when its bytes were changed last.
#[derive(Clone, Copy, Debug, PartialEq, Eq)]
pub struct Known {
    pub inode: u64,
    pub length: u64,
    /// Seconds and nanoseconds.
    pub modified: (i64, i64),
}

impl Known {
    /// Nothing of a pipe or a device, nor of a file without bytes: some whose bytes are made as they are read say that.
    fn of(metadata: &Metadata) -> Option<Known> {
        let modified = (metadata.mtime(), metadata.mtime_nsec());
        let known = Known { inode: metadata.ino(), length: metadata.len(), modified };
        (metadata.is_file() && known.length > 0).then_some(known)
    }
}

enum Source {
    Standard(StdinLock<'static>),
    File(File),
}

impl Read for Source {
    fn read(&mut self, piece: &mut [u8]) -> io::Result<usize> {
        match self {
            Source::Standard(input) => input.read(piece),
            Source::File(file) => file.read(piece),
        }
    }
}

/// Standard input or a file, and how far it is read.
pub struct Pieces {
    source: Source,
    piece: Vec<u8>,
    ended: bool,
    /// The name for messages.
    pub name: String,
    /// What is known of it before it is read, where it is a regular file with a name.
    pub known: Option<Known>,
    /// The number of bytes read so far, or passed over.
    pub count: u64,
}

impl Pieces {
    /// Opens standard input or a file, for pieces of so many bytes at most.
    pub fn open(stream: &Stream, longest: usize) -> Result<Pieces, Failure> {
        let (source, name, known) = match stream {
            Stream::Standard => (Source::Standard(io::stdin().lock()), "standard input".to_string(), None),
            Stream::File(path) => {
                let file = File::open(path).map_err(|error| cannot("read", &shown(path), error))?;
                let metadata = file.metadata().map_err(|error| cannot("read", &shown(path), error))?;
                (Source::File(file), shown(path), Known::of(&metadata))
            }
        };
        Ok(Pieces { source, piece: vec![0; longest], ended: false, name, known, count: 0 })
    }

    /// Passes over the bytes before a place of a regular file.
    pub fn go_to(&mut self, place: u64) -> Result<(), Failure> {
        if let Source::File(file) = &mut self.source {
            file.seek(SeekFrom::Start(place)).map_err(|error| cannot("read", &self.name, error))?;
        }
        self.count = place;
        Ok(())
    }

    /// The next piece, of whatever length the system gives; empty at the end.
    pub fn read_next(&mut self) -> Result<&[u8], Failure> {
        let length = self.fill(0)?;
        Ok(&self.piece[..length])
    }

    /// The next piece, of the greatest length; shorter and then empty at the end.
    pub fn read_whole(&mut self) -> Result<&[u8], Failure> {
        let mut length = 0;
        while !self.ended && length < self.piece.len() {
            length += self.fill(length)?;
        }
        Ok(&self.piece[..length])
    }

    /// Reads once, behind so many bytes of the piece. After the end nothing is read any more, whatever a pipe brings.
    fn fill(&mut self, from: usize) -> Result<usize, Failure> {
        while !self.ended {
            match self.source.read(&mut self.piece[from..]) {
                Err(error) if error.kind() == ErrorKind::Interrupted => {}
                Err(error) => return Err(cannot("read", &self.name, error)),
                Ok(0) => self.ended = true,
                Ok(length) => {
                    self.count += length as u64;
                    return Ok(length);
                }
            }
        }
        Ok(0)
    }

    /// A failure where a regular file is not as it was before it was read.
    pub fn unchanged(&self) -> Result<(), Failure> {
        let (Source::File(file), Some(known)) = (&self.source, self.known) else { return Ok(()) };
        let now = file.metadata().map_err(|error| cannot("read", &self.name, error))?;
        match Known::of(&now) == Some(known) && self.count == known.length {
            true => Ok(()),
            false => Err(failure::data(format!("{} was changed while it was read", self.name)).hint("begin again")),
        }
    }

    /// The name and the number of bytes, for messages about sizes.
    pub fn described(&self, limit: u64) -> String {
        sized(&self.name, self.known.map_or(self.count, |known| known.length), limit)
    }
}

#[cfg(test)]
mod tests {
    use super::*;
    use std::fs;
    use std::path::PathBuf;

    /// A file of its own for one test, which goes when the test ends.
    struct Made(PathBuf);

    impl Drop for Made {
        fn drop(&mut self) {
            let _ = fs::remove_file(&self.0);
        }
    }

    fn made(name: &str, bytes: &[u8]) -> (Made, Stream) {
        let path = std::env::temp_dir().join(format!("vizhuthamen-pieces-{}-{name}", std::process::id()));
        fs::write(&path, bytes).unwrap();
        (Made(path.clone()), Stream::File(path))
    }

    #[test]
    fn a_file_in_pieces() {
        let bytes: Vec<u8> = (0..205).collect();
        let (_made, stream) = made("file", &bytes);
        for whole in [false, true] {
            let mut pieces = Pieces::open(&stream, 100).unwrap();
            let mut lengths = vec![];
            let mut read = vec![];
            loop {
                let piece = if whole { pieces.read_whole() } else { pieces.read_next() }.unwrap();
                lengths.push(piece.len());
                if piece.is_empty() {
                    break;
                }
                read.extend_from_slice(piece);
            }
            assert_eq!((read, lengths, pieces.count), (bytes.clone(), vec![100, 100, 5, 0], 205));
            assert_eq!(pieces.unchanged(), Ok(()));
            assert!(pieces.described(1000).ends_with("file has 205 bytes"));
            assert!(pieces.described(204).ends_with("file has more than 204 bytes"));
        }
    }

    #[test]
    fn from_a_place_on() {
        let (_made, stream) = made("place", &[1, 2, 3, 4, 5]);
        let mut pieces = Pieces::open(&stream, 10).unwrap();
        pieces.go_to(3).unwrap();
        assert_eq!(pieces.read_whole().unwrap(), [4, 5]);
        assert_eq!((pieces.read_whole().unwrap().len(), pieces.count), (0, 5));
    }

    #[test]
    fn a_file_that_changes() {
        let (made, stream) = made("changes", &[7; 50]);
        for bytes in [vec![7; 49], vec![7; 51], vec![8; 50]] {
            let mut pieces = Pieces::open(&stream, 20).unwrap();
            pieces.read_next().unwrap();
            // The clock of a file system may stand still for some milliseconds.
            std::thread::sleep(std::time::Duration::from_millis(20));
            fs::write(&made.0, bytes).unwrap();
            while !pieces.read_next().unwrap().is_empty() {}
            assert_eq!(pieces.unchanged().unwrap_err().status, 65);
        }
    }

    #[test]
    fn nothing_is_known_of_what_is_no_regular_file() {
        let (_made, empty) = made("empty", &[]);
        for stream in [Stream::File(PathBuf::from("/dev/null")), empty] {
            let mut pieces = Pieces::open(&stream, 10).unwrap();
            assert_eq!((pieces.known, pieces.read_whole().unwrap().len()), (None, 0));
            assert_eq!(pieces.unchanged(), Ok(()));
        }
    }
}
