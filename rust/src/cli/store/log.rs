//! A log: a file that grows in place, by the lines of a change, under its own lock.
//!
//! Whoever adds lines holds the lock of the deal first and then that of the log, to the end of the change; whoever
//! reads a log shares its lock. The lines are decided with the change: its journal has the log's name, its length
//! before and the lines, so that whoever ends the change can tell whether they are there, in part or not at all. A log
//! may lie anywhere, on another file system too; it is never replaced, since it may be long, and may be watched.
use super::aside::{is_free, is_there, leads_to};
use super::change;
use super::journal::{Growth, LOG};
use super::lock::{self, Share};
use super::names::{near, shown, Home};
use super::system;
use crate::cli::failure::{self, Failure};
use std::ffi::OsStr;
use std::fs::{self, File, Metadata, OpenOptions};
use std::io::{self, ErrorKind, Read, Write};
use std::os::unix::ffi::OsStrExt;
use std::os::unix::fs::MetadataExt;
use std::path::{Path, PathBuf};

/// The most bytes that a log has here: some four million lines.
pub const MAX_LOG: u64 = 1 << 28;

/// A log under its lock, which ends when this is dropped; or one that is to be made.
pub struct LogFile {
    /// The log as it was read.
    pub bytes: Vec<u8>,
    /// The name for messages.
    pub name: String,
    path: PathBuf,
    /// None where it is not there yet.
    file: Option<File>,
    /// Whether this change has made it.
    made: bool,
    /// The bytes of the lines that it gets.
    new: Vec<u8>,
}

impl LogFile {
    /// Opens a log for lines of a deal's change. It is a regular file that the caller may write, and none of the deal's
    /// own; or nothing has its name yet.
    pub fn open(given: &Path, home: &Home, wait: bool) -> Result<LogFile, Failure> {
        let path = real(given)?;
        if home.owns(&path) {
            return Err(failure::usage(format!(
                "--log names {}, a file of the deal's own; nothing is changed",
                shown(given)
            ))
            .hint("give a file of its own for the log"));
        }
        loop {
            if let Some(log) = LogFile::try_open(given, &path, wait)? {
                return Ok(log);
            }
        }
    }

    /// One turn of that. Nothing where the log was replaced in the meantime.
    fn try_open(given: &Path, path: &Path, wait: bool) -> Result<Option<LogFile>, Failure> {
        let (name, failed) = (shown(given), |error: io::Error| cannot(given, &error.to_string()));
        let mut log = LogFile { bytes: vec![], name, path: path.to_path_buf(), file: None, made: false, new: vec![] };
        match fs::metadata(path) {
            Err(error) if error.kind() == ErrorKind::NotFound => return Ok(Some(log)),
            Ok(metadata) if !metadata.is_file() => {
                return Err(cannot(given, "it is not a regular file")
                    .hint("give --log a plain file, which is made where it is not there"));
            }
            metadata => metadata.map_err(failed)?,
        };
        let opened = OpenOptions::new().read(true).append(true).open(path);
        let file = opened.map_err(|error| failed(error).hint("give --log a file that you may write"))?;
        lock::take(&file, Share::Nobody, wait, given)?;
        if !leads_to(path, &file).map_err(failed)? {
            return Ok(None);
        }
        log.bytes = read_whole(&file, &log.name)?;
        log.file = Some(file);
        Ok(Some(log))
    }

    /// The log will get these lines, by their bytes.
    pub fn will_get(&mut self, lines: &[u8]) {
        self.new.extend(lines);
    }

    /// The log as it will be.
    pub fn grown(&self) -> Vec<u8> {
        [&self.bytes[..], &self.new].concat()
    }

    /// What the journal of a deal's change says of it.
    pub fn growth(&self, home: &Home) -> Growth {
        let name = self.path.strip_prefix(&home.folder).unwrap_or(&self.path).as_os_str().as_bytes().to_vec();
        Growth { name, before: self.bytes.len() as u64, bytes: self.new.clone() }
    }

    /// An error where the log is not as it was read any more: other hands were at it.
    pub fn unchanged(&self) -> Result<(), String> {
        let same = match &self.file {
            None => Ok(is_free(&self.path)),
            Some(file) => leads_to(&self.path, file)
                .and_then(|current| Ok(current && file.metadata()?.len() == self.bytes.len() as u64)),
        };
        match same.map_err(|error| error.to_string())? {
            true => Ok(()),
            false => Err(format!("another program has changed {} in the meantime", self.name)),
        }
    }

    /// Adds the lines, flushed to the disk.
    pub fn add(&mut self) -> Result<(), String> {
        let made = if self.file.is_none() { self.make() } else { Ok(()) };
        let added = made.and_then(|()| match &mut self.file {
            Some(file) => file.write_all(&self.new).and_then(|()| file.sync_all()),
            None => Ok(()),
        });
        added.map_err(|error| format!("a line could not be added to {}: {error}", self.name))
    }

    /// Makes the file, and locks it.
    fn make(&mut self) -> io::Result<()> {
        let meanwhile = || io::Error::other("another process has made it in the meantime");
        let made = OpenOptions::new().read(true).append(true).create_new(true).open(&self.path);
        let file = self.file.insert(match made {
            Err(error) if error.kind() == ErrorKind::AlreadyExists => return Err(meanwhile()),
            made => made?,
        });
        self.made = true;
        lock::wait_for(file, Share::Nobody)?;
        if file.metadata()?.len() != 0 {
            (self.file, self.made) = (None, false);
            return Err(meanwhile());
        }
        change::flush(&Home::of(&self.path).folder)
    }

    /// Takes the lines back, or the file where it was made for them.
    pub fn take_back(&mut self) -> io::Result<()> {
        let before = self.bytes.len() as u64;
        match &self.file {
            Some(file) if self.made => {
                if leads_to(&self.path, file)? {
                    system::repeat(|| fs::remove_file(&self.path))?;
                }
                change::flush(&Home::of(&self.path).folder)
            }
            Some(file) if file.metadata()?.len() != before => file.set_len(before).and_then(|()| file.sync_all()),
            _ => Ok(()),
        }
    }
}

/// Where a log lies, or is to be made.
fn real(given: &Path) -> Result<PathBuf, Failure> {
    let failed = |error: io::Error| cannot(given, &error.to_string());
    match fs::canonicalize(given) {
        Err(error) if error.kind() == ErrorKind::NotFound => {}
        path => return path.map_err(failed),
    }
    if is_there(given).map_err(|why| cannot(given, &why))? {
        return Err(cannot(given, "it is a link that leads nowhere").hint("give --log the file itself"));
    }
    let name = given.file_name().ok_or_else(|| cannot(given, "it is no name of a file"))?;
    let folder = fs::canonicalize(Home::of(given).folder);
    folder.map(|folder| folder.join(name)).map_err(|error| failed(error).hint("make its folder first"))
}

fn cannot(given: &Path, why: &str) -> Failure {
    failure::io(format!("cannot add a line to {}: {why}; nothing is changed", shown(given)))
}

/// Reads the log at a path, once nobody adds lines to it. What cannot be locked is read all the same.
pub fn read(path: &Path) -> Result<Vec<u8>, Failure> {
    let name = shown(path);
    let file = File::open(path).map_err(|error| failure::io(format!("cannot read {name}: {error}")))?;
    let _ = lock::take(&file, Share::Readers, true, path);
    read_whole(&file, &name)
}

/// Reads a whole log.
pub fn read_whole(source: impl Read, name: &str) -> Result<Vec<u8>, Failure> {
    let mut bytes = vec![];
    let read = source.take(MAX_LOG + 1).read_to_end(&mut bytes);
    read.map_err(|error| failure::io(format!("cannot read {name}: {error}")))?;
    match bytes.len() as u64 > MAX_LOG {
        true => Err(failure::data(format!("{name} has more than {MAX_LOG} bytes, and no log here has"))),
        false => Ok(bytes),
    }
}

/// Ends what a journal says of a log: its lines are there once, whole and flushed. The journal is that of `writer`.
pub fn end(growth: &Growth, home: &Home, writer: u32, wait: bool) -> Result<(), Failure> {
    let path = home.folder.join(OsStr::from_bytes(&growth.name));
    let unfinished = Unfinished { log: near(&path), journal: near(home.journal()) };
    let failed = |error: io::Error| unfinished.because(&format!("{} cannot be written: {error}", near(&path)));
    loop {
        let there = match fs::metadata(&path) {
            Err(error) if error.kind() == ErrorKind::NotFound && growth.before == 0 && is_free(&path) => None,
            Err(error) if error.kind() == ErrorKind::NotFound => return Err(unfinished.lost()),
            metadata => Some(metadata.map_err(failed)?),
        };
        unfinished.may_be_ended(writer, there.as_ref())?;
        let mut options = OpenOptions::new();
        let opened = options.read(true).append(true).create_new(there.is_none()).open(&path);
        let file = match opened {
            // Another process has made it or taken it away in the meantime.
            Err(error) if matches!(error.kind(), ErrorKind::AlreadyExists | ErrorKind::NotFound) => continue,
            file => file.map_err(failed)?,
        };
        lock::take(&file, Share::Nobody, wait, &path)?;
        if !leads_to(&path, &file).map_err(failed)? {
            continue;
        }
        unfinished.may_be_ended(writer, Some(&file.metadata().map_err(failed)?))?;
        let bytes = read_whole(&file, &unfinished.log)?;
        return match left_of(growth, &bytes) {
            Some(left) => complete(&file, &path, growth, left).map_err(failed),
            None => Err(unfinished.changed(growth)),
        };
    }
}

/// How many of the new bytes are there, one after the other. None where something else is in their place: all that a
/// cut or a power failure leaves there is a part of them, and zeros in the place of others.
fn left_of(growth: &Growth, log: &[u8]) -> Option<usize> {
    let there = log.get(usize::try_from(growth.before).ok()?..)?;
    let same = there.iter().zip(&growth.bytes).take_while(|(a, b)| a == b).count();
    let torn = there.len() <= growth.bytes.len() && there[same..].iter().all(|byte| *byte == 0);
    (same == growth.bytes.len() || torn).then_some(same)
}

/// Adds those of the new bytes that are not there.
fn complete(mut file: &File, path: &Path, growth: &Growth, there: usize) -> io::Result<()> {
    let end = growth.before + there as u64;
    if there < growth.bytes.len() && file.metadata()?.len() != end {
        file.set_len(end)?;
    }
    file.write_all(&growth.bytes[there..])?;
    file.sync_all()?;
    change::flush(&Home::of(path).folder)
}

/// A change that cannot be ended for its log.
struct Unfinished {
    log: String,
    journal: String,
}

impl Unfinished {
    fn because(&self, why: &str) -> Failure {
        failure::io(format!("an unfinished change of it cannot be ended ({}): {why}", self.journal))
    }

    fn lost(&self) -> Failure {
        self.because(&format!("it has a line for the log {}, which is not there", self.log))
            .hint("bring the log back")
            .hint(self.without())
    }

    fn changed(&self, growth: &Growth) -> Failure {
        let (log, before) = (&self.log, growth.before);
        self.because(&format!(
            "it has a line for the log {log}, at byte {before}, and another program has changed the log"
        ))
        .hint(format!("bring the log back with the {before} bytes that it had"))
        .hint(self.without())
    }

    fn without(&self) -> String {
        format!("or, if it is lost for good, take the line that begins with `{LOG}` out of {}", self.journal)
    }

    /// A journal lies in a folder that others may write, too, and a log anywhere. So it is obeyed only where whoever
    /// has written it could have written the log himself: the caller, root, or the log's owner.
    fn may_be_ended(&self, writer: u32, log: Option<&Metadata>) -> Result<(), Failure> {
        let regular = log.is_none_or(Metadata::is_file);
        let his = writer == 0 || writer == system::user() || log.is_some_and(|log| log.uid() == writer);
        match regular && his {
            true => Ok(()),
            false if !regular => Err(self.because(&format!("its log {} is not a regular file", self.log))),
            false => Err(self
                .because(&format!("it was begun by user {writer}, and the log {} is neither his nor yours", self.log))
                .hint(format!("let user {writer} call any command on the deal"))
                .hint(format!("or, if you trust it, make {} your own (chown)", self.journal))),
        }
    }
}

#[cfg(test)]
mod tests {
    use super::*;

    #[test]
    fn what_a_cut_leaves_of_a_line_is_told_from_what_others_write() {
        let growth = Growth { name: vec![], before: 3, bytes: vec![2, 10, 0, 1, 7] };
        let left = |tail: &[u8]| left_of(&growth, &[b"old", tail].concat());
        for there in 0..=5 {
            assert_eq!(left(&growth.bytes[..there]), Some(there));
            let zeros = [&growth.bytes[..there], &vec![0; 5 - there]].concat();
            assert!(left(&zeros).is_some_and(|same| same >= there && zeros[same..].iter().all(|byte| *byte == 0)));
        }
        // Whole, and with lines after it.
        assert_eq!(left(&[2, 10, 0, 1, 7, 2, 10]), Some(5));
        for other in [&[1][..], &[2, 10, 0, 1, 8], &[2, 10, 0, 0, 0, 0], &[2, 11], &[0; 6]] {
            assert_eq!(left(other), None, "{other:?}");
        }
        assert_eq!(left_of(&growth, b"ol"), None);
    }
}
