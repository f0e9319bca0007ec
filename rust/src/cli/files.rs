//! Reading files, and writing outputs so that a failure or a kill leaves the old ones whole.
use super::args::Stream;
use super::failure::{self, Failure};
use super::manifest::{self, Manifest};
use super::owners::Owners;
use super::store::aside::{remove_dead, Aside, Fill};
use super::store::change::{self, Part};
use super::store::names::{shown, Home};
use super::store::{self, log, system, Attributes, DealFile, Held, Keep, Known, OwnerTable, View};
use std::fs::{self, File, Metadata, OpenOptions};
use std::io::{self, ErrorKind, Read, Write};
use std::os::fd::AsFd;
use std::os::unix::fs::MetadataExt;
use std::path::{Path, PathBuf};
use vizhuthamen::MAX_DEAL;

/// The name of standard input in messages.
const STANDARD_INPUT: &str = "standard input";

/// What was read: the bytes (of a longer file the first 2^24 + 1), the name for messages, and which file it is.
pub struct Content {
    /// The bytes.
    pub bytes: Vec<u8>,
    /// The name for messages.
    pub name: String,
    /// Which file it is, and what it was like before it was read.
    pub metadata: Option<Metadata>,
}

impl Content {
    /// The length of the file, or of what was read where it is no regular one.
    pub fn length(&self) -> u64 {
        let read = self.bytes.len() as u64;
        self.metadata.as_ref().filter(|metadata| metadata.is_file()).map_or(read, |metadata| metadata.len().max(read))
    }

    /// The word that names it in a call.
    pub fn operand(&self) -> &str {
        match self.name.as_str() {
            STANDARD_INPUT => "-",
            name => name,
        }
    }

    /// The name and the size, for messages about sizes.
    pub fn described(&self) -> String {
        sized(&self.name, self.bytes.len() as u64, MAX_DEAL as u64)
    }
}

/// A name and a size; of a size beyond the limit only that it is.
pub fn sized(name: &str, size: u64, limit: u64) -> String {
    match size {
        _ if size > limit => format!("{name} has more than {limit} bytes"),
        _ => format!("{name} has {size} bytes"),
    }
}

/// Reading or writing a file failed.
pub fn cannot(action: &str, name: &str, error: io::Error) -> Failure {
    failure::io(format!("cannot {action} {name}: {error}"))
}

/// Reads standard input or a file.
pub fn read(stream: &Stream) -> Result<Content, Failure> {
    match stream {
        Stream::Standard => {
            let metadata = io::stdin().as_fd().try_clone_to_owned().and_then(|fd| File::from(fd).metadata()).ok();
            read_from(io::stdin().lock(), STANDARD_INPUT.to_string(), metadata)
        }
        Stream::File(path) => {
            let file = File::open(path).map_err(|error| cannot("read", &shown(path), error))?;
            read_open(&file, shown(path))
        }
    }
}

/// Reads an open file.
pub fn read_open(file: &File, name: String) -> Result<Content, Failure> {
    let metadata = file.metadata().ok();
    read_from(file, name, metadata)
}

/// Reads a log whole, under its lock where it is a file: nobody adds lines to it meanwhile.
pub fn read_log(stream: &Stream) -> Result<Content, Failure> {
    let (bytes, name) = match stream {
        Stream::Standard => (log::read_whole(io::stdin().lock(), STANDARD_INPUT)?, STANDARD_INPUT.to_string()),
        Stream::File(path) => (log::read(path)?, shown(path)),
    };
    Ok(Content { bytes, name, metadata: None })
}

/// Reads a deal, which must have the size that is known of it.
pub fn read_deal(stream: &Stream) -> Result<Content, Failure> {
    let content = read(stream)?;
    known(stream, content.length())?;
    Ok(content)
}

/// Reads a deal, which must have the size that is known of it, and the number that is kept of it.
pub fn read_numbered(stream: &Stream) -> Result<(Content, Option<u64>), Failure> {
    read_known(stream).map(|(content, known)| (content, known.and_then(|known| known.number)))
}

/// Reads a deal, and what is known of it. It was known while the deal was read: where it has changed meanwhile, both
/// are read again.
pub fn read_known(stream: &Stream) -> Result<(Content, Option<Known>), Failure> {
    loop {
        let before = real(stream).and_then(|path| store::said(&path));
        let content = read(stream)?;
        let known = known(stream, content.length())?;
        if known == before {
            return Ok((content, known));
        }
    }
}

/// A deal that is read without a lock, with what lies beside it where it is a file.
pub struct Viewed {
    pub content: Content,
    /// What is known of it.
    pub known: Option<Known>,
    /// The table of its owners, or why it cannot be read; its names.
    table: Option<(Home, Result<Option<OwnerTable>, Failure>)>,
    /// Its manifest, true or not, or why it cannot be read.
    pub manifest: Result<Option<Manifest>, Failure>,
}

impl Viewed {
    /// Whose the entries of its slots are.
    pub fn owners(&self, slots: usize) -> Owners {
        self.table.as_ref().map_or(Owners::Nowhere, |(home, table)| Owners::read(home, table, slots))
    }
}

/// Reads a deal, which must have the size that is known of it, and what lies beside it, as all was at one moment.
pub fn read_viewed(stream: &Stream) -> Result<Viewed, Failure> {
    match stream {
        Stream::File(path) if path.is_file() => {
            let View { content, known, table, manifest, home } = store::view(path)?;
            Ok(Viewed { content, known, table: Some((home, table)), manifest })
        }
        _ => read(stream).map(|content| Viewed { content, known: None, table: None, manifest: Ok(None) }),
    }
}

/// A deal that is read, under its lock where it is a file: then nobody changes it as long as this is there.
pub enum Source {
    Locked(DealFile),
    Piped(Content),
}

impl Source {
    /// Reads a deal, and waits for its lock unless that is not wanted.
    pub fn open(deal: &Stream, wait: bool) -> Result<Source, Failure> {
        let Stream::File(path) = deal else {
            return read(deal).map(Source::Piped);
        };
        match fs::metadata(path) {
            Err(error) => Err(cannot("read", &shown(path), error)),
            Ok(metadata) if metadata.is_file() => DealFile::open_to_read(path, wait).map(Source::Locked),
            Ok(_) => read(deal).map(Source::Piped),
        }
    }

    pub fn content(&self) -> &Content {
        match self {
            Source::Locked(file) => &file.content,
            Source::Piped(content) => content,
        }
    }

    pub fn into_content(self) -> Content {
        match self {
            Source::Locked(file) => file.content,
            Source::Piped(content) => content,
        }
    }

    /// The table of its owners, if there is one.
    pub fn table(&self) -> Result<Option<OwnerTable>, Failure> {
        match self {
            Source::Locked(file) => file.table(),
            Source::Piped(_) => Ok(None),
        }
    }

    /// The manifest of the deal, true or not. A pipe has none.
    pub fn manifest(&self) -> Result<Option<Manifest>, Failure> {
        match self {
            Source::Locked(file) => manifest::read(file.path()),
            Source::Piped(_) => Ok(None),
        }
    }

    /// Whose the entries of its slots are.
    pub fn owners(&self, slots: usize) -> Owners {
        match self {
            Source::Locked(file) => Owners::read(file.home(), &file.table(), slots),
            Source::Piped(_) => Owners::Nowhere,
        }
    }

    /// The manifest of the deal for another one that has its segments.
    pub fn manifest_for(&self, other: &[u8]) -> Result<Option<Manifest>, Failure> {
        let manifest = self.manifest()?.map(|manifest| manifest.renewed(other)).transpose().map_err(failure::data)?;
        Ok(manifest.map(|renewed| renewed.manifest))
    }

    /// What is known of the deal, which must have the length that is known. Nothing is known of a pipe.
    pub fn known(&self) -> Result<Option<Known>, Failure> {
        match self {
            Source::Locked(file) => store::known(file.path(), file.content.length()),
            Source::Piped(_) => Ok(None),
        }
    }
}

/// Where a deal lies that is a file.
fn real(stream: &Stream) -> Option<PathBuf> {
    match stream {
        Stream::File(path) if path.is_file() => fs::canonicalize(path).ok(),
        _ => None,
    }
}

/// What is known of a deal that is read, which must have the length that is known, where it is a file. Nothing is known
/// of a pipe or of a file without a name, nor where it may not be read.
pub fn known(stream: &Stream, length: u64) -> Result<Option<Known>, Failure> {
    match real(stream).map(|real| store::known(&real, length)) {
        Some(Err(failure)) if failure.status == failure::DATA => Err(failure),
        Some(Ok(known)) => Ok(known),
        _ => Ok(None),
    }
}

/// Reads at most 2^24 + 1 bytes: no routine takes more, and the one byte too many is seen by its size check.
fn read_from(source: impl Read, name: String, metadata: Option<Metadata>) -> Result<Content, Failure> {
    let mut bytes = Vec::new();
    let limit = MAX_DEAL as u64 + 1;
    source.take(limit).read_to_end(&mut bytes).map_err(|error| cannot("read", &name, error))?;
    Ok(Content { bytes, name, metadata })
}

/// Writes an output file. It must not be a file that the command has read; one that is there is replaced only by force.
pub fn write(path: &Path, bytes: &[u8], read: &Content, force: bool) -> Result<(), Failure> {
    let failed = |error| cannot("write", &shown(path), error);
    match fs::metadata(path) {
        Ok(old) if same_file(&old, read) => {
            Err(failure::usage(format!("--output would replace {}, which was read", shown(path))))
        }
        Ok(old) if old.is_file() => write_over(path, bytes, force),
        // A device, a pipe: written as it is. A directory: refused by the system.
        Ok(_) => OpenOptions::new().write(true).open(path).and_then(|mut file| file.write_all(bytes)).map_err(failed),
        Err(error) if error.kind() == ErrorKind::NotFound => write_new(path, bytes, force),
        Err(error) => Err(failed(error)),
    }
}

/// Writes a file that is not there; where it is all the same, as by another process in the meantime, it is replaced
/// only by force.
fn write_new(path: &Path, bytes: &[u8], force: bool) -> Result<(), Failure> {
    match make(path, bytes)? {
        true => Ok(()),
        false => write_over(path, bytes, force),
    }
}

/// Replaces an output that is there, where that is needed.
pub fn write_over(path: &Path, bytes: &[u8], force: bool) -> Result<(), Failure> {
    match must_write(path, bytes, force)? {
        true => replace(path, bytes),
        false => clear(&fs::canonicalize(path).unwrap_or_else(|_| path.to_path_buf())),
    }
}

/// Whether an output that is there is to be replaced, which is done by force alone. One that has the very bytes is as
/// it should be: a call that is repeated after a kill ends well.
pub fn must_write(path: &Path, bytes: &[u8], force: bool) -> Result<bool, Failure> {
    if force {
        return Ok(true);
    }
    let exists = |why: &str| {
        failure::io(format!("cannot write {}: the file exists{why}", shown(path)))
            .hint("give another name, or --force to replace it")
    };
    match holds(path, bytes) {
        Ok(true) => Ok(false),
        Ok(false) => Err(exists(", with other bytes")),
        Err(error) => Err(exists(&format!(" and cannot be read: {error}"))),
    }
}

/// Whether a file has these bytes. Of one that has another length nothing is read.
fn holds(path: &Path, bytes: &[u8]) -> io::Result<bool> {
    let file = File::open(path)?;
    let mut there = vec![];
    if file.metadata()?.len() == bytes.len() as u64 {
        file.take(bytes.len() as u64 + 1).read_to_end(&mut there)?;
    }
    Ok(there == bytes)
}

/// Whether a file is the one that was read.
pub fn same_file(file: &Metadata, read: &Content) -> bool {
    read.metadata.as_ref().is_some_and(|other| (file.dev(), file.ino()) == (other.dev(), other.ino()))
}

/// Makes a file in one step. Says false where the name is taken.
pub fn make(path: &Path, bytes: &[u8]) -> Result<bool, Failure> {
    let made = make_unflushed(path, bytes)?;
    if made {
        flush_folder(path)?;
    }
    Ok(made)
}

/// The same, but its name may not last until the folder is flushed.
pub fn make_unflushed(path: &Path, bytes: &[u8]) -> Result<bool, Failure> {
    let failed = |error: String| failure::io(format!("cannot write {}: {error}", shown(path)));
    let (home, held) = (Home::of(path), Held::start());
    remove_dead(&home.part(0)).map_err(failed)?;
    let mut aside = Aside::write(&home, 0, Fill::Bytes(bytes), Attributes::NEW, &held).map_err(failed)?;
    aside.make(path, &held).map_err(failed)
}

/// Flushes the folder of a file to the disk.
pub fn flush_folder(path: &Path) -> Result<(), Failure> {
    change::flush(&Home::of(path).folder)
        .map_err(|error| failure::io(format!("cannot write {}: its folder could not be flushed: {error}", shown(path))))
}

/// Removes a file that is done with, where it is still there, and what a dead process has left beside it.
pub fn remove(path: &Path) -> Result<(), Failure> {
    match system::repeat(|| fs::remove_file(path)) {
        Err(error) if error.kind() != ErrorKind::NotFound => return Err(cannot("remove", &shown(path), error)),
        _ => {}
    }
    clear(path)
}

/// Removes what a dead process has left beside an output.
fn clear(path: &Path) -> Result<(), Failure> {
    remove_dead(&Home::of(path).part(0)).map(drop).map_err(failure::io)
}

/// Puts a file with these bytes in the place of one that is there, in one step.
pub fn replace(path: &Path, bytes: &[u8]) -> Result<(), Failure> {
    let failed = |error| cannot("write", &shown(path), error);
    let real = fs::canonicalize(path).map_err(failed)?;
    let old = OpenOptions::new().write(true).open(&real).map_err(failed)?;
    let home = Home::of(&real);
    // A second name that a dead process has left is none of the user's.
    remove_dead(&home.part(0)).map_err(|error| failure::io(format!("cannot write {}: {error}", shown(path))))?;
    if old.metadata().map_err(failed)?.nlink() > 1 {
        let why = "it has several names (hard links), which would no longer be one file";
        return Err(failure::io(format!("cannot replace {}: {why}", shown(path))));
    }
    let keep = Keep { old: &old, new_owner: true };
    let part = Part { target: real, bytes, keep: Some(keep) };
    change::put(&home, &[part], || Ok(())).map_err(|trouble| store::troubled(trouble, &shown(path)))
}

#[cfg(test)]
mod tests {
    use super::*;
    use crate::cli::store::{Access, NewDeal, NewTable};
    use std::os::unix::fs::PermissionsExt;

    const ACCESS: Access = Access { wait: true, new_owner: false };

    /// A folder of its own for one test, which goes when the test ends.
    struct Folder(PathBuf);

    impl std::ops::Deref for Folder {
        type Target = Path;

        fn deref(&self) -> &Path {
            &self.0
        }
    }

    impl Drop for Folder {
        fn drop(&mut self) {
            let _ = fs::remove_dir_all(&self.0);
        }
    }

    /// An empty folder.
    fn folder(name: &str) -> Folder {
        let path = std::env::temp_dir().join(format!("vizhuthamen-test-{}-{name}", std::process::id()));
        let _ = fs::remove_dir_all(&path);
        fs::create_dir(&path).unwrap();
        Folder(path)
    }

    /// A folder with a deal file, whose bytes are "old".
    fn old_deal(name: &str) -> (Folder, PathBuf) {
        let folder = folder(name);
        let path = folder.join("deal");
        fs::write(&path, b"old").unwrap();
        (folder, path)
    }

    fn names(folder: &Path) -> Vec<String> {
        let mut names: Vec<_> =
            fs::read_dir(folder).unwrap().map(|entry| entry.unwrap().file_name().into_string().unwrap()).collect();
        names.sort();
        names
    }

    #[test]
    fn a_replaced_file_keeps_its_permissions_and_leaves_nothing_beside_it() {
        let (folder, path) = old_deal("replace");
        let link = folder.join("link");
        fs::set_permissions(&path, fs::Permissions::from_mode(0o640)).unwrap();
        std::os::unix::fs::symlink(&path, &link).unwrap();
        let deal = DealFile::open(&link, ACCESS).unwrap();
        assert_eq!(deal.content.bytes, b"old");
        deal.replace(b"new bytes", None, vec![]).unwrap();
        assert_eq!(fs::read(&path).unwrap(), b"new bytes");
        assert_eq!(fs::metadata(&path).unwrap().permissions().mode() & 0o777, 0o640);
        assert!(fs::symlink_metadata(&link).unwrap().is_symlink());
        assert_eq!(names(&folder), ["deal", "deal.vz", "link"]);
    }

    #[test]
    fn a_rename_that_fails_removes_the_file_aside() {
        let folder = folder("rename");
        let target = folder.join("full");
        fs::create_dir(&target).unwrap();
        fs::write(target.join("inside"), b"").unwrap();
        let part = Part { target: target.clone(), bytes: b"bytes", keep: None };
        assert!(matches!(change::put(&Home::of(&target), &[part], || Ok(())), Err(change::Trouble::Nothing(_))));
        assert_eq!(names(&folder), ["full"]);
    }

    #[test]
    fn several_files_or_none() {
        let (folder, path) = old_deal("several");
        let deal = DealFile::open(&path, ACCESS).unwrap();
        let other = |name: &str| Part { target: folder.join(name), bytes: b"other", keep: None };
        fs::create_dir(folder.join("taken")).unwrap();
        let before = names(&folder);
        // A journal that is there cannot be, since it would have been ended: the change is not made.
        fs::write(folder.join(".deal.vz-journal"), b"").unwrap();
        assert!(deal.replace(b"new", None, vec![other("other")]).is_err());
        fs::remove_file(folder.join(".deal.vz-journal")).unwrap();
        assert_eq!((names(&folder), fs::read(&path).unwrap()), (before, b"old".to_vec()));
        deal.replace(b"new", None, vec![other("other")]).unwrap();
        assert_eq!(names(&folder), ["deal", "deal.vz", "other", "taken"]);
        assert_eq!(fs::read(&path).unwrap(), b"new");
    }

    #[test]
    fn a_deal_that_other_hands_change_is_not_replaced() {
        let (folder, path) = old_deal("hands");
        let deal = DealFile::open(&path, ACCESS).unwrap();
        fs::write(folder.join("mine"), b"mine").unwrap();
        fs::rename(folder.join("mine"), &path).unwrap();
        assert_eq!(deal.replace(b"new", None, vec![]).unwrap_err().status, 74);
        assert_eq!((names(&folder), fs::read(&path).unwrap()), (vec!["deal".to_string()], b"mine".to_vec()));
    }

    #[test]
    fn a_name_that_a_dead_process_has_left_is_taken_over() {
        let (folder, path) = old_deal("dead");
        for number in [0, 3, 8] {
            fs::write(folder.join(format!(".deal.vz-new.{number}")), b"dead").unwrap();
        }
        drop(DealFile::open(&path, ACCESS).unwrap());
        assert_eq!(names(&folder), ["deal"]);
        fs::write(folder.join(".out.vz-new.0"), b"dead").unwrap();
        fs::write(folder.join("out"), b"old").unwrap();
        replace(&folder.join("out"), b"new").unwrap();
        assert_eq!(names(&folder), ["deal", "out"]);
    }

    #[test]
    fn no_more_than_the_limit_is_read() {
        let content = read_from(io::repeat(7), "endless".to_string(), None).unwrap();
        assert_eq!(content.bytes.len(), MAX_DEAL + 1);
        assert_eq!(content.described(), "endless has more than 16777216 bytes");
    }

    #[test]
    fn a_size_beyond_the_limit_is_not_named() {
        assert_eq!(sized("it", 1 << 36, 1 << 36), "it has 68719476736 bytes");
        assert_eq!(sized("it", (1 << 36) + 1, 1 << 36), "it has more than 68719476736 bytes");
    }

    #[test]
    fn what_was_read_is_not_overwritten() {
        let folder = folder("same");
        let path = folder.join("deal");
        fs::write(&path, b"deal").unwrap();
        let content = read(&Stream::File(path.clone())).unwrap();
        for force in [false, true] {
            assert_eq!(write(&path, b"segment", &content, force).unwrap_err().status, 64);
        }
        assert_eq!(fs::read(&path).unwrap(), b"deal");
        assert_eq!(names(&folder), ["deal"]);
    }

    #[test]
    fn an_output_is_replaced_by_force_alone() {
        let (folder, path) = old_deal("output");
        let content = read(&Stream::File(path)).unwrap();
        let other = folder.join("other");
        for (bytes, force, written) in [
            (b"first", false, true),
            (b"again", false, false),
            (b"first", false, true),
            (b"again", true, true),
            (b"again", false, true),
            (b"first", false, false),
        ] {
            let before = fs::read(&other).unwrap_or_default();
            let answer = write(&other, bytes, &content, force);
            assert_eq!(answer.is_ok(), written);
            assert_eq!(fs::read(&other).unwrap(), if written { bytes.to_vec() } else { before });
            assert!(written || answer.unwrap_err().line().ends_with("give another name, or --force to replace it"));
        }
        assert_eq!(names(&folder), ["deal", "other"]);
    }

    #[test]
    fn a_file_that_is_there_is_not_made_anew() {
        let folder = folder("new");
        let path = folder.join("deal");
        let create = |size, number| {
            let new = NewDeal { fill: Fill::Zeros(size), table: Some(&[0; 4]), manifest: None, number };
            store::create(&path, &new, Attributes::NEW)
        };
        assert_eq!(create(512, Some(7)).unwrap(), None);
        assert_eq!(fs::read(&path).unwrap(), [0; 512]);
        assert_eq!(fs::read(folder.join("deal.owners")).unwrap(), [0; 4]);
        assert_eq!(names(&folder), ["deal", "deal.owners", "deal.vz"]);
        fs::write(&path, b"kept").unwrap();
        let others = [(1024, Some(7)), (512, Some(8)), (512, None)];
        for (size, number) in [(512, Some(7))].into_iter().chain(others) {
            assert_eq!(create(size, number).unwrap_err().status, 74);
        }
        assert_eq!(fs::read(&path).unwrap(), b"kept");
        // What lies there without it is another deal's.
        fs::remove_file(&path).unwrap();
        for (size, number) in others {
            assert_eq!(create(size, number).unwrap_err().status, 65);
        }
        assert_eq!(names(&folder), ["deal.owners", "deal.vz"]);
    }

    #[test]
    fn a_table_that_lies_there_is_the_new_deals_or_is_refused() {
        let folder = folder("table");
        let (path, table) = (folder.join("deal"), folder.join("deal.owners"));
        let create = |table: Option<&[u8]>| {
            let new = NewDeal { fill: Fill::Zeros(512), table, manifest: None, number: None };
            store::create(&path, &new, Attributes::NEW)
        };
        fs::write(&table, [0, 1, 0, 0]).unwrap();
        for other in [None, Some(&[0; 4][..]), Some(&[0, 1, 0]), Some(&[0, 1, 0, 0, 0])] {
            assert_eq!(create(other).unwrap_err().status, 65);
        }
        assert_eq!(names(&folder), ["deal.owners"]);
        // Another process makes a deal of that name, and gives it up.
        let other = File::open(&table).unwrap();
        other.lock().unwrap();
        std::thread::scope(|scope| {
            let waiting = scope.spawn(|| create(Some(&[0; 4])));
            std::thread::sleep(std::time::Duration::from_millis(50));
            fs::remove_file(&table).unwrap();
            drop(other);
            assert_eq!(waiting.join().unwrap().unwrap(), None);
        });
        assert_eq!(fs::read(&table).unwrap(), [0; 4]);
        fs::remove_file(&path).unwrap();
        assert_eq!(create(Some(&[0; 4])).unwrap(), None);
        assert_eq!(names(&folder), ["deal", "deal.owners", "deal.vz"]);
    }

    #[test]
    fn a_table_is_changed_with_its_deal_or_alone() {
        let (folder, path) = old_deal("owners");
        let change = |bytes: &[u8]| {
            let deal = DealFile::open(&path, ACCESS).unwrap();
            let table = NewTable { old: deal.table().unwrap(), bytes: bytes.to_vec() };
            (deal, table)
        };
        let table = || fs::read(folder.join("deal.owners")).unwrap();
        let (deal, new) = change(&[1, 2]);
        deal.replace(b"new", Some(&new), vec![]).unwrap();
        assert_eq!((fs::read(&path).unwrap(), table()), (b"new".to_vec(), vec![1, 2]));
        fs::set_permissions(folder.join("deal.owners"), fs::Permissions::from_mode(0o640)).unwrap();
        drop(deal);
        let (deal, new) = change(&[2, 7]);
        deal.put_table(&new).unwrap();
        assert_eq!((fs::read(&path).unwrap(), table()), (b"new".to_vec(), vec![2, 7]));
        assert_eq!(fs::metadata(folder.join("deal.owners")).unwrap().permissions().mode() & 0o777, 0o640);
        // Other hands were at the table: neither it nor the deal is changed.
        drop(deal);
        let (deal, new) = change(&[0, 0]);
        fs::write(folder.join("deal.owners"), b"mine").unwrap();
        assert_eq!(deal.replace(b"other", Some(&new), vec![]).unwrap_err().status, 74);
        assert_eq!(deal.put_table(&new).unwrap_err().status, 74);
        assert_eq!((fs::read(&path).unwrap(), table()), (b"new".to_vec(), b"mine".to_vec()));
        assert_eq!(names(&folder), ["deal", "deal.owners", "deal.vz"]);
    }

    #[test]
    fn a_table_that_is_a_link_is_not_replaced() {
        let (folder, path) = old_deal("linked-table");
        fs::write(folder.join("second"), [1]).unwrap();
        std::os::unix::fs::symlink("second", folder.join("deal.owners")).unwrap();
        let deal = DealFile::open(&path, ACCESS).unwrap();
        let old = deal.table().unwrap();
        assert_eq!(old.as_ref().unwrap().bytes, [1]);
        let new = NewTable { old, bytes: vec![2] };
        assert_eq!(deal.replace(b"new", Some(&new), vec![]).unwrap_err().status, 74);
        fs::remove_file(folder.join("deal.owners")).unwrap();
        fs::hard_link(folder.join("second"), folder.join("deal.owners")).unwrap();
        assert_eq!(deal.put_table(&new).unwrap_err().status, 74);
        assert_eq!((fs::read(&path).unwrap(), fs::read(folder.join("second")).unwrap()), (b"old".to_vec(), vec![1]));
        assert_eq!(names(&folder), ["deal", "deal.owners", "second"]);
    }

    #[test]
    fn a_number_is_kept_beside_a_deal() {
        let (folder, path) = old_deal("number");
        let kept = || {
            let (content, number) = read_numbered(&Stream::File(path.clone())).unwrap();
            assert_eq!(content.bytes, b"old");
            number
        };
        assert_eq!(kept(), None);
        for number in [0, 7, u64::MAX, 7] {
            let deal = DealFile::open(&path, ACCESS).unwrap();
            let text = format!("vizhuthamen deal 1\nsize 3\nnumber {number}\n");
            deal.keep_number(number).unwrap();
            assert_eq!((kept(), fs::read(folder.join("deal.vz")).unwrap()), (Some(number), text.into_bytes()));
        }
        assert_eq!(DealFile::open(&path, ACCESS).unwrap().number(), Some(7));
        fs::hard_link(folder.join("deal.vz"), folder.join("second")).unwrap();
        assert_eq!(DealFile::open(&path, ACCESS).unwrap().keep_number(8).unwrap_err().status, 74);
        fs::remove_file(folder.join("deal.vz")).unwrap();
        std::os::unix::fs::symlink("second", folder.join("deal.vz")).unwrap();
        assert_eq!(DealFile::open(&path, ACCESS).unwrap().keep_number(8).unwrap_err().status, 74);
        assert_eq!(kept(), Some(7));
        assert_eq!(names(&folder), ["deal", "deal.vz", "second"]);
    }
}
