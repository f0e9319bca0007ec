//! Files written below a folder by their names: no name leads out of the folder, and no link is followed on the way.
use super::failure::{self, Failure};
use super::files;
use super::manifest::Name;
use super::store::names::shown;
use std::collections::{BTreeMap, BTreeSet};
use std::fs;
use std::io::ErrorKind;
use std::path::{Path, PathBuf};

/// A file that is to be written: where, and its bytes.
pub struct Output {
    pub path: PathBuf,
    pub bytes: Vec<u8>,
}

/// The file of a name below a folder. A name that leads out of the folder is refused, and so is one that goes over a
/// link or over what is no folder.
pub fn output(folder: &Path, name: &Name, bytes: Vec<u8>) -> Result<Output, Failure> {
    let outside = || failure::data(format!("the name {} leads out of the folder; nothing is written", name.shown()));
    let path = name.below(folder).ok_or_else(outside)?;
    for way in name.folders().filter_map(|name| name.below(folder)) {
        match fs::symlink_metadata(&way) {
            Ok(metadata) if metadata.is_dir() => {}
            Ok(_) => return Err(failure::io(format!("{} is no folder; nothing is written", shown(&way)))),
            Err(error) if error.kind() == ErrorKind::NotFound => break,
            Err(error) => return Err(files::cannot("read", &shown(&way), error)),
        }
    }
    match fs::symlink_metadata(&path) {
        Ok(metadata) if !metadata.is_file() => {
            Err(failure::io(format!("{} is there and is no regular file; nothing is written", shown(&path))))
        }
        _ => Ok(Output { path, bytes }),
    }
}

/// Judges whether files may be written: none is there, or it has the very bytes, or it is replaced by force; and none
/// is the folder of another.
pub fn judge(outputs: &[Output], force: bool) -> Result<(), Failure> {
    let paths: BTreeSet<&Path> = outputs.iter().map(|output| output.path.as_path()).collect();
    if let Some(path) = paths.iter().find(|path| path.ancestors().skip(1).any(|folder| paths.contains(folder))) {
        return Err(failure::data(format!("a folder of {} would be a file; nothing is written", shown(path))));
    }
    let there = |output: &&Output| fs::symlink_metadata(&output.path).is_ok();
    outputs.iter().filter(there).try_for_each(|output| files::must_write(&output.path, &output.bytes, force).map(drop))
}

/// Writes files, each whole or not at all, and the folders that they lie in.
pub fn write(outputs: &[Output], force: bool) -> Result<(), Failure> {
    let mut folders = BTreeMap::new();
    for Output { path, bytes } in outputs {
        let folder = path.parent().unwrap_or(Path::new("."));
        if !folders.contains_key(folder) {
            fs::create_dir_all(folder).map_err(|error| files::cannot("make the folder", &shown(folder), error))?;
        }
        if !files::make_unflushed(path, bytes)? {
            files::write_over(path, bytes, force)?;
        }
        folders.insert(folder, path);
    }
    folders.into_values().try_for_each(|path| files::flush_folder(path))
}
