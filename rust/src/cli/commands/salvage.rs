//! Writing out the segments that are whole for certain.
use super::super::answer::Answer;
use super::super::args::Stream;
use super::super::failure::{self, Failure};
use super::super::files;
use super::super::json::Json;
use super::super::mend;
use super::super::progress::Progress;
use super::super::store::names::shown;
use super::super::survey::{Slot, State};
use super::fsck::{disagreeing, file_name, read};
use super::listing::slot_members;
use super::text;
use std::fs;
use std::path::{Path, PathBuf};
use vizhuthamen::Entry;

/// Writes the segment of each entry that is kept, or would be after a repair, to a file of its own. The deal is not
/// changed.
pub fn salvage(deal: &Stream, folder: &Path, wait: bool) -> Result<Answer, Failure> {
    let read = read(deal, wait)?;
    let progress = Progress::start("salvaging", read.deal.bytes.len());
    let mended = match mend::mend(&read.deal.bytes, None, None) {
        Ok(mended) => mended,
        Err(refusal) => return Ok(read.refused(refusal)),
    };
    drop(progress);
    make_folder(folder)?;
    let (mut lines, mut files, mut left) = (String::new(), vec![], vec![]);
    for slot in mended.survey.slots.iter().filter(|slot| slot.state != State::Blank) {
        let (number, place) = (slot.number, slot.place);
        let whose = read.owners.of_slot(slot).map_or(String::new(), |owner| format!(", {}", owner.whose()));
        match slot.kept() {
            Some(entry) => {
                let path = write(folder, slot, &entry, &mended.bytes)?;
                lines.push_str(&format!("slot {number} (place {place}{whose}): {}\n", shown(&path)));
                let members = slot_members(slot, "kept", &read.owners);
                files.push(Json::Object([members, vec![("file", file_name(&path))]].concat()));
            }
            None => {
                let state = slot.alone();
                lines.push_str(&format!("slot {number} (place {place}{whose}): {state}, not written\n"));
                left.push(Json::Object(slot_members(slot, state.words(), &read.owners)));
            }
        }
    }
    let answer = match left.is_empty() && read.disagrees.is_none() {
        true => Answer::done("every segment is written").writing(),
        false => Answer::damaged("some segments are not written").writing(),
    };
    let members = vec![("folder", text(shown(folder))), ("written", Json::List(files)), ("left_out", Json::List(left))];
    let unknown = read.owners.unknown(&mended.survey.slots, &read.deal.name).map(|failure| failure.line());
    Ok(unknown.into_iter().fold(disagreeing(answer, read.disagrees).with_text(lines, members), Answer::with_note))
}

fn make_folder(folder: &Path) -> Result<(), Failure> {
    match fs::create_dir(folder) {
        Err(error) if !folder.is_dir() => Err(files::cannot("make the folder", &shown(folder), error)),
        _ => Ok(()),
    }
}

/// Writes a segment to a file that is not there, or has the same bytes.
fn write(folder: &Path, slot: &Slot, entry: &Entry, deal: &[u8]) -> Result<PathBuf, Failure> {
    let path = folder.join(format!("slot-{}-{}.segment", slot.number, entry.commitment));
    let bytes = &deal[entry.offset as usize..][..entry.size as usize];
    if files::make(&path, bytes)? {
        return Ok(path);
    }
    match fs::read(&path) {
        Ok(there) if there == bytes => Ok(path),
        Ok(_) => Err(failure::io(format!("{} is there and has other bytes; it stays as it is", shown(&path)))
            .hint("give another folder")),
        Err(error) => Err(files::cannot("read", &shown(&path), error)),
    }
}
