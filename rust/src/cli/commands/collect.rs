//! Collecting a deal into a new file.
use super::super::answer::Answer;
use super::super::args::Stream;
use super::super::failure::{self, Failure};
use super::super::files::{self, Content, Source};
use super::super::json::Json;
use super::super::manifest;
use super::super::owners::{Owner, Owners};
use super::super::progress::Progress;
use super::super::store::aside::Fill;
use super::super::store::names::shown;
use super::super::store::{self, Attributes, NewDeal};
use super::super::survey::{self, area, Slot};
use super::super::table::{table, Column};
use super::fsck::wrong_slot;
use super::house::wrong_table;
use super::listing::slot_members;
use super::{path_of, refused, text, unsound};
use std::cmp::Reverse;
use std::fs;
use std::os::unix::fs::MetadataExt;
use std::path::Path;
use vizhuthamen::{Entry, Refusal};

/// Writes the standing segments of a deal, without gaps, to a new deal file, with the table of their owners. The deal
/// is not changed, and its lock is held to the end, so that the new one is the collection of what the deal still is.
/// The new one has the given number, or that of the deal, whose place it takes, and the names of the deal's manifest.
pub fn collect(deal: &Stream, new: &Stream, number: Option<u64>, force: bool, wait: bool) -> Result<Answer, Failure> {
    let new = path_of(new)?;
    let source = Source::open(deal, wait)?;
    let (old, table) = (source.content(), source.table()?);
    let kept = source.known()?.and_then(|known| known.number);
    is_another(new, old)?;
    let progress = Progress::start("collecting", old.bytes.len());
    // A deal whose size is not allowed has no slots, and the library refuses it.
    let entries = survey::numbers(&old.bytes).map_or(0, |numbers| numbers.entries as usize);
    let lent = table.as_ref().map_or_else(|| vec![0; entries], |table| table.bytes.clone());
    let (mut bytes, mut owners) = (vec![0; old.bytes.len()], vec![0; entries]);
    if let Err(refusal) = vizhuthamen::collect(&old.bytes, &lent, &mut bytes, None, &mut owners) {
        return refused_collecting(refusal, &source, entries);
    }
    let (before, after) = (slots(&old.bytes)?, slots(&bytes)?);
    let known = (table.is_some() || standing(&after).is_empty()).then_some(owners);
    let moves = moves(&before, &after, known.as_deref());
    let left: Vec<Slot> = before.into_iter().filter(Slot::unsound).collect();
    if !force {
        leaves_nothing(&left, old)?;
    }
    let (manifest, unread) = manifest::if_understood(source.manifest_for(&bytes))?;
    let manifest = manifest.map(|manifest| manifest.text());
    let unread = unread.map(|why| format!("{why}; {} gets none", shown(new)));
    let (fill, number_kept) = (Fill::Bytes(&bytes), number.or(kept));
    let made = NewDeal { fill, table: known.as_deref(), manifest: manifest.as_deref(), number: number_kept };
    let note = store::create(new, &made, attributes(old))?;
    drop(progress);
    let left_out = left.iter().map(|slot| format!("{}, and is left out", slot.described()));
    let unknown = known.is_none().then(|| unknown(&old.name, &shown(new)));
    let notes = note.into_iter().chain(unread).chain(left_out).chain(unknown);
    let notes = notes.chain(notes_of(&old.name, &shown(new), number, kept));
    let answer = notes.fold(Answer::done("done"), Answer::with_note);
    Ok(told(answer.writing(), &moves, &left, bytes.len(), number.or(kept)))
}

/// That the owners of the entries are not known, and so not those of the new deal's.
fn unknown(old: &str, new: &str) -> String {
    format!(
        "no table of owners lies beside {old}, so none is written for {new}; whose its entries are is said by: \
         vizhuthamen owner {new} HOUSE [PLACE...]"
    )
}

/// What the caller has to know of the new deal's number and of records.
fn notes_of(old: &str, new: &str, number: Option<u64>, kept: Option<u64>) -> Vec<String> {
    let handed_on = kept.filter(|_| number.is_none()).map(|kept| {
        format!(
            "{new} has the number {kept} of {old}, whose place it takes; if it is another deal: \
             vizhuthamen number {new} N --instead-of {kept}"
        )
    });
    let records = format!(
        "records that were built from {old} belong to its commitment; those of {new} are built anew, at the new \
         places; a log of {old} ends here, and {new} has none"
    );
    handed_on.into_iter().chain([records]).collect()
}

/// Refuses a new deal that is the old one, by whatever name.
fn is_another(new: &Path, old: &Content) -> Result<(), Failure> {
    match fs::metadata(new) {
        Ok(there) if files::same_file(&there, old) => {
            Err(failure::usage(format!("{} is the deal that is collected; NEW must be another file", shown(new))))
        }
        _ => Ok(()),
    }
}

/// The slots of a deal whose size the library has allowed.
fn slots(deal: &[u8]) -> Result<Vec<Slot>, Failure> {
    survey::slots(deal).map_err(failure::data)
}

/// A refusal; of overlapping entries it says which they are, and of a table what is wrong with it.
fn refused_collecting(refusal: Refusal, source: &Source, entries: usize) -> Result<Answer, Failure> {
    let (deal, owners) = (source.content(), source.owners(entries));
    let name = &deal.name;
    match refusal {
        Refusal::HOUSE => {
            return Ok(wrong_table(Answer::refused(refusal), &owners, &slots(&deal.bytes)?, name));
        }
        Refusal::OVERLAP => {}
        _ => return Ok(refused(refusal, deal)),
    }
    let (mut lines, mut list) = (String::new(), vec![]);
    for slot in slots(&deal.bytes)? {
        if let Some(other) = slot.overlaps() {
            lines.push_str(&format!("slot {} (place {}) overlaps slot {other}\n", slot.number, slot.place));
            list.push(wrong_slot(&slot, "overlapping", &owners));
        }
    }
    Ok(Answer::refused(refusal).with_text(lines, vec![("wrong", Json::List(list))]).with_note(format!(
        "which of them are kept is shown by: vizhuthamen fsck {name}; those that are to go are cancelled: vizhuthamen \
         cancel {name} PLACE"
    )))
}

/// Refuses to leave out a slot that is damaged, or whose entry does not stand.
fn leaves_nothing(left: &[Slot], deal: &Content) -> Result<(), Failure> {
    let name = &deal.name;
    match left.first() {
        None => Ok(()),
        Some(slot) => {
            let why = format!("{}, and the new deal would be without it; nothing is written", slot.described());
            Err(unsound(why, name, "--force collects all the same"))
        }
    }
}

/// The new deal is the caller's; others have no permissions that they have not for the old one.
fn attributes(old: &Content) -> Attributes<'static> {
    match &old.metadata {
        Some(metadata) if metadata.is_file() => Attributes::Own(metadata.mode() & 0o666 | 0o600),
        _ => Attributes::NEW,
    }
}

/// An entry that was moved: what it said and where it stood, where it stands now, and whose it is, where that is known.
#[derive(Debug, PartialEq, Eq)]
struct Move {
    entry: Entry,
    place: u64,
    new_offset: u64,
    new_place: u64,
    owner: Option<Owner>,
}

/// Where the standing entries were moved, by new places: they are in the order of collection, by falling area and
/// then by offset. Their owners are those of the new slots.
fn moves(before: &[Slot], after: &[Slot], owners: Option<&[u8]>) -> Vec<Move> {
    let (mut old, new) = (standing(before), standing(after));
    old.sort_by_key(|(entry, _)| (Reverse(area(entry.size)), entry.offset));
    assert_eq!(old.len(), new.len());
    let mut moves = vec![];
    for (number, ((entry, place), (now, new_place))) in old.into_iter().zip(new).enumerate() {
        assert_eq!((entry.commitment, entry.size), (now.commitment, now.size));
        let owner = owners.and_then(|owners| owners.get(number).copied()).map(Owner);
        moves.push(Move { entry, place, new_offset: now.offset, new_place, owner });
    }
    moves
}

/// The standing entries, each with its place.
fn standing(slots: &[Slot]) -> Vec<(Entry, u64)> {
    slots.iter().filter_map(|slot| Some((slot.standing()?, slot.place))).collect()
}

/// The columns of a table of moves.
const MOVE_COLUMNS: [Column; 7] = [
    Column("place", true),
    Column("new_place", true),
    Column("owner", false),
    Column("offset", true),
    Column("new_offset", true),
    Column("size", true),
    Column("commitment", false),
];

/// A move as a row of a table.
fn move_row(moved: &Move) -> Vec<String> {
    let owner = moved.owner.map_or("?".to_string(), Owner::word);
    let (places, numbers) = ([moved.place, moved.new_place], [moved.entry.offset, moved.new_offset, moved.entry.size]);
    let places = places.iter().map(u64::to_string).chain([owner]);
    places.chain(numbers.iter().map(u64::to_string)).chain([moved.entry.commitment.to_string()]).collect()
}

/// A move for JSON.
fn move_members(moved: &Move) -> Json {
    let mut members = vec![("place", Json::Number(moved.place)), ("new_place", Json::Number(moved.new_place))];
    members.extend(moved.owner.map(Owner::members).unwrap_or_default());
    members.extend([
        ("offset", Json::Number(moved.entry.offset)),
        ("new_offset", Json::Number(moved.new_offset)),
        ("size", Json::Number(moved.entry.size)),
        ("commitment", text(moved.entry.commitment)),
    ]);
    Json::Object(members)
}

/// Adds the new deal's size and number, where the entries were moved, and the slots that were left out.
fn told(answer: Answer, moves: &[Move], left: &[Slot], size: usize, number: Option<u64>) -> Answer {
    let rows: Vec<Vec<String>> = moves.iter().map(move_row).collect();
    let left =
        left.iter().map(|slot| Json::Object(slot_members(slot, slot.alone().words(), &Owners::Nowhere))).collect();
    let mut members = vec![("size", Json::Number(size as u64))];
    members.extend(number.map(|number| ("number", Json::Number(number))));
    members.push(("moved", Json::List(moves.iter().map(move_members).collect())));
    members.push(("left_out", Json::List(left)));
    answer.with_text(table(&MOVE_COLUMNS, &rows), members)
}

#[cfg(test)]
mod tests {
    use super::*;
    use vizhuthamen::{collect, make_entry, Node};

    /// Entries that nothing but their offsets tells apart are moved by these.
    #[test]
    fn equal_entries_are_moved_by_offset() {
        let mut deal = vec![0; 2048];
        for (slot, (offset, size)) in [(512, 100), (1024, 300), (256, 100), (0, 100)].into_iter().enumerate() {
            deal[1792 + 64 * slot..][..64].copy_from_slice(&make_entry(&[5; 32], offset, size).unwrap());
        }
        let (mut new, mut owners) = (vec![7; 2048], [7; 4]);
        collect(&deal, &[1, 9, 0, 2], &mut new, None, &mut owners).unwrap();
        let moved = |offset, size, place, new_offset, new_place, owner| {
            let entry = Entry { commitment: Node([5; 32]), offset, size };
            Move { entry, place, new_offset, new_place, owner: Some(Owner(owner)) }
        };
        let expected = [
            moved(1024, 300, 1856, 0, 1792, 9),
            moved(0, 100, 1984, 512, 1856, 2),
            moved(256, 100, 1920, 640, 1920, 0),
            moved(512, 100, 1792, 768, 1984, 1),
        ];
        assert_eq!(moves(&slots(&deal).unwrap(), &slots(&new).unwrap(), Some(&owners)), expected);
    }
}
