//! The commands: each reads its files, asks the library, and gives an answer.
mod audit;
mod book;
mod cancel;
mod close;
mod collect;
mod extract;
mod fsck;
mod house;
mod list;
mod listing;
mod locate;
mod log;
mod logged;
mod number;
mod owner;
mod pack;
mod playback;
mod prove;
mod records;
mod repair;
mod salvage;
mod settle;
mod stream;
mod unfit;
mod verify;

use super::answer::Answer;
use super::args::{At, Command, Output, Stream};
use super::failure::{self, Failure};
use super::files::{self, Content};
use super::json::Json;
use super::progress::Progress;
use super::reasons::{self, Terms};
use super::segments;
use super::store::{self, aside::Fill, Attributes, NewDeal};
use super::table::{table, Column};
use super::{room, survey};
use std::path::Path;
use vizhuthamen::{hex, Entry, Field, Node, Refusal, Settled, MAX_DEAL, MAX_RAW};

/// Runs a command.
pub fn run(command: Command) -> Result<Answer, Failure> {
    match command {
        Command::New { deal, size, number } => new(&deal, size, number),
        Command::Number { deal, set: None, .. } => number::show(&deal),
        Command::Number { deal, set: Some(set), wait } => number::keep(&deal, set, wait),
        Command::Commit { file } => commit(&file),
        Command::CommitStream { file, raw, state, progress } => stream::stream(&file, raw, state.as_ref(), progress),
        Command::Pad { raw, output } => pad(&raw, output),
        Command::Unpad { raw_length, segment, output } => unpad(raw_length, &segment, output),
        Command::Owner { deal, give: None, .. } => owner::show(&deal),
        Command::Owner { deal, give: Some(give), wait } => owner::give(&deal, &give, wait),
        Command::Pack(packing) => pack::pack(&packing),
        Command::Extract(extracting) => extract::extract(&extracting),
        Command::Close(closing) => close::close(&closing),
        Command::Book(booking) => book::book(&booking),
        Command::Cancel(cancelling) => cancel::cancel(&cancelling),
        Command::Collect { deal, new, number, force, wait } => collect::collect(&deal, &new, number, force, wait),
        Command::List { deal } => list::list(&deal),
        Command::Audit { deal } => audit::audit(&deal),
        Command::Tally { deal } => tally(&deal),
        Command::Find { deal, commitment, output } => find(&deal, &commitment, output),
        Command::FindRaw { deal, raw, output } => locate::find_raw(&deal, &raw, output),
        Command::Build { deal, number, at, output } => build(&deal, number, at, output),
        Command::Check { commitment, size, number, record } => check(&commitment, size, number, &record),
        Command::Settle { commitment, size, number, first, second } => {
            settle::settle(&commitment, Terms { size, number }, &first, &second)
        }
        Command::SettleDeal { deal, number, record } => settle_deal(&deal, number, &record),
        Command::Playback { size, log } => playback::playback(size, &log),
        Command::Log { log: lines } => log::log(&lines),
        Command::Show { record } => show(&record),
        Command::Fsck { deal, wait } => fsck::fsck(&deal, wait),
        Command::Repair { deal, in_hand, at, access } => repair::repair(&deal, in_hand.as_ref(), at, access),
        Command::Salvage { deal, folder, wait } => salvage::salvage(&deal, &folder, wait),
        Command::Prove { deal, file, how } => prove::prove(&deal, &file, how),
        Command::Verify { proof, file, given } => verify::verify(&proof, &file, &given),
        Command::WithCids(command) => run(*command).map(Answer::with_cids),
    }
}

fn text(value: impl ToString) -> Json {
    Json::Text(value.to_string())
}

/// A refusal, with a note on what is wrong with the deal or with the place in it.
fn refused(refusal: Refusal, deal: &Content) -> Answer {
    let answer = Answer::refused(refusal);
    match (refusal, survey::numbers(&deal.bytes)) {
        (Refusal::SIZE, _) => {
            let note = format!("{}; a deal has a power of two from 512 to {MAX_DEAL} bytes", deal.described());
            answer.with_note(note)
        }
        (Refusal::STRAY_BITS, _) => {
            answer.with_note(format!("what is wrong, and where, is shown by: vizhuthamen fsck {}", deal.operand()))
        }
        (Refusal::PLACE, Ok(numbers)) => {
            let (first, last) = (numbers.start, deal.bytes.len() - survey::ENTRY);
            let places = format!("an entry place here is a multiple of 64 from {first} to {last}");
            let slots = format!("slots 0 to {}", numbers.entries - 1);
            answer.with_note(format!("{places} ({slots}); they are shown by: vizhuthamen list {}", deal.operand()))
        }
        (Refusal::NO_SLOT | Refusal::NO_PLACE, _) => room::told(answer, deal),
        _ => answer,
    }
}

/// The entry place of a slot. A number that no slot has is that of a place outside of the index, which the library
/// refuses; so it does a deal of a size that has no index.
fn place_in(deal: &[u8], at: At) -> u64 {
    match (at, survey::numbers(deal)) {
        (At::Place(place), _) => place,
        (At::Slot(slot), Ok(numbers)) => numbers.start.saturating_add(slot.saturating_mul(survey::ENTRY as u64)),
        (At::Slot(_), Err(_)) => 0,
    }
}

/// Refuses to go on where a slot is damaged or does not stand.
fn unsound(why: String, deal: &str, force: &str) -> Failure {
    failure::data(why).hint(format!("see: vizhuthamen fsck {deal}, vizhuthamen repair {deal}")).hint(force)
}

/// The entry that stands at a place of a deal, where the library has found one.
fn entry_at(deal: &[u8], place: u64) -> Result<Entry, Failure> {
    let slot = survey::slot_at(deal, place).map_err(failure::data)?;
    slot.standing().ok_or_else(|| failure::data(slot.described()))
}

/// Adds what an entry says, and the place where it is or was.
fn with_entry(answer: Answer, entry: &Entry, place: u64) -> Answer {
    answer
        .with_value("offset", Json::Number(entry.offset))
        .with_value("place", Json::Number(place))
        .with_value("size", Json::Number(entry.size))
        .with_value("commitment", text(entry.commitment))
}

/// The path of a deal that is locked.
fn path_of(deal: &Stream) -> Result<&Path, Failure> {
    match deal {
        Stream::File(path) => Ok(path),
        Stream::Standard => Err(failure::usage("the deal must be a file")),
    }
}

fn new(deal: &Stream, size: u64, number: Option<u64>) -> Result<Answer, Failure> {
    let numbers = match vizhuthamen::index_numbers(size) {
        Ok(numbers) if size <= MAX_DEAL as u64 => numbers,
        _ => {
            let note = format!("a deal has a power of two from 512 to {MAX_DEAL} bytes");
            return Ok(Answer::refused(Refusal::SIZE).with_note(note));
        }
    };
    let table = vec![0; numbers.entries as usize];
    let made = NewDeal { fill: Fill::Zeros(size), table: Some(&table), manifest: None, number };
    let note = store::create(path_of(deal)?, &made, Attributes::NEW)?;
    let answer = note.into_iter().fold(Answer::done("done").writing(), Answer::with_note);
    let answer = answer
        .with_value("size", Json::Number(size))
        .with_value("entries", Json::Number(numbers.entries))
        .with_value("start", Json::Number(numbers.start));
    Ok(number.into_iter().fold(answer, |answer, number| answer.with_value("number", Json::Number(number))))
}

fn commit(file: &Stream) -> Result<Answer, Failure> {
    let run = files::read_deal(file)?;
    let _progress = Progress::start("hashing", run.bytes.len());
    Ok(match vizhuthamen::commitment(&run.bytes) {
        Ok(node) => committed(node, run.bytes.len() as u64),
        Err(refusal) => {
            let what = match refusal {
                Refusal::SIZE => format!("{}; a run has a power of two from 32 to {MAX_DEAL} bytes", run.described()),
                _ => segments::stray(&run),
            };
            let plain =
                format!("the commitment of a plain file is printed by: vizhuthamen commit --raw {}", run.operand());
            Answer::refused(refusal).with_note(format!("{what}; {plain}"))
        }
    })
}

/// A commitment, and the number of bytes that it is of.
fn committed(node: Node, size: u64) -> Answer {
    let members = vec![("commitment", text(node)), ("size", Json::Number(size))];
    Answer::done("done").with_text(format!("{node}\n"), members)
}

fn pad(raw: &Stream, output: Output) -> Result<Answer, Failure> {
    let raw = files::read(raw)?;
    match segments::padded(&raw) {
        Ok(segment) => put_or_show("segment", vec![], output, &segment, &raw),
        Err(answer) => Ok(answer),
    }
}

fn unpad(raw_length: u64, segment: &Stream, output: Output) -> Result<Answer, Failure> {
    let segment = files::read(segment)?;
    let unpadded =
        Progress::during("unpadding", segment.bytes.len(), || vizhuthamen::unpad(raw_length, &segment.bytes));
    let raw = match unpadded {
        Ok(raw) => raw,
        Err(refusal) => return Ok(unpad_refused(refusal, raw_length, &segment)),
    };
    put_or_show("raw", vec![], output, &raw, &segment)
}

/// A refusal to unpad, with a note on the lengths.
fn unpad_refused(refusal: Refusal, raw_length: u64, segment: &Content) -> Answer {
    let note = match (refusal, vizhuthamen::segment_length(raw_length)) {
        (Refusal::SEGMENT_LENGTH, Some(length)) => {
            format!("{}; the segment of {raw_length} raw bytes has {length}", segment.described())
        }
        (Refusal::STRAY_BITS, _) => {
            format!("{} has stray bits, or bits after the last of {raw_length} raw bytes", segment.name)
        }
        _ => format!("an archive has from 1 to {MAX_RAW} bytes"),
    };
    Answer::refused(refusal).with_note(note)
}

fn tally(deal: &Stream) -> Result<Answer, Failure> {
    let deal = files::read_deal(deal)?;
    Ok(match vizhuthamen::tally(&deal.bytes) {
        Ok(tally) => Answer::done("done")
            .with_value("blank", Json::Number(tally.blank))
            .with_value("damaged", Json::Number(tally.damaged))
            .with_value("valid", Json::Number(tally.valid)),
        Err(refusal) => refused(refusal, &deal),
    })
}

fn find(deal: &Stream, commitment: &[u8], output: Output) -> Result<Answer, Failure> {
    let deal = files::read_deal(deal)?;
    let found = Progress::during("searching", deal.bytes.len(), || vizhuthamen::find(&deal.bytes, commitment));
    let found = match found {
        Ok(found) => found,
        Err(refusal) => return Ok(refused(refusal, &deal)),
    };
    put(found_answer(found.offset, found.size, found.place), output, found.segment, &deal)
}

/// Where a segment was found.
fn found_answer(offset: u64, size: u64, place: u64) -> Answer {
    Answer::done("done")
        .with_value("offset", Json::Number(offset))
        .with_value("size", Json::Number(size))
        .with_value("place", Json::Number(place))
}

fn build(deal: &Stream, number: Option<u64>, at: At, output: Output) -> Result<Answer, Failure> {
    let (deal, number) = number::read_with_number(deal, number)?;
    let build = || vizhuthamen::build(&deal.bytes, None, number, place_in(&deal.bytes, at));
    let record = match Progress::during("building", deal.bytes.len(), build) {
        Ok(record) => record,
        Err(refusal) => return Ok(refused(refusal, &deal)),
    };
    put_or_show("record", vec![("number", Json::Number(number))], output, &record, &deal)
}

/// Writes bytes to the output and gives their length, and what else is to be told of them; shows them in hex where
/// there is no output.
fn put_or_show(
    name: &'static str,
    told: Vec<(&'static str, Json)>,
    output: Output,
    bytes: &[u8],
    read: &Content,
) -> Result<Answer, Failure> {
    let values = [vec![("length", Json::Number(bytes.len() as u64))], told].concat();
    let answer = match output.to {
        Some(_) => {
            values.into_iter().fold(Answer::done("done"), |answer, (name, value)| answer.with_value(name, value))
        }
        None => {
            let digits = hex::encode(bytes);
            Answer::done("done").with_text(format!("{digits}\n"), [values, vec![(name, text(digits))]].concat())
        }
    };
    put(answer, output, bytes, read)
}

/// Writes bytes to the output, if there is one.
fn put(answer: Answer, output: Output, bytes: &[u8], read: &Content) -> Result<Answer, Failure> {
    match output.to {
        None => Ok(answer),
        Some(Stream::Standard) => Ok(answer.with_bytes(bytes.to_vec())),
        Some(Stream::File(path)) => files::write(&path, bytes, read, output.force).map(|()| answer.writing()),
    }
}

fn check(commitment: &[u8], size: u64, number: u64, record: &Stream) -> Result<Answer, Failure> {
    let record = files::read(record)?;
    Ok(match vizhuthamen::check(commitment, size, number, &record.bytes) {
        Ok(()) => number::with_number(Answer::done("the record is accepted"), number),
        Err(refusal) => refused_record(refusal, Terms { size, number }, &record),
    })
}

/// A refusal of a record, with the reason in words.
fn refused_record(refusal: Refusal, terms: Terms, record: &Content) -> Answer {
    let answer = number::refused_records(refusal, terms.number, &[record]);
    if refusal == Refusal::DEAL_NUMBER {
        return answer;
    }
    let hint = format!("{}: {}", record.name, reasons::reason(refusal, &terms, &record.bytes));
    answer.with_text(String::new(), vec![("hint", text(&hint))]).with_hint(hint)
}

fn settle_deal(deal: &Stream, number: Option<u64>, record: &Stream) -> Result<Answer, Failure> {
    let ((deal, number), record) = (number::read_with_number(deal, number)?, files::read(record)?);
    let _progress = Progress::start("settling", deal.bytes.len());
    match vizhuthamen::settle_with_deal(&deal.bytes, None, number, &record.bytes) {
        Err(refusal @ (Refusal::SIZE | Refusal::STRAY_BITS)) => {
            Ok(number::with_number(refused(refusal, &deal), number))
        }
        Err(refusal) => Ok(refused_record(refusal, Terms { size: deal.bytes.len() as u64, number }, &record)),
        Ok(settled) => Ok(settled_answer(settled, "the record is the one that the deal gives", number)),
    }
}

fn settled_answer(settled: Settled, same: &'static str, number: u64) -> Answer {
    match settled {
        Settled::Same => number::with_number(Answer::done(same), number),
        Settled::Collision { left, right } => number::with_number(Answer::refused(Refusal::COLLISION), number)
            .with_value("left", text(hex::encode(&left)))
            .with_value("right", text(hex::encode(&right))),
    }
}

fn show(record: &Stream) -> Result<Answer, Failure> {
    let record = files::read(record)?.bytes;
    let mut reader = vizhuthamen::fields(&record);
    let (mut rows, mut fields) = (vec![], vec![]);
    for field in reader.by_ref() {
        add_field(&field, &mut rows, &mut fields);
    }
    let columns = [
        Column("tag", true),
        Column("field", false),
        Column("start", true),
        Column("length", true),
        Column("content", false),
    ];
    // The form depends on the record alone, so any commitment, size and number show whether it is right.
    let answer = match vizhuthamen::check(Node::default().as_ref(), 512, 0, &record) {
        Err(Refusal::FORM) => Answer::refused(Refusal::FORM),
        _ => Answer::done("the record is well formed"),
    };
    let rest = record.len() as u64 - reader.place();
    let answer = answer.with_text(table(&columns, &rows), vec![("fields", Json::List(fields))]);
    Ok(match rest {
        0 => answer,
        _ => answer.with_value("unread", Json::Number(rest)),
    })
}

/// Adds a field to the table, a node to a line, and to the list for JSON.
fn add_field(field: &Field, rows: &mut Vec<Vec<String>>, fields: &mut Vec<Json>) {
    let name = match field.tag {
        1 => "segment commitment",
        2 => "segment offset",
        3 => "segment size",
        4 => "entry place",
        5 => "segment path",
        6 => "entry path",
        7 => "deal number",
        _ => "unknown",
    };
    let number = match (field.tag, <[u8; 8]>::try_from(field.content)) {
        (2..=4 | 7, Ok(bytes)) => Some(u64::from_le_bytes(bytes)),
        _ => None,
    };
    let mut lines: Vec<String> = match number {
        Some(number) => vec![number.to_string()],
        None => field.content.chunks(32).map(hex::encode).collect(),
    };
    let first = if lines.is_empty() { "-".to_string() } else { lines.remove(0) };
    let length = field.content.len();
    rows.push(vec![field.tag.to_string(), name.to_string(), field.start.to_string(), length.to_string(), first]);
    rows.extend(lines.into_iter().map(|line| vec![String::new(), String::new(), String::new(), String::new(), line]));
    let mut members = vec![
        ("tag", Json::Number(u64::from(field.tag))),
        ("name", text(name)),
        ("start", Json::Number(field.start)),
        ("length", Json::Number(length as u64)),
        ("content", text(hex::encode(field.content))),
    ];
    members.extend(number.map(|number| ("value", Json::Number(number))));
    members.extend(nodes(field).map(|nodes| ("nodes", Json::List(nodes))));
    members.extend((field.tag == 1).then(|| ("commitment", text(hex::encode(field.content)))));
    fields.push(Json::Object(members));
}

/// The nodes of a path, where all are whole.
fn nodes(field: &Field) -> Option<Vec<Json>> {
    let whole = matches!(field.tag, 5 | 6) && field.content.len().is_multiple_of(32);
    whole.then(|| field.content.chunks(32).map(|node| text(hex::encode(node))).collect())
}

#[cfg(test)]
mod tests {
    use super::super::answer::assert_refused;
    use super::*;

    /// The library shows code 17 only to a caller that holds a collision of SHA-256, so its printing is tested alone.
    #[test]
    fn a_collision_is_printed_with_its_pair() {
        let collision = Settled::Collision { left: [0x11; 64], right: [0x22; 64] };
        let answer = settled_answer(collision, "same", 7);
        let (left, right) = ("11".repeat(64), "22".repeat(64));
        let members = format!(",\"number\":7,\"left\":\"{left}\",\"right\":\"{right}\"");
        assert_refused(&answer, Refusal::COLLISION, &format!("left {left}\nright {right}\n"), &members);
    }

    #[test]
    fn the_fields_of_a_record_in_a_table() {
        let number = [7, 8, 0, 255, 255, 255, 255, 255, 255, 255, 255];
        let record = [&[2, 8, 0, 1, 1, 0, 0, 0, 0, 0, 0][..], &[5, 33, 0], &[0xab; 33], &number, &[9, 0, 0]].concat();
        let (mut rows, mut fields) = (vec![], vec![]);
        for field in vizhuthamen::fields(&record) {
            add_field(&field, &mut rows, &mut fields);
        }
        assert_eq!(rows[0], ["2", "segment offset", "3", "8", "257"]);
        assert_eq!(rows[1], ["5", "segment path", "14", "33", &"ab".repeat(32)]);
        assert_eq!(rows[2], ["", "", "", "", "ab"]);
        assert_eq!(rows[3], ["7", "deal number", "50", "8", "18446744073709551615"]);
        assert_eq!(rows[4], ["9", "unknown", "61", "0", "-"]);
        assert_eq!(fields.len(), 4);
    }

    #[test]
    fn a_path_is_the_list_of_its_nodes() {
        let node = |byte: u8| text(hex::encode(&[byte; 32]));
        let listed = |tag, content: &[u8]| nodes(&Field { tag, start: 0, content, next: 0 });
        for tag in [5, 6] {
            assert_eq!(listed(tag, &[[1; 32], [2; 32]].concat()), Some(vec![node(1), node(2)]));
            assert_eq!(listed(tag, &[]), Some(vec![]));
            assert_eq!(listed(tag, &[1; 33]), None);
        }
        assert_eq!(listed(1, &[1; 32]), None);
    }

    #[test]
    fn a_slot_by_its_number_is_its_place() {
        let deal = [0; 1024];
        let places = [(0, 768), (3, 960), (4, 1024), (1 << 58, u64::MAX), (u64::MAX, u64::MAX)];
        for (slot, place) in places {
            assert_eq!(place_in(&deal, At::Slot(slot)), place);
            let refusal = vizhuthamen::build(&deal, None, 0, place).unwrap_err();
            assert_eq!(refusal != Refusal::PLACE, slot < 4, "{refusal:?}");
        }
        assert_eq!(place_in(&deal, At::Place(7)), 7);
        assert_eq!(place_in(&deal[..1000], At::Slot(1)), 0);
    }
}
