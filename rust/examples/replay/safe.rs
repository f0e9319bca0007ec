//! A case answered by the safe functions.
use super::{digest, pieces, Answer, Case, Line, Operation};
use std::error::Error;
use std::fmt::Write;
use vizhuthamen::{
    self as vz, Answers, Booking, LedgerRow, Node, Playback, Position, ReadEntry, Refusal, Settled, Streaming,
};

fn code(result: Result<(), Refusal>) -> Line {
    Line::code(result.err().map_or(0, Refusal::code))
}

/// The line of a case.
pub fn answer(case: Case) -> Answer {
    let house = case.house();
    let Case { operation, mut a, mut b, mut c, mut d, mut e, x, y } = case;
    match operation {
        Operation::Sha256 => Ok(digest_line(vz::sha256(&a))),
        Operation::Commitment => Ok(digest_line(vz::commitment(&a).map(|node| node.0))),
        Operation::Numbers => Ok(numbers(x)),
        Operation::Make => Ok(made_entry(vz::make_entry(&a, x, y))),
        Operation::Read => Ok(read_entry(&a)),
        Operation::Find => find(&a, &b),
        Operation::Book => book(&mut a, None, &mut d, house?, &b),
        Operation::Build => build(&a, None, y, x, b),
        Operation::Check => Ok(code(vz::check(&b, x, y, &a))),
        Operation::Settle => Ok(settled(vz::settle_records(&c, x, y, &a, &b))),
        Operation::SettleDeal => Ok(settled(vz::settle_with_deal(&a, None, y, &b))),
        Operation::Fields => fields(&a),
        Operation::Audit => audit(&a, &mut b),
        Operation::Stream => Ok(stream(&a, &b)),
        Operation::Pad => pad(&a, b),
        Operation::Unpad => unpad(x, &a, b),
        Operation::Tally => Ok(tally(&a)),
        Operation::TreeFill => tree_fill(&a, &mut c),
        Operation::BookWithTree => book(&mut a, Some(&mut c), &mut d, house?, &b),
        Operation::BuildWithTree => build(&a, Some(&c), y, x, b),
        Operation::SettleWithTree => Ok(settled(vz::settle_with_deal(&a, Some(&c), y, &b))),
        Operation::Cancel => cancel(&mut a, None, &mut d, house?, x),
        Operation::CancelWithTree => cancel(&mut a, Some(&mut c), &mut d, house?, x),
        Operation::Collect => collect(&a, &d, &mut b, None, &mut e),
        Operation::CollectWithTree => collect(&a, &d, &mut b, Some(&mut c), &mut e),
        Operation::TreeRow => tree_row(&a, &mut b),
        Operation::Playback => playback(x, &a),
    }
}

fn digest_line(result: Result<[u8; 32], Refusal>) -> Line {
    code(result.map(drop)).bytes(&result.unwrap_or_default())
}

/// After the answer at the end, the code that sticks after each piece. The end is asked after each of them.
fn stream(bytes: &[u8], lengths: &[u8]) -> Line {
    let mut state = Streaming::new();
    let mut end = state.end();
    let mut codes = vec![];
    for piece in pieces(bytes, lengths) {
        codes.push(state.take(piece).err().map_or(0, Refusal::code));
        end = state.end();
    }
    let (node, count) = end.map_or((Node::default(), 0), |answer| (answer.commitment, answer.count));
    codes.into_iter().fold(code(end.map(drop)).add(node).add(count), Line::add)
}

fn numbers(size: u64) -> Line {
    let result = vz::index_numbers(size);
    let (entries, start) = result.map_or((0, 0), |numbers| (numbers.entries, numbers.start));
    code(result.map(drop)).add(entries).add(start)
}

fn made_entry(result: Result<[u8; 64], Refusal>) -> Line {
    code(result.map(drop)).bytes(&result.unwrap_or([0; 64]))
}

fn read_entry(entry: &[u8]) -> Line {
    let result = vz::read_entry(entry);
    let line = code(result.map(drop));
    match result.unwrap_or(ReadEntry::Blank) {
        ReadEntry::Blank => line.add(0).add(Node::default()).add(0).add(0),
        ReadEntry::Damaged => line.add(1).add(Node::default()).add(0).add(0),
        ReadEntry::Valid(entry) => line.add(2).add(entry.commitment).add(entry.offset).add(entry.size),
    }
}

/// Where the buffer is long enough, it begins with the numbers of the states that a call without one gives.
fn audit(deal: &[u8], states: &mut [u8]) -> Answer {
    let written = vz::audit_into(deal, states);
    let named = vz::audit(deal).map(|named| named.into_iter().map(|state| state as u8).collect::<Vec<u8>>());
    match (&named, written) {
        (Ok(numbers), Ok(())) if states.starts_with(numbers) => {}
        (Ok(_), Err(Refusal::OUTPUT)) => {}
        (Err(refusal), Err(other)) if *refusal == other => {}
        _ => return Err(format!("audit answers {named:?}, audit_into {written:?} and {states:?}").into()),
    }
    Ok(code(written).bytes(&digest(states)?))
}

/// The rows are shown by their number and the SHA-256 of their bytes, with zeros after them.
fn playback(size: u64, log: &[u8]) -> Answer {
    let result = vz::playback(size, log);
    lines_agree(size, log, &result)?;
    let (line, ruling, rows) = match result {
        Ok(Playback::Confirmed(rows)) => (Line::code(0).add(0), Answers { code: 0, offset: 0, place: 0 }, rows),
        Ok(Playback::WrongLine { line, ruling }) => (Line::code(1).add(line), ruling, vec![]),
        Err(refusal) => (Line::code(0).add(refusal.code()), Answers { code: 0, offset: 0, place: 0 }, vec![]),
    };
    let mut bytes: Vec<u8> = rows.iter().flat_map(row_bytes).collect();
    bytes.resize(vz::ROWS, 0);
    let line = line.add(ruling.code).add(ruling.offset).add(ruling.place).add(rows.len());
    Ok(line.bytes(&digest(&bytes)?))
}

fn row_bytes(row: &LedgerRow) -> Vec<u8> {
    let [size, offset, place] = [row.size, row.offset, row.place].map(u64::to_le_bytes);
    [&[row.house], row.commitment.as_ref(), &size, &offset, &place].concat()
}

/// The lines that are read one by one are malformed somewhere exactly where the log is refused with 3, and are the
/// log's bytes; the one that playback names does not say what the rules give for it.
fn lines_agree(size: u64, log: &[u8], result: &Result<Playback, Refusal>) -> Result<(), Box<dyn Error>> {
    if *result == Err(Refusal::SIZE) {
        return Ok(());
    }
    let mut reader = vz::lines(size, log);
    let read: Vec<vz::Line> = reader.by_ref().map_while(Result::ok).collect();
    let bytes: Vec<u8> = read.iter().flat_map(vz::Line::to_bytes).collect();
    let agree = match *result {
        Ok(Playback::WrongLine { line, ruling }) => {
            read.get(line as usize - 1).is_some_and(|line| line.answers() != ruling) && bytes == log
        }
        Ok(Playback::Confirmed(_)) => bytes == log,
        Err(_) => bytes.len() < log.len() && log.starts_with(&bytes) && reader.at() == bytes.len(),
    };
    match agree {
        true => Ok(()),
        false => {
            Err(format!("playback answers {result:?}, and {} lines are read up to byte {}", read.len(), reader.at())
                .into())
        }
    }
}

fn tally(deal: &[u8]) -> Line {
    let result = vz::tally(deal);
    let (blank, damaged, valid) = result.map_or((0, 0, 0), |tally| (tally.blank, tally.damaged, tally.valid));
    code(result.map(drop)).add(blank).add(damaged).add(valid)
}

/// The view is shown by its length and its SHA-256.
fn find(deal: &[u8], commitment: &[u8]) -> Answer {
    let result = vz::find(deal, commitment);
    let (offset, size, place, view) =
        result.map_or((0, 0, 0, &[][..]), |found| (found.offset, found.size, found.place, found.segment));
    let line = code(result.map(drop)).add(offset).add(size).add(place);
    Ok(line.add(view.len()).bytes(&digest(view)?))
}

fn book(deal: &mut [u8], mut tree: Option<&mut [u8]>, table: &mut [u8], house: u8, segment: &[u8]) -> Answer {
    let result = vz::book(deal, tree.as_deref_mut(), table, house, segment);
    let (result, position) = match result {
        Ok(Booking::Booked(position)) => (Ok(()), position),
        Ok(Booking::AlreadyKept(position)) => (Err(Refusal::ALREADY_KEPT), position),
        Err(refusal) => (Err(refusal), Position { offset: 0, place: 0 }),
    };
    code(result).add(position.offset).add(position.place).memory(deal, tree.as_deref(), table)
}

fn cancel(deal: &mut [u8], mut tree: Option<&mut [u8]>, table: &mut [u8], house: u8, place: u64) -> Answer {
    let result = vz::cancel(deal, tree.as_deref_mut(), table, house, place);
    code(result).memory(deal, tree.as_deref(), table)
}

fn collect(
    deal: &[u8],
    table: &[u8],
    second: &mut [u8],
    mut tree: Option<&mut [u8]>,
    second_table: &mut [u8],
) -> Answer {
    let result = vz::collect(deal, table, second, tree.as_deref_mut(), second_table);
    code(result).memory(second, tree.as_deref(), second_table)
}

/// The tree afterwards is shown by its SHA-256.
fn tree_fill(deal: &[u8], tree: &mut [u8]) -> Answer {
    Ok(code(vz::tree_fill(deal, tree)).bytes(&digest(tree)?))
}

fn tree_row(below: &[u8], above: &mut [u8]) -> Answer {
    Ok(code(vz::tree_row(below, above)).bytes(&digest(above)?))
}

/// The output afterwards is shown by its SHA-256.
fn written(result: Result<usize, Refusal>, output: &[u8]) -> Answer {
    Ok(code(result.map(drop)).add(result.unwrap_or(0)).bytes(&digest(output)?))
}

fn build(deal: &[u8], tree: Option<&[u8]>, number: u64, place: u64, mut output: Vec<u8>) -> Answer {
    written(vz::build_into(deal, tree, number, place, &mut output), &output)
}

fn pad(raw: &[u8], mut output: Vec<u8>) -> Answer {
    written(vz::pad_into(raw, &mut output), &output)
}

fn unpad(raw_length: u64, segment: &[u8], mut output: Vec<u8>) -> Answer {
    written(vz::unpad_into(raw_length, segment, &mut output), &output)
}

fn settled(result: Result<Settled, Refusal>) -> Line {
    match result {
        Ok(Settled::Same) => code(Ok(())).bytes(&[0; 64]).bytes(&[0; 64]),
        Ok(Settled::Collision { left, right }) => code(Err(Refusal::COLLISION)).bytes(&left).bytes(&right),
        Err(refusal) => code(Err(refusal)).bytes(&[0; 64]).bytes(&[0; 64]),
    }
}

/// A zero; tag, start, length and next place of each field from place 0 on; then the place that is no field.
fn fields(record: &[u8]) -> Answer {
    let mut line = String::from("0 ");
    let mut place = 0;
    while let Ok(field) = vz::read_field(record, place) {
        if field.next <= place {
            return Err(format!("the field at place {place} has the next place {}", field.next).into());
        }
        write!(line, "{} {} {} {} ", field.tag, field.start, field.content.len(), field.next)?;
        place = field.next;
    }
    Ok(Line(line + &place.to_string()))
}
