//! A case answered by the functions of the C interface. Outputs are lent full of a pattern: with a code that writes
//! none the pattern must stay, and zeros are shown.
use super::{digest, pieces, Answer, Case, Line, Operation};
use std::fmt::Write;
use vizhuthamen::{ffi, ROWS, STREAM_STATE, WRONG_LINE};

const PATTERN: u8 = 0xa5;
const NUMBER: u64 = 0xa5a5_a5a5_a5a5_a5a5;
const WORD: u32 = 0xa5a5_a5a5;

/// The line of an answer, and whether its code writes outputs.
struct Written {
    line: Line,
    written: bool,
    stayed: bool,
}

impl Written {
    fn new(code: u32, writing: &[u32]) -> Written {
        Written::after(Line::code(code), writing.contains(&code))
    }

    /// What follows in a line that has begun.
    fn after(line: Line, written: bool) -> Written {
        Written { line, written, stayed: true }
    }

    fn number(self, value: u64) -> Written {
        let stayed = self.stayed && (self.written || value == NUMBER);
        let line = self.line.add(if self.written { value } else { 0 });
        Written { line, stayed, ..self }
    }

    fn word(self, value: u32) -> Written {
        let stayed = self.stayed && (self.written || value == WORD);
        let line = self.line.add(if self.written { value } else { 0 });
        Written { line, stayed, ..self }
    }

    fn bytes<const N: usize>(self, value: [u8; N]) -> Written {
        let stayed = self.stayed && (self.written || value == [PATTERN; N]);
        let line = self.line.bytes(if self.written { &value } else { &[0; N] });
        Written { line, stayed, ..self }
    }

    fn done(self) -> Answer {
        match self.stayed {
            true => Ok(self.line),
            false => Err(format!("an output was changed by a refusal: {}", self.line.0).into()),
        }
    }
}

/// The line of a case.
pub fn answer(case: &mut Case) -> Answer {
    let house = case.house();
    let Case { operation, ref mut a, ref mut b, ref mut c, ref mut d, ref mut e, x, y } = *case;
    match operation {
        Operation::Sha256 => hashed(ffi::vz_sha256, a),
        Operation::Commitment => hashed(ffi::vz_commitment, a),
        Operation::Numbers => numbers(x),
        Operation::Make => make_entry(a, x, y),
        Operation::Read => read_entry(a),
        Operation::Find => find(a, b),
        Operation::Book => book(a, None, d, house?, b),
        Operation::Build => build(a, None, y, x, b),
        Operation::Check => check(b, x, y, a),
        Operation::Settle => settle_records(c, x, y, a, b),
        Operation::SettleDeal => settle_with_deal(a, None, y, b),
        Operation::Fields => fields(a),
        Operation::Audit => audit(a, b),
        Operation::Stream => stream(a, b),
        Operation::Pad => pad(a, b),
        Operation::Unpad => unpad(x, a, b),
        Operation::Tally => tally(a),
        Operation::TreeFill => tree_fill(a, c),
        Operation::BookWithTree => book(a, Some(c), d, house?, b),
        Operation::BuildWithTree => build(a, Some(c), y, x, b),
        Operation::SettleWithTree => settle_with_deal(a, Some(c), y, b),
        Operation::Cancel => cancel(a, None, d, house?, x),
        Operation::CancelWithTree => cancel(a, Some(c), d, house?, x),
        Operation::Collect => collect(a, d, b, None, e),
        Operation::CollectWithTree => collect(a, d, b, Some(c), e),
        Operation::TreeRow => tree_row(a, b),
        Operation::Playback => playback(x, a),
    }
}

/// A function of the C interface from bytes to 32 bytes.
type Hash = unsafe extern "C" fn(*const u8, usize, *mut u8, usize) -> u32;

fn hashed(function: Hash, input: &[u8]) -> Answer {
    let mut out = [PATTERN; 32];
    // SAFETY: here and below, slices are live and outputs are locals or mutably borrowed, so that nothing overlaps.
    let code = unsafe { function(input.as_ptr(), input.len(), out.as_mut_ptr(), out.len()) };
    Written::new(code, &[0]).bytes(out).done()
}

fn stream(bytes: &[u8], lengths: &[u8]) -> Answer {
    let mut state = [PATTERN; STREAM_STATE];
    unsafe { ffi::vz_stream_new(state.as_mut_ptr(), STREAM_STATE) };
    let mut codes = vec![];
    for piece in pieces(bytes, lengths) {
        codes.push(unsafe { ffi::vz_stream_take(state.as_mut_ptr(), STREAM_STATE, piece.as_ptr(), piece.len()) });
    }
    let (mut node, mut count) = ([PATTERN; 32], NUMBER);
    let code = unsafe { ffi::vz_stream_end(state.as_ptr(), STREAM_STATE, node.as_mut_ptr(), 32, &mut count) };
    let line = Written::new(code, &[0]).bytes(node).number(count).done()?;
    Ok(codes.into_iter().fold(line, Line::add))
}

fn numbers(size: u64) -> Answer {
    let (mut entries, mut start) = (NUMBER, NUMBER);
    let code = unsafe { ffi::vz_index_numbers(size, &mut entries, &mut start) };
    Written::new(code, &[0]).number(entries).number(start).done()
}

fn make_entry(c: &[u8], offset: u64, size: u64) -> Answer {
    let mut out = [PATTERN; 64];
    let code = unsafe { ffi::vz_make_entry(c.as_ptr(), c.len(), offset, size, out.as_mut_ptr(), out.len()) };
    Written::new(code, &[0]).bytes(out).done()
}

fn read_entry(entry: &[u8]) -> Answer {
    let (mut kind, mut node, mut offset, mut size) = (WORD, [PATTERN; 32], NUMBER, NUMBER);
    let code = unsafe {
        let out = node.as_mut_ptr();
        ffi::vz_read_entry(entry.as_ptr(), entry.len(), &mut kind, out, 32, &mut offset, &mut size)
    };
    Written::new(code, &[0]).word(kind).bytes(node).number(offset).number(size).done()
}

fn audit(deal: &[u8], states: &mut [u8]) -> Answer {
    let code = unsafe { ffi::vz_audit(deal.as_ptr(), deal.len(), states.as_mut_ptr(), states.len()) };
    Ok(Line::code(code).bytes(&digest(states)?))
}

fn tally(deal: &[u8]) -> Answer {
    let (mut blank, mut damaged, mut valid) = (NUMBER, NUMBER, NUMBER);
    let code = unsafe { ffi::vz_tally(deal.as_ptr(), deal.len(), &mut blank, &mut damaged, &mut valid) };
    Written::new(code, &[0]).number(blank).number(damaged).number(valid).done()
}

/// With a code the numbers of a line stay as they were, with a wrong line the rows and their number, and with a refusal
/// all.
fn playback(size: u64, log: &[u8]) -> Answer {
    let (mut line, mut code, mut offset, mut place) = (NUMBER, WORD, NUMBER, NUMBER);
    let (mut count, mut rows) = (NUMBER, [PATTERN; ROWS]);
    let answer = unsafe {
        let (out, len) = (rows.as_mut_ptr(), rows.len());
        let (line, code, offset, place) = (&mut line, &mut code, &mut offset, &mut place);
        ffi::vz_playback(size, log.as_ptr(), log.len(), line, code, offset, place, &mut count, out, len)
    };
    let (wrong, confirmed) = (answer == WRONG_LINE, answer == 0);
    if !wrong && line != NUMBER || !confirmed && rows != [PATTERN; ROWS] {
        return Err(format!("an output was changed by the answer {answer}").into());
    }
    let said = if wrong { Line::code(1).add(line) } else { Line::code(0).add(answer) };
    let said = Written::after(said, wrong).word(code).number(offset).number(place).done()?;
    let said = Written::after(said, confirmed).number(count).done()?;
    Ok(said.bytes(&digest(if confirmed { &rows } else { &[0; ROWS] })?))
}

fn find(deal: &[u8], c: &[u8]) -> Answer {
    let (mut offset, mut size, mut place) = (NUMBER, NUMBER, NUMBER);
    let code =
        unsafe { ffi::vz_find(deal.as_ptr(), deal.len(), c.as_ptr(), c.len(), &mut offset, &mut size, &mut place) };
    let line = Written::new(code, &[0]).number(offset).number(size).number(place).done()?;
    let view = match code {
        0 => offset.checked_add(size).and_then(|end| deal.get(offset as usize..end as usize)),
        _ => Some(&[][..]),
    };
    let view = view.ok_or_else(|| format!("the view is outside the deal: {}", line.0))?;
    Ok(line.add(view.len()).bytes(&digest(view)?))
}

fn tree_fill(deal: &[u8], tree: &mut [u8]) -> Answer {
    let code = unsafe { ffi::vz_tree_fill(deal.as_ptr(), deal.len(), tree.as_mut_ptr(), tree.len()) };
    Ok(Line::code(code).bytes(&digest(tree)?))
}

fn tree_row(below: &[u8], above: &mut [u8]) -> Answer {
    let code = unsafe { ffi::vz_tree_row(below.as_ptr(), below.len(), above.as_mut_ptr(), above.len()) };
    Ok(Line::code(code).bytes(&digest(above)?))
}

fn book(deal: &mut [u8], mut tree: Option<&mut [u8]>, table: &mut [u8], house: u8, segment: &[u8]) -> Answer {
    let (mut offset, mut place) = (NUMBER, NUMBER);
    let (d, n, o, k) = (deal.as_mut_ptr(), deal.len(), table.as_mut_ptr(), table.len());
    let (s, m) = (segment.as_ptr(), segment.len());
    let code = match &mut tree {
        None => unsafe { ffi::vz_book(d, n, o, k, house, s, m, &mut offset, &mut place) },
        Some(tree) => unsafe {
            let (t, l) = (tree.as_mut_ptr(), tree.len());
            ffi::vz_book_with_tree(d, n, t, l, o, k, house, s, m, &mut offset, &mut place)
        },
    };
    let line = Written::new(code, &[0, 15]).number(offset).number(place).done()?;
    line.memory(deal, tree.as_deref(), table)
}

fn cancel(deal: &mut [u8], mut tree: Option<&mut [u8]>, table: &mut [u8], house: u8, place: u64) -> Answer {
    let (d, n, o, k) = (deal.as_mut_ptr(), deal.len(), table.as_mut_ptr(), table.len());
    let code = match &mut tree {
        None => unsafe { ffi::vz_cancel(d, n, o, k, house, place) },
        Some(t) => unsafe { ffi::vz_cancel_with_tree(d, n, t.as_mut_ptr(), t.len(), o, k, house, place) },
    };
    Line::code(code).memory(deal, tree.as_deref(), table)
}

fn collect(
    deal: &[u8],
    table: &[u8],
    second: &mut [u8],
    mut tree: Option<&mut [u8]>,
    second_table: &mut [u8],
) -> Answer {
    let (d, n, o, k) = (deal.as_ptr(), deal.len(), table.as_ptr(), table.len());
    let (s, m, p, l) = (second.as_mut_ptr(), second.len(), second_table.as_mut_ptr(), second_table.len());
    let code = match &mut tree {
        None => unsafe { ffi::vz_collect(d, n, o, k, s, m, p, l) },
        Some(t) => unsafe { ffi::vz_collect_with_tree(d, n, o, k, s, m, t.as_mut_ptr(), t.len(), p, l) },
    };
    Line::code(code).memory(second, tree.as_deref(), second_table)
}

fn build(deal: &[u8], tree: Option<&[u8]>, number: u64, place: u64, output: &mut [u8]) -> Answer {
    let mut length = NUMBER;
    let (d, n, o, m) = (deal.as_ptr(), deal.len(), output.as_mut_ptr(), output.len());
    let code = match tree {
        None => unsafe { ffi::vz_build(d, n, number, place, o, m, &mut length) },
        Some(t) => unsafe { ffi::vz_build_with_tree(d, n, t.as_ptr(), t.len(), number, place, o, m, &mut length) },
    };
    let line = Written::new(code, &[0]).number(length).done()?;
    Ok(line.bytes(&digest(output)?))
}

fn pad(raw: &[u8], output: &mut [u8]) -> Answer {
    let mut length = NUMBER;
    let code = unsafe { ffi::vz_fr32_pad(raw.as_ptr(), raw.len(), output.as_mut_ptr(), output.len(), &mut length) };
    let line = Written::new(code, &[0]).number(length).done()?;
    Ok(line.bytes(&digest(output)?))
}

fn unpad(raw_length: u64, segment: &[u8], output: &mut [u8]) -> Answer {
    let mut length = NUMBER;
    let code = unsafe {
        let (out, len) = (output.as_mut_ptr(), output.len());
        ffi::vz_fr32_unpad(raw_length, segment.as_ptr(), segment.len(), out, len, &mut length)
    };
    let line = Written::new(code, &[0]).number(length).done()?;
    Ok(line.bytes(&digest(output)?))
}

fn check(c: &[u8], size: u64, number: u64, record: &[u8]) -> Answer {
    let code = unsafe { ffi::vz_check(c.as_ptr(), c.len(), size, number, record.as_ptr(), record.len()) };
    Ok(Line::code(code))
}

fn settle_records(c: &[u8], size: u64, number: u64, first: &[u8], second: &[u8]) -> Answer {
    let (mut left, mut right) = ([PATTERN; 64], [PATTERN; 64]);
    let code = unsafe {
        let (l, r) = (left.as_mut_ptr(), right.as_mut_ptr());
        let (p, q) = (first.as_ptr(), second.as_ptr());
        ffi::vz_settle_records(c.as_ptr(), c.len(), size, number, p, first.len(), q, second.len(), l, 64, r, 64)
    };
    Written::new(code, &[0, 17]).bytes(left).bytes(right).done()
}

fn settle_with_deal(deal: &[u8], tree: Option<&[u8]>, number: u64, record: &[u8]) -> Answer {
    let (mut left, mut right) = ([PATTERN; 64], [PATTERN; 64]);
    let (d, n, p, m) = (deal.as_ptr(), deal.len(), record.as_ptr(), record.len());
    let (l, r) = (left.as_mut_ptr(), right.as_mut_ptr());
    let code = match tree {
        None => unsafe { ffi::vz_settle_with_deal(d, n, number, p, m, l, 64, r, 64) },
        Some(t) => unsafe { ffi::vz_settle_with_tree(d, n, t.as_ptr(), t.len(), number, p, m, l, 64, r, 64) },
    };
    Written::new(code, &[0, 17]).bytes(left).bytes(right).done()
}

fn fields(record: &[u8]) -> Answer {
    let (mut line, mut place) = (String::from("0 "), 0);
    loop {
        let (mut tag, mut start, mut length, mut next) = (WORD, NUMBER, NUMBER, NUMBER);
        let code = unsafe {
            let (record, len) = (record.as_ptr(), record.len());
            ffi::vz_read_field(record, len, place, &mut tag, &mut start, &mut length, &mut next)
        };
        let read = Written::new(code, &[0]).word(tag).number(start).number(length).number(next).done()?;
        if code != 0 {
            return Ok(Line(line + &place.to_string()));
        }
        if next <= place {
            return Err(format!("the field at place {place} has the next place {next}").into());
        }
        write!(line, "{} ", read.0.strip_prefix("0 ").unwrap_or_default())?;
        place = next;
    }
}
