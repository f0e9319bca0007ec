//! Replays the cases of tests/operations.py on the library, for comparison with the independent model.
//!
//! A case is a header of eight little-endian u64 (operation, lengths of a, b, c, d and e, x, y), then the bytes a, b,
//! c, d and e. Each gets one line of text: the code, the numbers in decimal, the bytes in hex. Values are zero where
//! the library gives none.
//!
//! Every case is run twice, by the safe functions and by the functions of the C interface; two answers that differ are
//! an error.
mod operation;
mod raw;
mod safe;

use operation::Operation;
use std::error::Error;
use std::fmt::{Display, Write as _};
use std::io::{self, BufReader, BufWriter, ErrorKind, Read, Write};
use std::process::ExitCode;
use vizhuthamen::{hex, Refusal};

/// A longer argument is an error of the input.
const MAX_ARGUMENT: u64 = 1 << 25;

/// The longest message that `sha256` takes.
const PART: usize = 1 << 24;

type Answer = Result<Line, Box<dyn Error>>;

#[derive(Clone)]
struct Case {
    operation: Operation,
    a: Vec<u8>,
    b: Vec<u8>,
    c: Vec<u8>,
    d: Vec<u8>,
    e: Vec<u8>,
    x: u64,
    y: u64,
}

impl Case {
    /// The house that a case names.
    fn house(&self) -> Result<u8, Box<dyn Error>> {
        u8::try_from(self.y).map_err(|_| format!("{} is no byte for a house", self.y).into())
    }
}

/// An answer's line: its parts with a space between them.
#[derive(PartialEq, Eq)]
struct Line(String);

impl Line {
    fn code(code: u32) -> Line {
        Line(code.to_string())
    }

    fn add(mut self, part: impl Display) -> Line {
        let _ = write!(self.0, " {part}");
        self
    }

    fn bytes(self, bytes: &[u8]) -> Line {
        self.add(hex::encode(bytes))
    }

    /// A deal, its tree where there is one, and its table, as they are afterwards: by their SHA-256.
    fn memory(self, deal: &[u8], tree: Option<&[u8]>, table: &[u8]) -> Answer {
        let parts = [Some(deal), tree, Some(table)];
        parts.into_iter().flatten().try_fold(self, |line, part| Ok(line.bytes(&digest(part)?)))
    }
}

fn main() -> ExitCode {
    match replay(BufReader::new(io::stdin()), BufWriter::new(io::stdout())) {
        Ok(()) => ExitCode::SUCCESS,
        Err(error) => {
            let _ = writeln!(io::stderr(), "replay: {error}");
            ExitCode::FAILURE
        }
    }
}

fn replay(mut input: impl Read, mut output: impl Write) -> Result<(), Box<dyn Error>> {
    while let Some(case) = read_case(&mut input)? {
        writeln!(output, "{}", answer(case)?.0)?;
    }
    Ok(output.flush()?)
}

/// The answer of a case, once both ways of asking give the same one.
fn answer(case: Case) -> Answer {
    let mut lent = case.clone();
    let raw = raw::answer(&mut lent)?;
    let arguments =
        [(&lent.a, &case.a), (&lent.b, &case.b), (&lent.c, &case.c), (&lent.d, &case.d), (&lent.e, &case.e)];
    let written = case.operation.written();
    if arguments.iter().zip('a'..).any(|((after, before), name)| after != before && !written.contains(name)) {
        return Err(format!("an input was changed: {}", raw.0).into());
    }
    let safe = safe::answer(case)?;
    match safe == raw {
        true => Ok(safe),
        false => Err(format!("the safe functions answer {}, the C functions {}", safe.0, raw.0).into()),
    }
}

/// The next case; none at the end of the input.
fn read_case(input: &mut impl Read) -> Result<Option<Case>, Box<dyn Error>> {
    let Some(number) = read_operation(input)? else {
        return Ok(None);
    };
    let operation = Operation::numbered(number).ok_or_else(|| format!("no operation has the number {number}"))?;
    let mut numbers = [0; 7];
    for number in &mut numbers {
        *number = read_number(input)?;
    }
    let [a, b, c, d, e, x, y] = numbers;
    let mut read = |length| read_bytes(input, length);
    Ok(Some(Case { operation, a: read(a)?, b: read(b)?, c: read(c)?, d: read(d)?, e: read(e)?, x, y }))
}

/// The first number of a case; none at the end of the input.
fn read_operation(input: &mut impl Read) -> Result<Option<u64>, Box<dyn Error>> {
    let mut first = [0];
    loop {
        match input.read(&mut first) {
            Ok(0) => return Ok(None),
            Ok(_) => break,
            Err(error) if error.kind() == ErrorKind::Interrupted => {}
            Err(error) => return Err(error.into()),
        }
    }
    let mut bytes = [first[0], 0, 0, 0, 0, 0, 0, 0];
    input.read_exact(&mut bytes[1..])?;
    Ok(Some(u64::from_le_bytes(bytes)))
}

fn read_number(input: &mut impl Read) -> io::Result<u64> {
    let mut bytes = [0; 8];
    input.read_exact(&mut bytes)?;
    Ok(u64::from_le_bytes(bytes))
}

fn read_bytes(input: &mut impl Read, length: u64) -> Result<Vec<u8>, Box<dyn Error>> {
    if length > MAX_ARGUMENT {
        return Err(format!("an argument of {length} bytes is longer than {MAX_ARGUMENT}").into());
    }
    let mut bytes = vec![0; length as usize];
    input.read_exact(&mut bytes)?;
    Ok(bytes)
}

/// The SHA-256 by which a line shows bytes; of more than `PART`, that of the SHA-256s of their parts.
fn digest(bytes: &[u8]) -> Result<[u8; 32], Refusal> {
    if bytes.len() <= PART {
        return vizhuthamen::sha256(bytes);
    }
    let parts = bytes.chunks(PART).map(vizhuthamen::sha256).collect::<Result<Vec<_>, _>>()?;
    vizhuthamen::sha256(&parts.concat())
}

/// Pieces of these lengths, as far as the bytes go, and then the rest in one piece.
fn pieces<'a>(mut bytes: &'a [u8], lengths: &[u8]) -> Vec<&'a [u8]> {
    let mut pieces = vec![];
    for length in lengths {
        let (piece, rest) = bytes.split_at(bytes.len().min(usize::from(*length)));
        pieces.push(piece);
        bytes = rest;
    }
    pieces.push(bytes);
    pieces
}
