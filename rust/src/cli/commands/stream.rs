//! The commitment of a file that is too large to hold, as its bytes arrive.
use super::super::answer::Answer;
use super::super::args::Stream;
use super::super::failure::{self, Failure};
use super::super::files;
use super::super::json::Json;
use super::super::pieces::{Known, Pieces};
use super::super::progress::Arriving;
use super::super::state::{self, Keeper, Place, State};
use super::super::store::names::shown;
use super::{committed, text};
use vizhuthamen::{RawStreaming, Refusal, Streaming, MAX_RAW, MAX_RAW_STREAM, MAX_STREAM, RAW_PART, STREAM_STATE};

/// The largest piece of bytes that is read and taken at once.
const PIECE: usize = 1 << 20;

/// The raw bytes that are read and taken at once: whole parts, so that a state can be kept after each.
const BLOCK: usize = MAX_RAW as usize / RAW_PART * RAW_PART;

/// What takes the bytes of a file: a stream of the bytes themselves, or one of a raw archive, with what is left after
/// its last block.
enum Work {
    Bytes(Streaming),
    Raw { stream: RawStreaming, rest: Vec<u8> },
}

impl Work {
    fn new(raw: bool) -> Work {
        match raw {
            true => Work::Raw { stream: RawStreaming::new(), rest: vec![] },
            false => Work::Bytes(Streaming::new()),
        }
    }

    /// Goes on from a state.
    fn resumed(state: &State) -> Option<Work> {
        match state.raw {
            true => RawStreaming::resumed(state.bytes, state.taken).map(|stream| Work::Raw { stream, rest: vec![] }),
            false => Some(Work::Bytes(Streaming::from(state.bytes))),
        }
    }

    /// The next bytes, as many as can be taken at once; none at the end.
    fn read<'p>(&self, pieces: &'p mut Pieces) -> Result<&'p [u8], Failure> {
        match self {
            Work::Bytes(_) => pieces.read_next(),
            Work::Raw { .. } => pieces.read_whole(),
        }
    }

    fn take(&mut self, piece: &[u8]) -> Result<(), Refusal> {
        match self {
            Work::Bytes(stream) => stream.take(piece),
            Work::Raw { stream, .. } if piece.len() == BLOCK => stream.take(piece),
            // Only the last block is shorter.
            Work::Raw { rest, .. } => {
                rest.extend_from_slice(piece);
                Ok(())
            }
        }
    }

    /// The answer for all bytes taken.
    fn end(&self, count: u64) -> Result<Answer, Refusal> {
        match self {
            Work::Bytes(stream) => stream.end().map(|answer| committed(answer.commitment, answer.count)),
            Work::Raw { stream, rest } => stream.end(rest).map(|answer| {
                let members = vec![
                    ("commitment", text(answer.commitment)),
                    ("raw_length", Json::Number(count)),
                    ("size", Json::Number(answer.size)),
                    ("area", Json::Number(answer.area)),
                ];
                Answer::done("done").with_text(format!("{}\n", answer.commitment), members)
            }),
        }
    }

    /// The state after so many bytes of a file. Raw bytes after the last block are read again by whoever goes on.
    fn state(&self, known: Known, read: u64) -> State {
        let (kept, taken) = match self {
            Work::Bytes(stream) => (stream.as_ref(), read),
            Work::Raw { stream, .. } => (stream.state(), stream.taken()),
        };
        let mut bytes = [0; STREAM_STATE];
        bytes.copy_from_slice(kept);
        State { raw: matches!(self, Work::Raw { .. }), known, taken, bytes }
    }
}

/// Whether a stream can have so many bytes.
fn allowed(raw: bool, length: u64) -> bool {
    match raw {
        true => (1..=MAX_RAW_STREAM).contains(&length),
        false => (32..=MAX_STREAM).contains(&length) && length.is_power_of_two(),
    }
}

/// A refusal, with a note on what sizes are allowed and what can be done.
fn refused(refusal: Refusal, raw: bool, pieces: &Pieces) -> Answer {
    let note = match (refusal, raw) {
        (Refusal::SIZE, false) => format!(
            "{}; a stream has a power of two from 32 to {MAX_STREAM} bytes, and a raw archive of any size is padded \
             and filled up to one by: vizhuthamen stream --raw",
            pieces.described(MAX_STREAM)
        ),
        (Refusal::SIZE, true) => format!(
            "{}; a raw archive has from 1 to {MAX_RAW_STREAM} bytes: cut a longer one into several",
            pieces.described(MAX_RAW_STREAM)
        ),
        _ => return Answer::refused(refusal),
    };
    Answer::refused(refusal).with_note(note)
}

/// The refusal of a node with stray bits, which stand in a piece that starts at this byte.
fn stray(name: &str, start: u64, piece: &[u8]) -> Answer {
    let last = (start..).zip(piece).filter(|(at, _)| at % 32 == 31);
    let byte = last.into_iter().find(|(_, byte)| **byte >= 0x40).map_or(start, |(at, _)| at);
    Answer::refused(Refusal::STRAY_BITS).with_note(format!(
        "{name} has stray bits, first in byte {byte}; the commitment of a plain file is printed by: \
         vizhuthamen stream --raw"
    ))
}

/// Prints the commitment of a file, or of the segment of a raw archive, and keeps its state where that is asked for.
pub fn stream(file: &Stream, raw: bool, place: Option<&Place>, progress: bool) -> Result<Answer, Failure> {
    let mut pieces = Pieces::open(file, if raw { BLOCK } else { PIECE })?;
    let resumed = match place {
        Some(place) if place.resume => Some(resume(place, raw, &mut pieces)?),
        _ => None,
    };
    // The size of a regular file is known before its bytes are.
    if let Some(known) = pieces.known {
        if !raw {
            files::known(file, known.length)?;
        }
        if !allowed(raw, known.length) {
            return Ok(refused(Refusal::SIZE, raw, &pieces));
        }
    }
    let (mut work, mut keeper) = match (resumed, place) {
        (Some((work, keeper)), _) => (work, Some(keeper)),
        (None, place) => begin(raw, place, &pieces)?,
    };
    let answer = run(&mut work, &mut pieces, keeper.as_mut(), progress);
    match (answer, keeper) {
        (Ok(answer), Some(keeper)) => Ok(answer.spending(keeper.path())),
        (Err(failure), Some(keeper)) => {
            let state = shown(keeper.path());
            Err(match failure.status {
                failure::IO => failure.hint(format!("the state is in {state}: go on with --resume")),
                _ => failure.hint(format!("remove {state} first")),
            })
        }
        (answer, None) => answer,
    }
}

/// A new start, with its state in a file where that is asked for.
fn begin(raw: bool, place: Option<&Place>, pieces: &Pieces) -> Result<(Work, Option<Keeper>), Failure> {
    let work = Work::new(raw);
    let Some(place) = place else { return Ok((work, None)) };
    let keeper = Keeper::begin(&place.path, &work.state(regular(pieces)?, 0))?;
    Ok((work, Some(keeper)))
}

/// Goes on where the state says.
fn resume(place: &Place, raw: bool, pieces: &mut Pieces) -> Result<(Work, Keeper), Failure> {
    let state = state::read(&place.path, raw, regular(pieces)?, &pieces.name)?;
    let work = Work::resumed(&state).ok_or_else(|| {
        failure::data(format!("{} is the state of no stream", shown(&place.path))).hint("remove it and begin again")
    })?;
    pieces.go_to(state.taken)?;
    Ok((work, Keeper::resume(&place.path)))
}

/// What is known of the file that is read. What is read only once has no state that another run could go on from.
fn regular(pieces: &Pieces) -> Result<Known, Failure> {
    pieces.known.ok_or_else(|| {
        let what = "is not a regular file, or has no bytes";
        failure::usage(format!("--state is for files that can be read again, and {} {what}", pieces.name))
    })
}

/// Takes all bytes.
fn run(
    work: &mut Work,
    pieces: &mut Pieces,
    mut keeper: Option<&mut Keeper>,
    progress: bool,
) -> Result<Answer, Failure> {
    let raw = matches!(work, Work::Raw { .. });
    let total = pieces.known.map(|known| known.length);
    let mut progress = Arriving::start("hashing", pieces.count, total, progress);
    let mut taken = Ok(());
    // A refusal sticks, so nothing after it is read.
    while taken.is_ok() {
        let (start, name) = (pieces.count, pieces.name.clone());
        let piece = work.read(pieces)?;
        if piece.is_empty() {
            break;
        }
        taken = work.take(piece);
        if taken == Err(Refusal::STRAY_BITS) {
            return Ok(stray(&name, start, piece));
        }
        progress.arrived(pieces.count);
        if let (Some(keeper), Some(known), Ok(())) = (keeper.as_deref_mut(), pieces.known, taken) {
            keeper.keep(|| work.state(known, pieces.count));
        }
    }
    drop(progress);
    if taken.is_ok() {
        pieces.unchanged()?;
    }
    Ok(taken.and_then(|()| work.end(pieces.count)).unwrap_or_else(|refusal| refused(refusal, raw, pieces)))
}

#[cfg(test)]
mod tests {
    use super::*;

    #[test]
    fn a_block_is_whole_parts_and_as_long_as_one_call_could_pad() {
        assert_eq!((BLOCK, BLOCK % RAW_PART), (MAX_RAW as usize, 0));
    }

    #[test]
    fn stray_bits_are_found_in_their_piece() {
        let mut piece = vec![0xff; 100];
        for (start, byte) in [(0, 31), (31, 31), (32, 63), (1000, 1023)] {
            assert!(
                stray("it", start, &piece).notes[0].starts_with(&format!("it has stray bits, first in byte {byte};"))
            );
        }
        piece[31] = 0x3f;
        assert!(stray("it", 0, &piece).notes[0].starts_with("it has stray bits, first in byte 63;"));
    }

    #[test]
    fn sizes() {
        for length in [32, 64, 1 << 20, MAX_STREAM] {
            assert!(allowed(false, length) && !allowed(false, length - 1) && !allowed(false, length + 1), "{length}");
        }
        assert!(!allowed(false, 0) && !allowed(false, 16) && !allowed(false, 2 * MAX_STREAM));
        assert!(allowed(true, 1) && allowed(true, MAX_RAW_STREAM));
        assert!(!allowed(true, 0) && !allowed(true, MAX_RAW_STREAM + 1));
    }
}
