//! The commitment of bytes that arrive in pieces, by the pieces' size.
use crate::aims::Aim;
use crate::library::Library;
use crate::record::filled;
use crate::table;
use crate::timing::{timed, Times, Work};
use crate::{BEFORE, LONG};
use std::hint::black_box;

const TOTAL: usize = 1 << 22;
const PIECES: [usize; 8] = [32, 64, 256, 1 << 10, 1 << 12, 1 << 16, 1 << 18, 1 << 20];

/// Prints the time a byte for each size of pieces, for each library, and for the first one its ratio to the
/// commitment's.
pub fn print(libraries: &[Library]) -> Vec<Aim> {
    let bytes = filled(TOTAL);
    let mut works: Vec<Work> = libraries.iter().flat_map(|library| works(library, &bytes)).collect();
    let times = timed(&mut works, LONG, 1);
    let of = |library: usize, i: usize| library * (PIECES.len() + 1) + i;
    let row = |name: String, i: usize| {
        let nanoseconds =
            (0..libraries.len()).map(|library| format!("{:.2}", times.of(of(library, i)) / TOTAL as f64 * 1e9));
        [name].into_iter().chain(nanoseconds).chain([format!("{:.2}", times.ratio(i, 0))]).collect::<Vec<String>>()
    };
    let named = libraries.iter().map(|library| library.name.clone());
    let headings: Vec<String> =
        ["pieces of bytes".to_string()].into_iter().chain(named).chain(["of the commitment's".to_string()]).collect();
    let mut rows = vec![row("commitment".to_string(), 0)];
    rows.extend(PIECES.iter().enumerate().map(|(i, piece)| row(piece.to_string(), i + 1)));
    table::print(&headings, &rows);
    let before = libraries.iter().position(|library| library.name == BEFORE);
    aims(&times, before.map(|library| of(library, 0)))
}

/// The first library's stream beside its commitment; short pieces beside the earlier library's, which begins at
/// `before`.
fn aims(times: &Times, before: Option<usize>) -> Vec<Aim> {
    let place = |piece: usize| PIECES.iter().position(|size| *size == piece).map(|i| i + 1);
    let what = |name: &str| format!("stream in pieces of {name}, time a byte over the commitment's");
    let ratio = |piece: usize| place(piece).map(|i| times.ratio(i, 0));
    let mut aims =
        vec![Aim::at_most(what("64 KiB"), 1.25, ratio(1 << 16)), Aim::at_most(what("4 KiB"), 1.5, ratio(1 << 12))];
    if let Some(before) = before {
        let short = PIECES.into_iter().filter(|piece| *piece <= 256).filter_map(place);
        let slowest = short.map(|i| times.ratio(i, before + i)).max_by(f64::total_cmp);
        aims.push(Aim::at_most("stream in pieces up to 256 bytes, slowest over the earlier library", 1.03, slowest));
    }
    aims
}

/// The commitment of all bytes, then the stream for each size of pieces.
fn works<'a>(library: &'a Library, bytes: &'a [u8]) -> Vec<Work<'a>> {
    let expected = library.root(bytes);
    let mut works = vec![Work::new(move || {
        black_box(library.root(black_box(bytes)));
    })];
    for piece in PIECES {
        assert_eq!(library.streamed(bytes, piece), expected, "{}, pieces of {piece} bytes", library.name);
        works.push(Work::new(move || {
            black_box(library.streamed(black_box(bytes), piece));
        }));
    }
    works
}
