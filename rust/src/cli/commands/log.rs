//! The lines of a log.
use super::super::answer::Answer;
use super::super::args::Stream;
use super::super::failure::Failure;
use super::super::files;
use super::super::json::Json;
use super::super::lines;
use super::super::table::{table, Column};
use super::{playback, text};
use vizhuthamen::Line;

/// Lists the lines of a log, up to the first place at which it is malformed. For which deal they are is not judged.
pub fn log(log: &Stream) -> Result<Answer, Failure> {
    let log = files::read_log(log)?;
    let mut reader = vizhuthamen::lines(u64::MAX, &log.bytes);
    let (mut rows, mut calls, mut fault) = (vec![], vec![], None);
    let mut at = 0;
    while let Some(read) = reader.next() {
        match read {
            Ok(line) => {
                let number = calls.len() as u64 + 1;
                rows.push(row(number, at, &line));
                calls.push(object(number, at, &line));
            }
            Err(malformed) => fault = Some(malformed),
        }
        at = reader.at() as u64;
    }
    let answer = match fault {
        None => Answer::done("the log is well formed"),
        Some(malformed) => playback::malformed(malformed, &log, u64::MAX),
    };
    let members = vec![("lines", Json::Number(calls.len() as u64)), ("calls", Json::List(calls))];
    Ok(answer.with_text(table(&COLUMNS, &rows), members))
}

const COLUMNS: [Column; 9] = [
    Column("line", true),
    Column("byte", true),
    Column("call", false),
    Column("house", true),
    Column("answer", false),
    Column("offset", true),
    Column("place", true),
    Column("size", true),
    Column("commitment", false),
];

/// A line as a row of the table. Numbers that say nothing are left out.
fn row(number: u64, at: u64, line: &Line) -> Vec<String> {
    let code = line.answers().code;
    let told = |value: u64, says: bool| if says || value != 0 { value.to_string() } else { "-".to_string() };
    let rest = match *line {
        Line::Booking { commitment, size, code, offset, place, .. } => {
            let placed = matches!(code, 0 | 15);
            [told(offset, placed), told(place, placed), size.to_string(), commitment.to_string()]
        }
        Line::Cancelling { place, .. } => ["-".to_string(), place.to_string(), "-".to_string(), "-".to_string()],
    };
    let first = [
        number.to_string(),
        at.to_string(),
        lines::call(line).to_string(),
        line.house().to_string(),
        format!("{code}, {}", lines::word(line, code)),
    ];
    first.into_iter().chain(rest).collect()
}

/// A line for JSON.
fn object(number: u64, at: u64, line: &Line) -> Json {
    let answers = line.answers();
    let first = vec![
        ("line", Json::Number(number)),
        ("at", Json::Number(at)),
        ("call", text(lines::call(line))),
        ("house", Json::Number(u64::from(line.house()))),
    ];
    let asked = match line {
        Line::Booking { commitment, size, .. } => vec![("size", Json::Number(*size)), ("commitment", text(commitment))],
        Line::Cancelling { place, .. } => vec![("place", Json::Number(*place))],
    };
    Json::Object([first, lines::answered(line, &answers), asked].concat())
}
