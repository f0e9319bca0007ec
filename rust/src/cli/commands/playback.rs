//! Playing a log back.
use super::super::answer::Answer;
use super::super::args::Stream;
use super::super::failure::{self, Failure};
use super::super::files::{self, Content};
use super::super::json::Json;
use super::super::lines::{self, Broken};
use super::super::progress::Progress;
use super::super::table::{table, Column};
use super::text;
use vizhuthamen::{Answers, LedgerRow, Line, Malformed, Playback, Refusal, MAX_DEAL};

/// Plays a log back for a deal of a size. The verdict is the library's; where the form breaks, and what a wrong line
/// says, is read from the log.
pub fn playback(size: u64, log: &Stream) -> Result<Answer, Failure> {
    let log = files::read_log(log)?;
    let played = Progress::during("playing back", log.bytes.len(), || vizhuthamen::playback(size, &log.bytes));
    let answer = match played {
        Ok(Playback::Confirmed(rows)) => confirmed(&rows, &log, size),
        Ok(Playback::WrongLine { line, ruling }) => wrong_line(line, &ruling, &log, size)?,
        Err(Refusal::FORM) => malformed(first_fault(size, &log)?, &log, size),
        Err(refusal) => {
            Answer::refused(refusal).with_note(format!("a deal has a power of two from 512 to {MAX_DEAL} bytes"))
        }
    };
    Ok(answer.with_text(String::new(), vec![("size", Json::Number(size))]))
}

/// How many lines a log has.
fn count(size: u64, log: &[u8]) -> u64 {
    vizhuthamen::lines(size, log).count() as u64
}

/// Every line is confirmed: the rows of the ledger after the last one.
fn confirmed(rows: &[LedgerRow], log: &Content, size: u64) -> Answer {
    let (lines, name) = (count(size, &log.bytes), &log.name);
    let sentence = match lines {
        0 => format!("{name} has no line, and no segment is booked by it"),
        _ => format!("the rules give the answers of {} of {name}, in a deal of {size} bytes", lines::counted(lines)),
    };
    let cells = |row: &LedgerRow| {
        let LedgerRow { house, commitment, size, offset, place } = row;
        vec![place.to_string(), house.to_string(), offset.to_string(), size.to_string(), commitment.to_string()]
    };
    let shown =
        if rows.is_empty() { String::new() } else { table(&COLUMNS, &rows.iter().map(cells).collect::<Vec<_>>()) };
    let rows = Json::List(rows.iter().map(row).collect());
    Answer::done("the rules give the answers of every line")
        .with_verdict("confirmed", sentence)
        .with_text(shown, vec![("lines", Json::Number(lines)), ("rows", rows)])
}

/// The columns of a table of rows.
const COLUMNS: [Column; 5] = [
    Column("place", true),
    Column("house", true),
    Column("offset", true),
    Column("size", true),
    Column("commitment", false),
];

/// A row for JSON.
fn row(row: &LedgerRow) -> Json {
    Json::Object(vec![
        ("place", Json::Number(row.place)),
        ("house", Json::Number(u64::from(row.house))),
        ("offset", Json::Number(row.offset)),
        ("size", Json::Number(row.size)),
        ("commitment", text(row.commitment)),
    ])
}

/// A line that says what the rules do not give.
fn wrong_line(number: u64, ruling: &Answers, log: &Content, size: u64) -> Result<Answer, Failure> {
    let mut lines = vizhuthamen::lines(size, &log.bytes);
    lines.by_ref().take(number as usize - 1).for_each(drop);
    let at = lines.at() as u64;
    let read = lines.next().and_then(Result::ok);
    let line = read.ok_or_else(|| failure::data(format!("{} has no line {number}", log.name)))?;
    let name = &log.name;
    let sentence =
        format!("line {number} of {name}, in which {}, {}", lines::described(&line), lines::against(&line, ruling));
    let by = |whose: &str, answers: &Answers| {
        Json::Object([vec![("by", text(whose))], lines::answered(&line, answers)].concat())
    };
    let answers = Json::List(vec![by("line", &line.answers()), by("rules", ruling)]);
    let members = vec![
        ("lines", Json::Number(count(size, &log.bytes))),
        ("line", Json::Number(number)),
        ("at", Json::Number(at)),
    ];
    Ok(Answer::damaged("a line says what the rules do not give")
        .with_verdict("not confirmed", sentence)
        .with_text(String::new(), [members, lines::asked(&line), vec![("answers", answers)]].concat())
        .with_note(next_steps(number, &line, log, size))
        .with_note("what the deal holds is shown by: vizhuthamen list DEAL".to_string()))
}

/// What is known of the other lines, and where they are shown. A place that no deal of that size has tells that the
/// size is not the log's.
fn next_steps(number: u64, line: &Line, log: &Content, size: u64) -> String {
    let before = if number == 1 { "" } else { "every line before it is confirmed; " };
    let shown = format!("{before}no line after it is judged; all are shown by: vizhuthamen log {}", log.operand());
    let place = match *line {
        Line::Booking { code: 0 | 15, place, .. } | Line::Cancelling { code: 0, place, .. } => place,
        _ => return shown,
    };
    match vizhuthamen::index_numbers(size) {
        Ok(numbers) if place % 64 == 0 && (numbers.start..size).contains(&place) => shown,
        _ => {
            format!("{shown}; {place} is no entry place of a deal of {size} bytes: give the size of the log's own deal")
        }
    }
}

/// The first place at which a log breaks its form.
fn first_fault(size: u64, log: &Content) -> Result<Malformed, Failure> {
    let found = vizhuthamen::lines(size, &log.bytes).find_map(Result::err);
    found.ok_or_else(|| failure::data(format!("{} is malformed", log.name)))
}

/// A log that is malformed: nothing is played.
pub fn malformed(fault: Malformed, log: &Content, size: u64) -> Answer {
    let broken = Broken::of(&fault, &log.bytes, size);
    let cut = (broken.byte == log.bytes.len() as u64).then(|| {
        "a line that a call was cut short in is completed by the next command on its deal: vizhuthamen fsck DEAL"
            .to_string()
    });
    let shown = format!("the lines before it are shown by: vizhuthamen log {}", log.operand());
    let answer = Answer::refused(Refusal::FORM)
        .with_verdict("malformed", format!("{}, {}", log.name, broken.described()))
        .with_text(String::new(), broken.members());
    let earlier = (broken.line > 1 && size != u64::MAX).then_some(shown);
    earlier.into_iter().chain(cut).fold(answer, Answer::with_note)
}
