//! The log that a booking or a cancellation adds its line to.
//!
//! What this program adds to a log is confirmed by playing it back, and the rows are then the entries of the deal: this
//! is judged by the library before anything is changed, of the log with the new lines and of the deal as it will be. So
//! a log that is torn, that is another deal's, or that is without a line for something that was done to the deal, is
//! refused, and never made worse.
use super::super::answer::Answer;
use super::super::failure::{self, Failure};
use super::super::files::Content;
use super::super::json::Json;
use super::super::lines::Broken;
use super::super::store::log::LogFile;
use super::super::store::names::Home;
use super::super::store::DealFile;
use super::super::survey;
use super::house::Housed;
use super::text;
use std::path::Path;
use vizhuthamen::{LedgerRow, Line, Malformed, Playback};

/// The log of a call, where one is asked for.
pub struct Logged {
    file: Option<LogFile>,
    /// How many lines the log has with those that it gets; 0 where it gets none.
    lines: u64,
}

/// A deal and its table of owners, before a call and after it, in memory.
pub struct Called<'c> {
    pub deal: &'c Content,
    pub table: &'c [u8],
    pub new_deal: &'c [u8],
    pub new_table: &'c [u8],
}

impl<'c> Called<'c> {
    /// A deal that is locked, after a call of a house.
    pub fn of(deal: &'c DealFile, housed: &'c Housed, new_deal: &'c [u8]) -> Called<'c> {
        let table = housed.table.old.as_ref().map_or(&[][..], |table| &table.bytes);
        Called { deal: &deal.content, table, new_deal, new_table: &housed.table.bytes }
    }
}

impl Logged {
    /// Opens the log, once the lock of the deal is held.
    pub fn open(given: Option<&Path>, deal: &DealFile) -> Result<Logged, Failure> {
        Logged::open_for(given, deal.home(), deal.access().wait)
    }

    /// The same for a deal of that name, which may not be there yet.
    pub fn open_for(given: Option<&Path>, home: &Home, wait: bool) -> Result<Logged, Failure> {
        let file = given.map(|given| LogFile::open(given, home, wait)).transpose()?;
        Ok(Logged { file, lines: 0 })
    }

    /// Whether a log is asked for.
    pub fn wanted(&self) -> bool {
        self.file.is_some()
    }

    /// The log will get these lines, where one is asked for. Refused unless playback confirms the log with them, and
    /// its rows are the entries of the deal after the call.
    pub fn will_get(&mut self, new: &[Line], called: &Called) -> Result<(), Failure> {
        let Some(log) = self.file.as_mut().filter(|_| !new.is_empty()) else { return Ok(()) };
        let size = called.new_deal.len() as u64;
        // By itself: what is torn may be whole, and another line, with the new bytes behind it.
        if let Some(fault) = vizhuthamen::lines(size, &log.bytes).find_map(Result::err) {
            return Err(malformed(log, &fault, size));
        }
        let before = vizhuthamen::lines(size, &log.bytes).count() as u64;
        new.iter().for_each(|line| log.will_get(&line.to_bytes()));
        self.lines = before + new.len() as u64;
        let rows = rows(called.new_deal, called.new_table)?;
        match vizhuthamen::playback(size, &log.grown()) {
            Ok(Playback::Confirmed(played)) if played == rows => Ok(()),
            Ok(Playback::WrongLine { line, .. }) if line <= before => Err(wrong_line(&log.name, line, size)),
            _ => Err(not_its_log(log, called)?),
        }
    }

    /// The log, where it gets lines.
    pub fn file(&mut self) -> Option<&mut LogFile> {
        self.file.as_mut().filter(|_| self.lines > 0)
    }

    /// Adds the lines of a call that has changed nothing else.
    pub fn write(&mut self, deal: &DealFile) -> Result<(), Failure> {
        self.file().map_or(Ok(()), |log| deal.log(log))
    }

    /// Adds to an answer the log and the number of its lines, where it got some.
    pub fn told(&self, answer: Answer) -> Answer {
        match self.file.as_ref().filter(|_| self.lines > 0) {
            None => answer,
            Some(log) => {
                answer.writing().with_value("log", text(&log.name)).with_value("lines", Json::Number(self.lines))
            }
        }
    }

    /// Adds to an answer that speaks of collecting the deal that its log ends with that.
    pub fn ends_with_collection(&self, answer: Answer) -> Answer {
        match &self.file {
            None => answer,
            Some(log) => answer.with_note(format!("a collection ends the log {}: the new deal has none", log.name)),
        }
    }
}

/// The rows of a ledger that has what stands in a deal.
fn rows(deal: &[u8], table: &[u8]) -> Result<Vec<LedgerRow>, Failure> {
    let slots = survey::slots(deal).map_err(failure::data)?;
    let standing = slots.iter().filter_map(|slot| Some((slot.standing()?, slot)));
    let row = standing.map(|(entry, slot)| LedgerRow {
        house: table.get(slot.number as usize).copied().unwrap_or_default(),
        commitment: entry.commitment,
        size: entry.size,
        offset: entry.offset,
        place: slot.place,
    });
    Ok(row.collect())
}

/// A log that is torn, or is none.
fn malformed(log: &LogFile, fault: &Malformed, size: u64) -> Failure {
    let (name, why) = (&log.name, Broken::of(fault, &log.bytes, size).described());
    failure::data(format!("{name} is no log of a deal of {size} bytes: {why}; nothing is changed"))
        .hint(format!("where it breaks is shown by: vizhuthamen playback {size} {name}"))
        .hint("give the log of this deal, or for a new deal the name of a new file")
}

/// A log that is wrong by itself.
fn wrong_line(log: &str, line: u64, size: u64) -> Failure {
    failure::data(format!("the rules do not give what line {line} of {log} says; nothing is changed"))
        .hint(format!("what they give is shown by: vizhuthamen playback {size} {log}"))
        .hint("give the log of this deal")
}

/// A log whose rows are not the entries of the deal.
fn not_its_log(log: &LogFile, called: &Called) -> Result<Failure, Failure> {
    let (deal, name) = (called.deal, &called.deal.name);
    let standing = rows(&deal.bytes, called.table)?;
    let played = match vizhuthamen::playback(deal.bytes.len() as u64, &log.bytes) {
        Ok(Playback::Confirmed(rows)) => rows,
        _ => vec![],
    };
    let refused =
        |why: &str| failure::data(format!("{} is not the log of {name}: {why}; nothing is changed", log.name));
    Ok(match difference(&standing, &played) {
        None => refused(&format!(
            "by its lines the rules give another answer than {name}, whose bytes other hands have changed"
        ))
        .hint(format!("what is wrong with {name} is shown by: vizhuthamen fsck {name}")),
        Some(_) if log.bytes.is_empty() => refused(&format!("it has no line, and entries stand in {name}"))
            .hint("a log begins with a deal in which no entry stands, and cannot begin later: leave --log out")
            .hint("a collection ends a log, and the deal that it makes has none"),
        Some(why) => refused(&why)
            .hint(format!("compare: vizhuthamen playback {} {}, vizhuthamen list {name}", deal.bytes.len(), log.name))
            .hint("what was booked without --log is cancelled without it, and booked again with it")
            .hint("collect, owner and repair end a log: leave --log out from then on"),
    })
}

/// How what stands in a deal differs from the rows of a log, at the lowest place at which it does.
fn difference(standing: &[LedgerRow], played: &[LedgerRow]) -> Option<String> {
    let only = |these: &[LedgerRow], those: &[LedgerRow]| {
        these.iter().filter(|row| !those.contains(row)).map(|row| row.place).min()
    };
    let (stands, logged) = (only(standing, played), only(played, standing));
    let place = stands.into_iter().chain(logged).min()?;
    Some(match (stands == Some(place), logged == Some(place)) {
        (true, false) => format!("it has no line for the entry that stands at place {place}"),
        (false, _) => format!("by its lines an entry stands at place {place}, and none does"),
        (true, true) => format!("by its lines another entry stands at place {place}"),
    })
}

#[cfg(test)]
mod tests {
    use super::*;
    use vizhuthamen::Node;

    #[test]
    fn the_lowest_place_at_which_rows_differ() {
        let row = |place, size| LedgerRow { house: 1, commitment: Node([1; 32]), size, offset: 0, place };
        let two = [row(256, 1), row(320, 1)];
        let told = |standing: &[LedgerRow], played: &[LedgerRow]| difference(standing, played).unwrap();
        assert_eq!(difference(&two, &two), None);
        assert_eq!(told(&two, &two[..1]), "it has no line for the entry that stands at place 320");
        assert_eq!(told(&two[1..], &two), "by its lines an entry stands at place 256, and none does");
        assert_eq!(told(&[row(256, 2)], &two), "by its lines another entry stands at place 256");
        assert_eq!(told(&[row(256, 1), row(384, 1)], &two), "by its lines an entry stands at place 320, and none does");
    }
}
