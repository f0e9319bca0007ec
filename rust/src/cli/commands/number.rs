//! The number of a deal: kept beside it, and compared with what a call and a record name.
use super::super::answer::Answer;
use super::super::args::{SetNumber, Stream};
use super::super::failure::{self, Failure};
use super::super::files::{self, Content};
use super::super::json::Json;
use super::super::store::{Access, DealFile, Known};
use super::super::survey;
use super::{path_of, refused, text};
use vizhuthamen::Refusal;

/// Shows the number that is kept of a deal.
pub fn show(deal: &Stream) -> Result<Answer, Failure> {
    path_of(deal)?;
    let (deal, kept) = files::read_numbered(deal)?;
    let name = &deal.name;
    match kept {
        Some(number) => Ok(Answer::done("done").with_value("number", Json::Number(number))),
        None => Err(not_kept(name)),
    }
}

/// That no number of a deal is kept, and what it is for.
pub fn needed(name: &str) -> String {
    format!("no number of {name} is kept, and records and proofs need one: vizhuthamen number {name} N")
}

/// No number of a deal is kept beside it.
pub fn not_kept(name: &str) -> Failure {
    failure::data(format!("no number of {name} is kept")).hint(format!("it is kept by: vizhuthamen number {name} N"))
}

/// Keeps a number of a deal, under its lock. One that is kept already is changed only where it is the one meant.
pub fn keep(deal: &Stream, set: SetNumber, wait: bool) -> Result<Answer, Failure> {
    let deal = DealFile::open(path_of(deal)?, Access { wait, new_owner: false })?;
    if let Err(refusal) = survey::numbers(&deal.content.bytes) {
        return Ok(refused(refusal, &deal.content));
    }
    let (name, number) = (&deal.content.name, set.number);
    let answer = Answer::done("done").with_value("number", Json::Number(number));
    match (deal.number(), set.instead_of) {
        (Some(kept), _) if kept == number => return Ok(answer),
        (Some(kept), meant) if meant != Some(kept) => {
            return Err(failure::data(format!("{name} has the number {kept}; nothing is changed"))
                .hint(format!("if {number} is right: vizhuthamen number {name} {number} --instead-of {kept}")));
        }
        (None, Some(meant)) => {
            let why = format!("no number of {name} is kept, and --instead-of says {meant}; nothing is changed");
            return Err(failure::data(why).hint(format!("if {number} is right: vizhuthamen number {name} {number}")));
        }
        _ => deal.keep_number(number)?,
    }
    let note = set.instead_of.map(|old| format!("records that were built with the number {old} name that number"));
    Ok(note.into_iter().fold(answer.writing(), Answer::with_note))
}

/// Reads a deal, and chooses its number for a record: the kept one, or the given one where none is kept. The two must
/// not differ.
pub fn read_with_number(deal: &Stream, given: Option<u64>) -> Result<(Content, u64), Failure> {
    read_with_known(deal, given).map(|(content, number, _)| (content, number))
}

/// The same, with all that is known of the deal.
pub fn read_with_known(deal: &Stream, given: Option<u64>) -> Result<(Content, u64, Option<Known>), Failure> {
    let (content, known) = files::read_known(deal)?;
    let kept = known.as_ref().and_then(|known| known.number);
    match agreed(given, kept, &content.name)? {
        Some(number) => Ok((content, number, known)),
        None => Err(unknown(&content.name, matches!(deal, Stream::File(_)))),
    }
}

/// The kept number of a deal, or the given one where none is kept, if there is either. The two must not differ.
pub fn agreed(given: Option<u64>, kept: Option<u64>, name: &str) -> Result<Option<u64>, Failure> {
    match (given, kept) {
        (Some(given), Some(kept)) if given != kept => {
            Err(failure::data(format!("{name} has the number {kept}, and --number says {given}; nothing is done"))
                .hint("take another deal, or leave --number out")
                .hint(format!("if {given} is right: vizhuthamen number {name} {given} --instead-of {kept}")))
        }
        _ => Ok(given.or(kept)),
    }
}

/// No number of a deal, which is a file or not, is known.
pub fn unknown(name: &str, file: bool) -> Failure {
    let keep = match file {
        true => format!(", or keep it beside the deal: vizhuthamen number {name} N"),
        false => String::new(),
    };
    failure::data(format!("the number of {name} is not known")).hint(format!("give --number N{keep}"))
}

/// Adds the number against which records were checked or built, for JSON.
pub fn with_number(answer: Answer, number: u64) -> Answer {
    answer.with_text(String::new(), vec![("number", Json::Number(number))])
}

/// A refusal of records as those of the deal of this number. Where one names another deal it says which.
pub fn refused_records(refusal: Refusal, number: u64, records: &[&Content]) -> Answer {
    let other = |record: &&Content| Some((record.name.clone(), named(&record.bytes).filter(|named| *named != number)?));
    let answer = with_number(Answer::refused(refusal), number);
    match (refusal, records.iter().find_map(other)) {
        (Refusal::DEAL_NUMBER, Some((name, named))) => {
            let hint = format!(
                "{name} names deal number {named}, and {number} is asked for: it is the record of another deal, or \
                 {number} is not this deal's number"
            );
            let members = vec![("record_number", Json::Number(named)), ("hint", text(&hint))];
            answer.with_text(String::new(), members).with_hint(hint)
        }
        _ => answer,
    }
}

/// The deal number that a record names: the field with tag 7.
fn named(record: &[u8]) -> Option<u64> {
    let field = vizhuthamen::fields(record).find(|field| field.tag == 7)?;
    Some(u64::from_le_bytes(field.content.try_into().ok()?))
}

#[cfg(test)]
mod tests {
    use super::super::super::answer::assert_refused;
    use super::*;

    /// The content of a record whose field with tag 7 has these bytes.
    fn record(name: &str, number: &[u8]) -> Content {
        let bytes = [&[2, 8, 0, 1, 1, 0, 0, 0, 0, 0, 0, 7, number.len() as u8, 0], number].concat();
        Content { bytes, name: name.to_string(), metadata: None }
    }

    #[test]
    fn the_record_that_names_another_deal_is_said() {
        let (mine, other) = (record("mine", &7u64.to_le_bytes()), record("other", &u64::MAX.to_le_bytes()));
        let hint =
            "other names deal number 18446744073709551615, and 7 is asked for: it is the record of another deal, \
                    or 7 is not this deal's number";
        for records in [&[&other, &mine][..], &[&mine, &other], &[&other]] {
            let answer = refused_records(Refusal::DEAL_NUMBER, 7, records);
            let members = format!(",\"number\":7,\"record_number\":\"18446744073709551615\",\"hint\":\"{hint}\"");
            assert_refused(&answer, Refusal::DEAL_NUMBER, &format!("{hint}\n"), &members);
        }
    }

    #[test]
    fn other_refusals_say_nothing_of_numbers() {
        for number in [&[0; 8][..], &[0; 7], &[]] {
            let answer = refused_records(Refusal::FORM, 7, &[&record("record", number)]);
            assert_eq!(answer.to_text(), format!("code 3: {}\n", Refusal::FORM.meaning()));
        }
    }
}
