//! Settling two records, in words for whoever has to judge them.
use super::super::answer::Answer;
use super::super::args::Stream;
use super::super::failure::Failure;
use super::super::files::{self, Content};
use super::super::json::Json;
use super::super::reasons::{self, Named, Terms};
use super::{number, settled_answer, text};
use vizhuthamen::{meaning, Refusal};

/// Settles two records for one deal.
pub fn settle(commitment: &[u8], terms: Terms, first: &Stream, second: &Stream) -> Result<Answer, Failure> {
    let records = [files::read(first)?, files::read(second)?];
    let [first, second] = &records;
    let settled = vizhuthamen::settle_records(commitment, terms.size, terms.number, &first.bytes, &second.bytes);
    Ok(match settled {
        Ok(settled) => settled_answer(settled, "the two records are the same", terms.number),
        Err(refusal) => {
            let answer = number::with_number(Answer::refused(refusal), terms.number);
            match refusal {
                Refusal::COMMITMENT_LENGTH | Refusal::SIZE => {
                    let hint = format!("nothing is said of the records: {}", reasons::reason(refusal, &terms, &[]));
                    answer.with_text(String::new(), vec![("hint", text(&hint))]).with_hint(hint)
                }
                _ => with_each(answer, &records.each_ref().map(|record| Checked::of(commitment, terms, record))),
            }
        }
    })
}

/// One of two records, and why it is refused where it is.
struct Checked<'r> {
    record: &'r Content,
    refusal: Option<Refusal>,
    named: Option<Named>,
    terms: Terms,
}

impl<'r> Checked<'r> {
    fn of(commitment: &[u8], terms: Terms, record: &'r Content) -> Checked<'r> {
        let refusal = vizhuthamen::check(commitment, terms.size, terms.number, &record.bytes).err();
        Checked { record, refusal, named: Named::read(&record.bytes), terms }
    }

    /// Whether the record is accepted, in a sentence.
    fn sentence(&self, which: &str) -> String {
        let name = &self.record.name;
        match (self.refusal, &self.named) {
            (Some(refusal), _) => {
                let reason = reasons::reason(refusal, &self.terms, &self.record.bytes);
                format!("the {which} record, {name}, is refused with code {}: {reason}", refusal.code())
            }
            (None, Some(Named { place, .. })) => {
                format!("the {which} record, {name}, is accepted, as that of the entry at place {place}")
            }
            (None, None) => format!("the {which} record, {name}, is accepted"),
        }
    }

    /// The same for JSON.
    fn members(&self, which: &str) -> Json {
        let code = self.refusal.map_or(0, Refusal::code);
        Json::Object(vec![
            ("record", text(which)),
            ("file", text(&self.record.name)),
            ("code", Json::Number(u64::from(code))),
            ("meaning", text(if code == 0 { "the record is accepted" } else { meaning(code) })),
            ("sentence", text(self.sentence(which))),
        ])
    }

    /// The number that the record names, where it is refused for that.
    fn other_number(&self) -> Option<u64> {
        self.named.as_ref().filter(|_| self.refusal == Some(Refusal::DEAL_NUMBER)).map(|named| named.number)
    }
}

/// Adds of each record whether it is accepted, and why not.
fn with_each(answer: Answer, records: &[Checked; 2]) -> Answer {
    let both = || ["first", "second"].into_iter().zip(records);
    let refused = || both().filter(|(_, record)| record.refusal.is_some());
    let hint = match refused().next() {
        Some((which, record)) => record.sentence(which),
        None => "both records are accepted: they are of two different entries, and neither speaks against the other"
            .to_string(),
    };
    let number = records.iter().find_map(Checked::other_number);
    let mut members: Vec<_> = number.into_iter().map(|number| ("record_number", Json::Number(number))).collect();
    members.push(("refused", Json::List(refused().map(|(which, _)| text(which)).collect())));
    members.push(("verdicts", Json::List(both().map(|(which, record)| record.members(which)).collect())));
    members.push(("hint", text(&hint)));
    let mut lines: Vec<String> = both().map(|(which, record)| record.sentence(which)).collect();
    if refused().next().is_none() {
        lines.push(hint.clone());
    }
    lines.into_iter().fold(answer.with_text(String::new(), members), |answer, line| match line == hint {
        true => answer.with_hint(line),
        false => answer.with_text(format!("{line}\n"), vec![]),
    })
}
