//! The house that books or cancels, and the table of a deal's owners that the library is lent.
use super::super::answer::Answer;
use super::super::args::decimal;
use super::super::failure::{self, Failure};
use super::super::files::Content;
use super::super::json::Json;
use super::super::owners::Owners;
use super::super::room;
use super::super::store::names::shown;
use super::super::store::{DealFile, NewTable};
use super::super::survey::{self, Slot};
use super::text;
use std::env;
use vizhuthamen::Refusal;

/// The variable of the environment that names the house where `--house` does not.
const VARIABLE: &str = "VIZHUTHAMEN_HOUSE";

/// A house at work on a deal that is locked.
pub struct Housed {
    /// The table as it was, and as the library is lent it.
    pub table: NewTable,
    /// Whose the entries were.
    pub owners: Owners,
    number: u64,
    /// Where the number comes from.
    said: &'static str,
    slots: Vec<Slot>,
}

impl Housed {
    /// The house that is given, or that the environment names; house 1 where neither is, as long as house 2 has no
    /// entry. A deal in which nothing stands needs no table yet.
    pub fn open(deal: &DealFile, given: Option<u64>) -> Result<Housed, Failure> {
        let said = said(given)?;
        let (old, name) = (deal.table()?, &deal.content.name);
        // A deal whose size is not allowed has none, and the library refuses it.
        let slots = survey::slots(&deal.content.bytes).unwrap_or_default();
        let owners = Owners::of(deal.home(), old.as_ref(), slots.len());
        let is_house = said.is_none_or(|(number, _)| matches!(number, 1 | 2));
        if let (Owners::Missing { .. }, true, Some(failure)) = (&owners, is_house, owners.unknown(&slots, name)) {
            return Err(failure.and("nothing is changed"));
        }
        if said.is_none() && owners.held(&slots).by(2) > 0 {
            return Err(failure::usage(format!("two houses book in {name}; nothing is changed"))
                .hint(format!("say which with --house 1 or --house 2 (or {VARIABLE})")));
        }
        let bytes = old.as_ref().map_or_else(|| vec![0; slots.len()], |old| old.bytes.clone());
        let (number, said) = said.unwrap_or((1, "--house"));
        Ok(Housed { table: NewTable { old, bytes }, owners, number, said, slots })
    }

    /// The same for a deal that is to be made, and is empty.
    pub fn of_empty(deal: &Content, given: Option<u64>) -> Result<Housed, Failure> {
        let slots = survey::slots(&deal.bytes).unwrap_or_default();
        let (bytes, (number, said)) = (vec![0; slots.len()], said(given)?.unwrap_or((1, "--house")));
        let owners = Owners::Whole { bytes: bytes.clone() };
        Ok(Housed { table: NewTable { old: None, bytes }, owners, number, said, slots })
    }

    /// Whether it is a house.
    pub fn is_house(&self) -> bool {
        matches!(self.number, 1 | 2)
    }

    /// The house as the library is told it: a number beyond a byte is neither 1 nor 2, as 255 is.
    pub fn house(&self) -> u8 {
        u8::try_from(self.number).unwrap_or(u8::MAX)
    }

    /// Adds the house to an answer that has values.
    pub fn with_house(&self, answer: Answer) -> Answer {
        answer.with_value("house", Json::Number(self.number))
    }

    /// Adds the house to a refusal over a deal, and what codes 22 and 23 are about.
    pub fn refused(&self, refusal: Refusal, answer: Answer, deal: &Content) -> Answer {
        let answer = answer.with_text(String::new(), vec![("house", Json::Number(self.number))]);
        match (refusal, self.number) {
            (Refusal::QUOTA, _) => self.quota(answer, deal),
            (Refusal::HOUSE, 1 | 2) => wrong_table(answer, &self.owners, &self.slots, &deal.name),
            (Refusal::HOUSE, number) => {
                wrong_house(answer, format!("{} says {number}, which is no house: give 1 or 2", self.said))
            }
            _ => answer,
        }
    }

    /// Adds the house to a refusal to book several files, what the codes of those that do not fit are about, and how
    /// full the deal is.
    pub fn refused_files(&self, refusals: &[Refusal], answer: Answer, deal: &Content) -> Answer {
        if refusals.contains(&Refusal::HOUSE) {
            return self.refused(Refusal::HOUSE, answer, deal);
        }
        let answer = answer.with_text(String::new(), vec![("house", Json::Number(self.number))]);
        let (held, slots) = (self.owners.held(&self.slots).by(self.house()), self.slots.len());
        let (half, house, name) = (slots / 2, self.number, &deal.name);
        let answer = match refusals.contains(&Refusal::QUOTA) {
            false => answer,
            true => {
                let hint = format!(
                    "house {house} may hold {half} of the {slots} slots of {name}, half of them, and holds {held}: it \
                     books {} more",
                    half.saturating_sub(held)
                );
                let members = vec![("held", Json::Number(held as u64)), ("hint", text(&hint))];
                answer.with_text(String::new(), members).with_hint(hint)
            }
        };
        match (&deal.metadata, held < half) {
            (None, _) => room::of_empty(answer, deal),
            (Some(_), true) => room::told(answer, deal),
            (Some(_), false) => room::told_to_house(answer, deal, self.number),
        }
    }

    /// The house that is not at work.
    pub fn other(&self) -> u64 {
        if self.number == 1 {
            2
        } else {
            1
        }
    }

    /// How many slots the house holds, and how full the deal is.
    fn quota(&self, answer: Answer, deal: &Content) -> Answer {
        let (held, slots) = (self.owners.held(&self.slots).by(self.house()), self.slots.len());
        let (house, name) = (self.number, &deal.name);
        let hint = format!(
            "house {house} holds {held} of the {slots} slots of {name}, and books while it holds fewer than half of \
             them: cancel an entry of house {house} first, or take another deal; they are shown by: vizhuthamen owner \
             {name}"
        );
        let members = vec![("held", Json::Number(held as u64)), ("hint", text(&hint))];
        room::told_to_house(answer.with_text(String::new(), members).with_hint(hint), deal, house)
    }
}

/// Adds to a refusal with code 23 that the house is wrong, and what to do.
pub fn wrong_house(answer: Answer, hint: String) -> Answer {
    wrong(answer, "house", hint)
}

/// Adds to a refusal with code 23 that the table is wrong, and what to do.
pub fn wrong_table(answer: Answer, owners: &Owners, slots: &[Slot], deal: &str) -> Answer {
    wrong(answer, "table", owners.unknown(slots, deal).map(|failure| failure.line()).unwrap_or_default())
}

fn wrong(answer: Answer, what: &str, hint: String) -> Answer {
    answer
        .with_text(String::new(), vec![("refused", Json::List(vec![text(what)])), ("hint", text(&hint))])
        .with_hint(hint)
}

/// The number of the house, and what says so.
fn said(given: Option<u64>) -> Result<Option<(u64, &'static str)>, Failure> {
    match (given, env::var_os(VARIABLE)) {
        (Some(number), _) => Ok(Some((number, "--house"))),
        (None, Some(value)) if !value.is_empty() => match value.to_str().and_then(decimal) {
            Some(number) => Ok(Some((number, VARIABLE))),
            None => Err(failure::usage(format!("{VARIABLE} is no house: {}", shown(&value))).hint("give 1 or 2")),
        },
        _ => Ok(None),
    }
}
