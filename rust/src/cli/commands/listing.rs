//! The slots of a deal with their states, as a table and for JSON.
use super::super::answer::Answer;
use super::super::args::Stream;
use super::super::failure::{self, Failure};
use super::super::files::{self, Viewed};
use super::super::json::Json;
use super::super::manifest::{Listed, Manifest, Name};
use super::super::owners::Owners;
use super::super::progress::Progress;
use super::super::survey::{self, Slot};
use super::super::table::{table, Column};
use super::{refused, text};
use vizhuthamen::{IndexNumbers, SlotState};

/// Every slot of a deal with the state that the library's audit gives it, and what lies beside the deal.
pub struct Listing {
    viewed: Viewed,
    numbers: IndexNumbers,
    slots: Vec<Slot>,
    states: Vec<SlotState>,
    owners: Owners,
    /// The manifest as it is true of the deal, where there is one.
    manifest: Option<Manifest>,
    /// Why the names of a manifest that is there are not known.
    unnamed: Option<String>,
}

impl Listing {
    /// Reads a deal, and has the library judge its slots; or the refusal of the deal.
    pub fn read(deal: &Stream) -> Result<Result<Listing, Answer>, Failure> {
        let viewed = files::read_viewed(deal)?;
        let deal = &viewed.content;
        let states = match Progress::during("reading slots", deal.bytes.len(), || vizhuthamen::audit(&deal.bytes)) {
            Ok(states) => states,
            Err(refusal) => return Ok(Err(refused(refusal, deal))),
        };
        let numbers = survey::numbers(&deal.bytes).map_err(failure::data)?;
        let slots = survey::slots(&deal.bytes).map_err(failure::data)?;
        let owners = viewed.owners(slots.len());
        let (manifest, unnamed) = match &viewed.manifest {
            Ok(manifest) => (manifest.as_ref(), None),
            Err(failure) => (None, Some(failure.line())),
        };
        let manifest = manifest.map(|manifest| manifest.renewed(&deal.bytes)).transpose().map_err(failure::data)?;
        let manifest = manifest.map(|renewed| renewed.manifest);
        Ok(Ok(Listing { viewed, numbers, slots, states, owners, manifest, unnamed }))
    }

    /// The states of the slots.
    pub fn states(&self) -> &[SlotState] {
        &self.states
    }

    /// The word that names the deal in a call.
    pub fn deal(&self) -> &str {
        self.viewed.content.operand()
    }

    /// Adds the table of the slots to an answer.
    pub fn told(&self, answer: Answer) -> Answer {
        let columns = if self.manifest.is_some() { &COLUMNS[..] } else { &COLUMNS[..COLUMNS.len() - 1] };
        let (rows, slots) = (self.each(Listing::row), self.each(Listing::object));
        let (deal, known) = (&self.viewed.content, self.viewed.known.as_ref());
        let mut members = vec![("size", Json::Number(deal.bytes.len() as u64))];
        members.extend(known.and_then(|known| known.number).map(|number| ("number", Json::Number(number))));
        members.extend(self.owners.table_members());
        members.extend([("start", Json::Number(self.numbers.start)), ("slots", Json::List(slots))]);
        answer.with_text(table(columns, &rows), members)
    }

    /// Adds what else is known of the deal, and what should be and is not.
    pub fn beside(&self, answer: Answer) -> Answer {
        let unknown = self.owners.unknown(&self.slots, &self.viewed.content.name).map(|failure| failure.line());
        let answer = unknown.iter().chain(&self.unnamed).cloned().fold(answer, Answer::with_note);
        let closed = self.viewed.known.as_ref().and_then(|known| known.closed);
        closed.into_iter().fold(answer, |answer, node| answer.with_value("closed", text(node)))
    }

    fn each<T>(&self, shown: fn(&Listing, &Slot, SlotState) -> T) -> Vec<T> {
        self.slots.iter().zip(&self.states).map(|(slot, state)| shown(self, slot, *state)).collect()
    }

    /// A slot as a row of the table.
    fn row(&self, slot: &Slot, state: SlotState) -> Vec<String> {
        let entry = slot.entry();
        let cell = |value: Option<String>| value.unwrap_or_else(|| "-".to_string());
        let names: Vec<String> = self.names(slot).iter().map(Name::shown).collect();
        vec![
            slot.number.to_string(),
            slot.place.to_string(),
            state.to_string(),
            self.owners.cell(slot),
            cell(entry.map(|entry| entry.offset.to_string())),
            cell(entry.map(|entry| entry.size.to_string())),
            cell(entry.map(|entry| entry.commitment.to_string())),
            cell((!names.is_empty()).then(|| names.join(", "))),
        ]
    }

    /// A slot for JSON.
    fn object(&self, slot: &Slot, state: SlotState) -> Json {
        let mut members = slot_members(slot, state.words(), &self.owners);
        members.extend(slot.overlaps().map(|other| ("overlaps", Json::Number(other))));
        let names = self.names(slot);
        if !names.is_empty() {
            members.push(("names", Json::List(names.iter().map(Name::json).collect())));
        }
        Json::Object(members)
    }

    /// The names that the manifest has for what a slot holds.
    fn names(&self, slot: &Slot) -> &[Name] {
        let listed = self.manifest.as_ref().and_then(|manifest| manifest.line_of(slot));
        listed.map_or(&[], |file: &Listed| &file.names)
    }
}

/// The columns of the table; the last one is there where there is a manifest.
const COLUMNS: [Column; 8] = [
    Column("slot", true),
    Column("place", true),
    Column("state", false),
    Column("owner", false),
    Column("offset", true),
    Column("size", true),
    Column("commitment", false),
    Column("name", false),
];

/// A slot for JSON, by itself.
pub fn slot_members(slot: &Slot, state: &str, owners: &Owners) -> Vec<(&'static str, Json)> {
    let mut members =
        vec![("slot", Json::Number(slot.number)), ("place", Json::Number(slot.place)), ("state", text(state))];
    members.extend(owners.members(slot));
    if let Some(entry) = slot.entry() {
        members.extend([("offset", Json::Number(entry.offset)), ("size", Json::Number(entry.size))]);
        members.push(("commitment", text(entry.commitment)));
    }
    members
}
