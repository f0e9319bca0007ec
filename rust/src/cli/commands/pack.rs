//! Packing plain files into a deal file: all bookings and the manifest in one change.
use super::super::answer::Answer;
use super::super::args::Packing;
use super::super::batch::{self, Batch, Item};
use super::super::below;
use super::super::failure::{self, Failure};
use super::super::files::{self, Content};
use super::super::gather::{self, LeftOut, Skipped};
use super::super::json::Json;
use super::super::manifest::{self, Listed, Manifest};
use super::super::progress::Steps;
use super::super::store::aside::Fill;
use super::super::store::names::{near, shown, Home};
use super::super::store::{self, Attributes, DealFile, NewDeal};
use super::super::survey;
use super::super::table::{table, Column};
use super::house::Housed;
use super::logged::{Called, Logged};
use super::records::Filled;
use super::unfit::{self, listed, Unfit};
use super::{book, fsck, number, path_of, records, refused, text};
use std::path::Path;
use vizhuthamen::{Booking, Entry, Line, Node, Position, ReadEntry, Refusal, MAX_DEAL};

/// Packs files and folders.
pub fn pack(packing: &Packing) -> Result<Answer, Failure> {
    let path = path_of(&packing.deal)?;
    let left_out = LeftOut::of(path, packing.records.as_deref(), packing.log.as_deref());
    let gathered = gather::gather(&packing.files, &left_out)?;
    // The files first: nobody is kept waiting for them.
    let batch = match Batch::read(gathered.files)? {
        Ok(batch) => batch,
        Err(too_many) => return Ok(unfit::too_many(&too_many)),
    };
    if batch.is_empty() {
        return Err(failure::usage("there is no file to pack; nothing is done"));
    }
    let there = path.try_exists().map_err(|error| files::cannot("read", &shown(path), error))?;
    let (note, planned) = match there {
        true => (None, None),
        false => match make(path, packing, &batch, &left_out.home)? {
            Ok(made) => made,
            Err(answer) => return Ok(answer),
        },
    };
    let mut deal = DealFile::open(path, packing.access)?;
    deal.open_or(packing.reopen)?;
    let number = suits(&mut deal, packing)?;
    let mut housed = Housed::open(&deal, packing.house)?;
    let mut log = Logged::open(packing.log.as_deref(), &deal)?;
    let plan = match planned.filter(|plan| plan.is_for(&deal.content.bytes, &housed)) {
        Some(plan) => plan,
        None => match Plan::of(&deal.content.bytes, &housed, &batch.items) {
            Ok(plan) => plan,
            Err(refusal) => return Ok(housed.refused(refusal, refused(refusal, &deal.content), &deal.content)),
        },
    };
    if let Some(answer) = plan.does_not_fit(&batch, &housed, &deal.content) {
        return Ok(answer);
    }
    housed.table.bytes.clone_from(&plan.table);
    log.will_get(&plan.lines(), &Called::of(&deal, &housed, &plan.bytes))?;
    let done = Done::write(&deal, &housed, plan, batch, number, packing, &mut log)?;
    let answer = log.told(done.told(&deal, &housed, &gathered.skipped, packing));
    Ok(note.into_iter().fold(answer, Answer::with_note))
}

/// Makes a deal that holds the files, as `new` does, once they are known to fit, and the log to be one for it. What
/// could not be done beside it and the plan for it, or the refusal.
#[allow(clippy::type_complexity)]
fn make(
    path: &Path,
    packing: &Packing,
    batch: &Batch,
    home: &Home,
) -> Result<Result<(Option<String>, Option<Plan>), Answer>, Failure> {
    let size = packing.size.or_else(|| batch.smallest_deal()).unwrap_or(MAX_DEAL as u64);
    if size > MAX_DEAL as u64 || vizhuthamen::index_numbers(size).is_err() {
        let note = format!("a deal has a power of two from 512 to {MAX_DEAL} bytes");
        return Ok(Err(Answer::refused(Refusal::SIZE).with_note(note)));
    }
    let empty = Content { bytes: vec![0; size as usize], name: shown(path), metadata: None };
    let housed = Housed::of_empty(&empty, packing.house)?;
    let plan = Plan::of(&empty.bytes, &housed, &batch.items).map_err(failure::data)?;
    if let Some(answer) = plan.does_not_fit(batch, &housed, &empty) {
        return Ok(Err(answer));
    }
    let table = &housed.table.bytes;
    let called = Called { deal: &empty, table, new_deal: &plan.bytes, new_table: &plan.table };
    let log = Logged::open_for(packing.log.as_deref(), home, packing.access.wait);
    let judged = log.and_then(|mut log| log.will_get(&plan.lines(), &called));
    let table = Some(&table[..]);
    let new = NewDeal { fill: Fill::Zeros(size), table, manifest: None, number: packing.number };
    match judged.and_then(|()| store::create(path, &new, Attributes::NEW)) {
        Ok(note) => Ok(Ok((note, Some(plan)))),
        // Another process has made it in the meantime.
        Err(_) if path.exists() => Ok(Ok((None, None))),
        Err(failure) => Err(failure),
    }
}

/// The number of a deal that has the size and the number that are asked for, if any are.
fn suits(deal: &mut DealFile, packing: &Packing) -> Result<Option<u64>, Failure> {
    let (name, length) = (&deal.content.name, deal.content.length());
    if let Some(size) = packing.size.filter(|size| *size != length) {
        return Err(failure::data(format!("{name} has {length} bytes, and --size says {size}; nothing is done")));
    }
    let number = number::agreed(packing.number, deal.number(), name)?;
    if packing.records.is_some() && number.is_none() {
        return Err(number::unknown(name, true));
    }
    if let Some(number) = packing.number.filter(|_| deal.number().is_none()) {
        deal.number_will_be(number);
    }
    Ok(number)
}

/// What becomes of a file.
#[derive(Clone, Copy, Debug, PartialEq, Eq)]
struct Booked {
    /// Whether it is booked now; else it was kept already.
    new: bool,
    place: u64,
    entry: Entry,
}

/// A deal with all files that fit, its tree and the table of its owners, for which house that is, and what becomes of
/// each file.
struct Plan {
    bytes: Vec<u8>,
    tree: Vec<u8>,
    table: Vec<u8>,
    house: u8,
    outcomes: Vec<Result<Booked, Refusal>>,
}

impl Plan {
    /// Books all files in memory, in their order. Refusals of the deal itself: 2, 11.
    fn of(deal: &[u8], housed: &Housed, items: &[Item]) -> Result<Plan, Refusal> {
        let tree = match vizhuthamen::filled_tree(deal) {
            Err(refusal) if housed.is_house() => return Err(refusal),
            // A house that is none is refused before the deal, as by the library.
            tree => tree.unwrap_or_default(),
        };
        let (bytes, table) = (deal.to_vec(), housed.table.bytes.clone());
        let mut plan = Plan { bytes, tree, table, house: housed.house(), outcomes: vec![] };
        let mut steps = Steps::start("booking", items.len());
        for item in items {
            let outcome = plan.book_one(&item.segment);
            plan.outcomes.push(outcome);
            steps.step();
        }
        Ok(plan)
    }

    /// Books one segment, and says where its entry is. Refusals: 23, 4, 22, 13, 14.
    fn book_one(&mut self, segment: &[u8]) -> Result<Booked, Refusal> {
        let Plan { bytes, tree, table, house, .. } = self;
        let (new, Position { place, .. }) = match vizhuthamen::book(bytes, Some(tree), table, *house, segment)? {
            Booking::Booked(position) => (true, position),
            Booking::AlreadyKept(position) => (false, position),
        };
        match vizhuthamen::read_entry(survey::slot_bytes(bytes, place))? {
            ReadEntry::Valid(entry) => Ok(Booked { new, place, entry }),
            _ => Err(Refusal::NOT_KEPT),
        }
    }

    /// Whether a plan that was made for an empty deal is one for this deal and this house.
    fn is_for(&self, deal: &[u8], housed: &Housed) -> bool {
        let empty = deal.len() == self.bytes.len() && deal.iter().all(|byte| *byte == 0);
        let table = &housed.table.bytes;
        empty && table.len() == self.table.len() && table.iter().all(|byte| *byte == 0) && self.house == housed.house()
    }

    /// The lines on its bookings, of files that all fit.
    fn lines(&self) -> Vec<Line> {
        let booked = self.outcomes.iter().filter_map(|outcome| outcome.as_ref().ok());
        let line = booked.map(|Booked { new, place, entry }| Line::Booking {
            house: self.house,
            commitment: entry.commitment,
            size: entry.size,
            code: if *new { 0 } else { Refusal::ALREADY_KEPT.code() as u8 },
            offset: entry.offset,
            place: *place,
        });
        line.collect()
    }

    /// The refusal of files that do not fit; none where all fit.
    fn does_not_fit(&self, batch: &Batch, housed: &Housed, deal: &Content) -> Option<Answer> {
        let refusals = self.outcomes.iter().map(|outcome| outcome.as_ref().err().copied());
        Unfit::of(batch, refusals).map(|unfit| unfit.told(batch, housed, deal))
    }
}

/// The commitment of a deal: the last node of its tree.
pub fn root(tree: &[u8]) -> Node {
    Node(std::array::from_fn(|i| tree[tree.len() - 32 + i]))
}

/// What was done.
struct Done {
    /// The files of this call, by place, and whether each was booked now.
    files: Vec<(bool, Listed)>,
    commitment: Node,
    number: Option<u64>,
    notes: Vec<String>,
    changed: bool,
}

impl Done {
    /// Puts the deal, the table of its owners and its manifest in place together, with the lines of the log, and writes
    /// records.
    fn write(
        deal: &DealFile,
        housed: &Housed,
        plan: Plan,
        batch: Batch,
        number: Option<u64>,
        packing: &Packing,
        log: &mut Logged,
    ) -> Result<Done, Failure> {
        let old = manifest::read(deal.path())?;
        let renewed = old.clone().unwrap_or_default().renewed(&plan.bytes).map_err(failure::data)?;
        let mut manifest = renewed.manifest;
        batch::names_agree(&manifest, &batch.items)?;
        let mut files = vec![];
        for (item, outcome) in batch.items.into_iter().zip(&plan.outcomes) {
            let Booked { new, place, entry } = outcome.map_err(failure::data)?;
            if new {
                book::spares(&deal.content, &entry, place, "pack has no --force for this: book has")?;
            }
            let file = Listed { names: item.names, length: item.length, sha256: item.sha256, place, entry };
            manifest.add(file.clone());
            files.push((new, file));
        }
        files.sort_by_key(|(_, file)| file.place);
        let built = match (&packing.records, number) {
            (Some(folder), Some(number)) => {
                let (deal, tree, manifest) = (&plan.bytes[..], &plan.tree[..], &manifest);
                records::build(folder, &Filled { deal, tree, number, manifest })?
            }
            _ => records::Built::default(),
        };
        below::judge(&built.outputs, packing.force)?;
        let changed = files.iter().any(|(new, _)| *new) || old.as_ref() != Some(&manifest) || deal.changes();
        let text = manifest.text();
        match changed {
            true => deal.replace_logged(&plan.bytes, Some(&housed.table), vec![deal.manifest(&text)?], log.file())?,
            false => log.write(deal)?,
        }
        below::write(&built.outputs, packing.force).map_err(|failure| written_but(failure, deal))?;
        let told = renewed.told.iter().map(|told| format!("the manifest: {told}"));
        let numberless = number.is_none().then(|| number::needed(&deal.content.name));
        let notes = told.chain(built.lines()).chain(numberless).collect();
        Ok(Done { files, commitment: root(&plan.tree), number, notes, changed })
    }

    /// The answer: what became of each file, and the deal as it is now.
    fn told(&self, deal: &DealFile, housed: &Housed, skipped: &[Skipped], packing: &Packing) -> Answer {
        let rows: Vec<Vec<String>> = self.files.iter().map(row).collect();
        let lines: String =
            skipped.iter().map(|file| format!("skipped {}: {}\n", file.name.shown(), file.why)).collect();
        let count = |wanted: bool| self.files.iter().filter(|(new, _)| *new == wanted).count() as u64;
        let list = self
            .files
            .iter()
            .map(|(new, file)| Json::Object([vec![("state", text(state(*new)))], file.members()].concat()));
        let members = vec![
            ("files", Json::List(list.collect())),
            ("skipped", Json::List(skipped.iter().map(Skipped::members).collect())),
        ];
        let mut answer = Answer::done("done").with_text(table(&COLUMNS, &rows) + &lines, members);
        if self.changed || packing.records.is_some() {
            answer = answer.writing();
        }
        answer = answer
            .with_value("booked", Json::Number(count(true)))
            .with_value("kept_already", Json::Number(count(false)));
        answer = housed.with_house(answer).with_value("size", Json::Number(deal.content.length()));
        answer = self.number.into_iter().fold(answer, |a, number| a.with_value("number", Json::Number(number)));
        answer = answer
            .with_value("commitment", text(self.commitment))
            .with_value("manifest", text(near(deal.home().manifest())));
        answer = packing.records.iter().fold(answer, |a, folder| a.with_value("records", fsck::file_name(folder)));
        self.notes.iter().cloned().fold(answer, Answer::with_note)
    }
}

/// A failure after the deal was changed.
fn written_but(failure: Failure, deal: &DealFile) -> Failure {
    let message = format!("{} and its manifest are written, but {}", deal.content.name, failure.message);
    Failure { message, ..failure }.hint("run the same call again: it books nothing twice")
}

/// The columns of a table of packed files.
const COLUMNS: [Column; 6] = [
    Column("state", false),
    Column("place", true),
    Column("offset", true),
    Column("size", true),
    Column("length", true),
    Column("name", false),
];

fn state(new: bool) -> &'static str {
    if new {
        "booked"
    } else {
        "kept"
    }
}

fn row((new, file): &(bool, Listed)) -> Vec<String> {
    let numbers = [file.place, file.entry.offset, file.entry.size, file.length];
    let first = [state(*new).to_string()].into_iter();
    first.chain(numbers.iter().map(u64::to_string)).chain([listed(&file.names)]).collect()
}

/// The manifest of a deal after a change of its entries, where it has one that this changes. One that cannot be
/// understood stays.
pub fn manifest_after(deal: &Path, bytes: &[u8]) -> Result<Option<Manifest>, Failure> {
    let Some(old) = manifest::read(deal)? else { return Ok(None) };
    let renewed = old.renewed(bytes).map_err(failure::data)?;
    Ok((renewed.manifest != old).then_some(renewed.manifest))
}
