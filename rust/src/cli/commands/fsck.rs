//! What is wrong with a deal.
use super::super::answer::Answer;
use super::super::args::Stream;
use super::super::failure::Failure;
use super::super::files::{Content, Source};
use super::super::json::Json;
use super::super::owners::Owners;
use super::super::progress::Progress;
use super::super::store::names::shown;
use super::super::survey::{self, area, Slot, State, Stray, Survey};
use super::listing::slot_members;
use super::{refused, text};
use std::path::Path;
use vizhuthamen::{Node, Refusal};

/// Names all that is wrong with a deal, and with what lies beside it. Nothing is changed.
pub fn fsck(deal: &Stream, wait: bool) -> Result<Answer, Failure> {
    let read = read(deal, wait)?;
    let progress = Progress::start("checking", read.deal.bytes.len());
    let survey = match survey::survey(&read.deal.bytes) {
        Ok(survey) => survey,
        Err(refusal) => return Ok(read.refused(refusal)),
    };
    let closed = read.closed;
    let changed = closed.filter(|node| vizhuthamen::commitment(&read.deal.bytes) != Ok(*node));
    drop(progress);
    let wrong = Wrong::of(&survey, &read.owners, &read.deal.name);
    let right = wrong.lines.is_empty() && read.disagrees.is_none() && changed.is_none() && read.unlisted.is_empty();
    let answer = match right {
        true => Answer::done("nothing is wrong with the deal"),
        false => Answer::damaged("something is wrong with the deal"),
    };
    let answer = disagreeing(answer, read.disagrees);
    let answer = changed.into_iter().fold(answer, |answer, node| {
        answer.with_text(format!("it was closed with the commitment {node}, and has another one now\n"), vec![])
    });
    let answer = match read.unlisted.is_empty() {
        true => answer,
        false => {
            let lines = read.unlisted.iter().map(|line| format!("the manifest: {line}\n")).collect();
            let faults = read.unlisted.iter().map(text).collect();
            answer.with_text(lines, vec![("manifest_faults", Json::List(faults))])
        }
    };
    let answer = wrong.told(answer, &survey);
    Ok(closed.into_iter().fold(answer, |answer, node| answer.with_value("closed", text(node))))
}

/// A deal that was read under its lock, and what lies beside it.
pub struct Read {
    pub deal: Content,
    /// Whose its entries are.
    pub owners: Owners,
    /// That it has another size than is known of it.
    pub disagrees: Option<String>,
    /// The commitment with which it was closed, where it is.
    closed: Option<Node>,
    /// What its manifest says that is not so.
    unlisted: Vec<String>,
}

impl Read {
    /// A refusal, with a note where the deal has another size than is known of it.
    pub fn refused(self, refusal: Refusal) -> Answer {
        self.disagrees.into_iter().fold(refused(refusal, &self.deal), Answer::with_note)
    }
}

/// What the manifest says that is not so.
fn unlisted(source: &Source) -> Vec<String> {
    match source.manifest() {
        Ok(None) => vec![],
        Ok(Some(manifest)) => manifest.renewed(&source.content().bytes).map_or(vec![], |renewed| renewed.told),
        Err(failure) => vec![failure.line()],
    }
}

/// Adds that a deal has another size than is known of it.
pub fn disagreeing(answer: Answer, disagrees: Option<String>) -> Answer {
    match disagrees {
        None => answer,
        Some(why) => answer.with_text(format!("{why}\n"), vec![("disagrees", text(why))]),
    }
}

/// Reads a deal under its lock where it is a file, and what lies beside it.
pub fn read(deal: &Stream, wait: bool) -> Result<Read, Failure> {
    let source = Source::open(deal, wait)?;
    let (disagrees, known) = match source.known() {
        Ok(known) => (None, known),
        Err(failure) => (Some(failure.line()), None),
    };
    let (closed, unlisted) = (known.and_then(|known| known.closed), unlisted(&source));
    let slots = survey::numbers(&source.content().bytes).map_or(0, |numbers| numbers.entries);
    let owners = source.owners(slots as usize);
    Ok(Read { deal: source.into_content(), owners, disagrees, closed, unlisted })
}

/// What is wrong: a line of text for each, and the same for JSON.
pub struct Wrong {
    pub lines: Vec<String>,
    stray: Vec<Json>,
    slots: Vec<Json>,
    table: Vec<(&'static str, Json)>,
    odd: Vec<Json>,
}

impl Wrong {
    /// All that is wrong with a deal and with the table of its owners. `name` is the deal's, for commands.
    pub fn of(survey: &Survey, owners: &Owners, name: &str) -> Wrong {
        let (stray, slots, odd) = (vec![], vec![], vec![]);
        let mut wrong = Wrong { lines: vec![], stray, slots, table: owners.table_members(), odd };
        for bits in &survey.stray {
            wrong.add_stray(survey, bits);
        }
        for slot in &survey.slots {
            wrong.add_slot(survey, slot, owners);
        }
        wrong.lines.extend(owners.unknown(&survey.slots, name).map(|failure| failure.line()));
        for slot in &survey.slots {
            wrong.add_owner(slot, owners, name);
        }
        wrong
    }

    fn add_stray(&mut self, survey: &Survey, stray: &Stray) {
        let Stray { offset, bits } = *stray;
        let node = offset / 32;
        let slots: Vec<u64> = survey.slots.iter().filter(|slot| covers(slot, offset)).map(|slot| slot.number).collect();
        let index = (offset >= survey.numbers.start).then(|| (offset - survey.numbers.start) / survey::ENTRY as u64);
        let whose = match (index, slots.as_slice()) {
            (Some(slot), _) => format!("in slot {slot} of the index"),
            (None, []) => "in no entry's area".to_string(),
            (None, slots) => {
                let numbers: Vec<String> = slots.iter().map(u64::to_string).collect();
                format!("in the area of slot {}", numbers.join(", "))
            }
        };
        self.lines.push(format!("stray bits {bits:#04x} at byte {offset}, node {node}, {whose}"));
        let numbers = slots.into_iter().map(Json::Number).collect();
        let mut members = vec![
            ("offset", Json::Number(offset)),
            ("bits", Json::Number(u64::from(bits))),
            ("node", Json::Number(node)),
            ("slots", Json::List(numbers)),
        ];
        members.extend(index.map(|slot| ("index_slot", Json::Number(slot))));
        self.stray.push(Json::Object(members));
    }

    fn add_slot(&mut self, survey: &Survey, slot: &Slot, owners: &Owners) {
        for (state, why) in states(survey, slot) {
            self.lines.push(format!("slot {} (place {}) is {state}: {why}", slot.number, slot.place));
            self.slots.push(wrong_slot(slot, state, owners));
        }
    }

    fn add_owner(&mut self, slot: &Slot, owners: &Owners, name: &str) {
        if let Some((owner, why)) = owners.odd(slot) {
            let Slot { number, place, .. } = slot;
            let byte = owner.0;
            self.lines.push(format!(
                "slot {number} (place {place}) has the owner byte {byte}: {why}; 0 is put there by: vizhuthamen owner \
                 {name} 0"
            ));
            self.odd.push(Json::Object(vec![
                ("slot", Json::Number(*number)),
                ("place", Json::Number(*place)),
                ("state", text(slot.alone())),
                ("owner_byte", Json::Number(u64::from(byte))),
            ]));
        }
    }

    /// Adds what is wrong to an answer, with the numbers of slots.
    pub fn told(self, answer: Answer, survey: &Survey) -> Answer {
        let count = |wanted: fn(&Slot) -> bool| survey.slots.iter().filter(|slot| wanted(slot)).count() as u64;
        let kept = count(|slot| slot.kept().is_some());
        let blank = count(|slot| slot.state == State::Blank);
        let mut lines = self.lines.join("\n");
        if !lines.is_empty() {
            lines.push('\n');
        }
        lines.push_str(&format!("{kept} of {} slots kept, {blank} blank\n", survey.slots.len()));
        let members = vec![
            ("entries", Json::Number(survey.slots.len() as u64)),
            ("kept", Json::Number(kept)),
            ("blank", Json::Number(blank)),
            ("stray", Json::List(self.stray)),
            ("wrong", Json::List(self.slots)),
        ];
        answer.with_text(lines, [members, self.table, vec![("owner_bytes", Json::List(self.odd))]].concat())
    }
}

/// A slot that is not in order, for JSON.
pub fn wrong_slot(slot: &Slot, state: &str, owners: &Owners) -> Json {
    let mut members = slot_members(slot, state, owners);
    members.extend(slot.overlaps().map(|other| ("overlaps", Json::Number(other))));
    Json::Object(members)
}

/// Whether the area of a slot's entry, which stands, has a byte.
fn covers(slot: &Slot, offset: u64) -> bool {
    slot.standing().is_some_and(|entry| (entry.offset..entry.offset + area(entry.size)).contains(&offset))
}

/// What is wrong with a slot: words, and the reason.
fn states(survey: &Survey, slot: &Slot) -> Vec<(&'static str, String)> {
    let mut states = vec![];
    match slot.state {
        State::Blank => {}
        State::Damaged => states.push(("damaged", "its checksum is wrong".to_string())),
        State::Valid(entry) => {
            let why = format!("size {} or offset {} is not allowed in this deal", entry.size, entry.offset);
            states.push(("not standing", why));
        }
        State::Standing { entry, kept, overlaps } => {
            if let Some(other) = overlaps {
                states.push(("overlapping", format!("its area is also that of slot {other}")));
            }
            let strayed = survey.stray.iter().any(|stray| covers(slot, stray.offset));
            let at = format!("the {} bytes at offset {}", area(entry.size), entry.offset);
            match (kept, strayed) {
                (true, _) => {}
                (false, true) => states.push(("not kept", format!("{at} have stray bits"))),
                (false, false) => states.push(("not kept", format!("{at} have another commitment"))),
            }
        }
    }
    states
}

/// The name of a file in an answer.
pub fn file_name(path: &Path) -> Json {
    text(shown(path))
}
