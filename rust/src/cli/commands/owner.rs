//! Whose the entries of a deal are: shown, and said where the table of its owners does not say it.
use super::super::answer::Answer;
use super::super::args::{Give, Stream};
use super::super::failure::{self, Failure};
use super::super::files;
use super::super::json::Json;
use super::super::owners::{Held, Owner, Owners};
use super::super::store::{Access, DealFile, NewTable};
use super::super::survey::{self, Slot, State};
use super::super::table::{table, Column};
use super::house::{wrong_house, wrong_table};
use super::{path_of, place_in, refused, text};
use vizhuthamen::Refusal;

/// Shows the owner of every entry that stands.
pub fn show(deal: &Stream) -> Result<Answer, Failure> {
    path_of(deal)?;
    let viewed = files::read_viewed(deal)?;
    let slots = match survey::slots(&viewed.content.bytes) {
        Ok(slots) => slots,
        Err(refusal) => return Ok(refused(refusal, &viewed.content)),
    };
    let owners = viewed.owners(slots.len());
    let name = &viewed.content.name;
    match (&owners, owners.unknown(&slots, name)) {
        (Owners::Whole { bytes }, _) => Ok(told(Answer::done("done"), &slots, bytes)),
        (Owners::WrongLength { .. }, _) => Ok(wrong_table(Answer::refused(Refusal::HOUSE), &owners, &slots, name)),
        (_, Some(failure)) => Err(failure),
        (_, None) => Ok(told(Answer::done("done"), &slots, &vec![0; slots.len()])),
    }
}

/// Gives entries to a house, or to nobody, under the deal's lock: all that are asked for or none.
pub fn give(deal: &Stream, give: &Give, wait: bool) -> Result<Answer, Failure> {
    let deal = DealFile::open(path_of(deal)?, Access { wait, new_owner: false })?;
    let (name, old) = (&deal.content.name, deal.table()?);
    let house = match u8::try_from(give.house) {
        Ok(house @ 0..=2) => house,
        _ => {
            let hint = format!("{} is no house: give 1 or 2, or 0 for nobody", give.house);
            return Ok(wrong_house(Answer::refused(Refusal::HOUSE), hint));
        }
    };
    let slots = match survey::slots(&deal.content.bytes) {
        Ok(slots) => slots,
        Err(refusal) => return Ok(refused(refusal, &deal.content)),
    };
    let bytes = match (Owners::of(deal.home(), old.as_ref(), slots.len()), &old) {
        (owners @ Owners::WrongLength { .. }, _) => {
            return Ok(wrong_table(Answer::refused(Refusal::HOUSE), &owners, &slots, name));
        }
        (_, Some(old)) => old.bytes.clone(),
        (_, None) => vec![0; slots.len()],
    };
    let places: Vec<u64> = give.at.iter().map(|at| place_in(&deal.content.bytes, *at)).collect();
    let given = match given(&slots, &bytes, give, &places, name)? {
        Ok(given) => given,
        Err((refusal, slot)) => {
            let note = slot.map(|slot| format!("{}; see: vizhuthamen list {name}", slot.described()));
            return Ok(note.into_iter().fold(refused(refusal, &deal.content), Answer::with_note));
        }
    };
    let new = with_owners(&slots, &bytes, &given, house, places.is_empty());
    let answer = match old.as_ref().is_some_and(|old| old.bytes == new) {
        true => Answer::done("done"),
        false => {
            deal.put_table(&NewTable { old, bytes: new.clone() })?;
            Answer::done("done").writing()
        }
    };
    Ok(full(told(answer, &slots, &new), &slots, &new, house))
}

/// The slots whose entries change hands, or the refusal of a place with what stands there. An entry that is another
/// house's, or not that of the house that is meant, is a failure.
type Given = Result<Vec<usize>, (Refusal, Option<Slot>)>;

fn given(slots: &[Slot], bytes: &[u8], give: &Give, places: &[u64], name: &str) -> Result<Given, Failure> {
    let meant = give.instead_of.unwrap_or(0);
    let owner = |slot: &Slot| u64::from(Owner(bytes[slot.number as usize]).house());
    if places.is_empty() {
        let all = slots.iter().filter(|slot| slot.standing().is_some() && owner(slot) == meant);
        return Ok(Ok(all.map(|slot| slot.number as usize).collect()));
    }
    let mut given = vec![];
    for place in places {
        let slot = match slots.iter().find(|slot| slot.place == *place) {
            None => return Ok(Err((Refusal::PLACE, None))),
            Some(slot) if slot.standing().is_none() => return Ok(Err((Refusal::NOT_KEPT, Some(*slot)))),
            Some(slot) => slot,
        };
        if owner(slot) != meant && owner(slot) != give.house {
            return Err(another_house(slot, Owner(bytes[slot.number as usize]), give, name));
        }
        given.push(slot.number as usize);
    }
    Ok(Ok(given))
}

/// The entry of a slot is not that of the house that is meant.
fn another_house(slot: &Slot, owner: Owner, give: &Give, name: &str) -> Failure {
    let (house, place, is) = (give.house, slot.place, owner.house());
    let meant = match give.instead_of {
        Some(meant) => format!(", and --instead-of says {meant}"),
        None => String::new(),
    };
    let right = match is {
        0 => format!("vizhuthamen owner {name} {house} {place}"),
        is => format!("vizhuthamen owner {name} {house} {place} --instead-of {is}"),
    };
    failure::data(format!("the entry at place {place} is {}{meant}; nothing is changed", owner.whose()))
        .hint(format!("if that is right: {right}"))
}

/// The table with another owner for these slots. Where nobody gets all that is nobody's, bytes that count for nothing
/// become 0: those that are no house's, and those of blank slots.
fn with_owners(slots: &[Slot], bytes: &[u8], given: &[usize], house: u8, all: bool) -> Vec<u8> {
    let mut new = bytes.to_vec();
    given.iter().for_each(|slot| new[*slot] = house);
    if house == 0 && all {
        let empty =
            slots.iter().filter(|slot| slot.state == State::Blank || Owner(bytes[slot.number as usize]).is_odd());
        empty.for_each(|slot| new[slot.number as usize] = 0);
    }
    new
}

/// Adds a note where a house holds so many slots that it cannot book.
fn full(answer: Answer, slots: &[Slot], bytes: &[u8], house: u8) -> Answer {
    let held = Held::of(slots, bytes).by(house);
    match house != 0 && 2 * held >= slots.len() {
        true => {
            answer.with_note(format!("house {house} holds half the slots or more: it cannot book until it holds fewer"))
        }
        false => answer,
    }
}

/// The columns of a table of owners.
const OWNER_COLUMNS: [Column; 5] = [
    Column("slot", true),
    Column("place", true),
    Column("owner", false),
    Column("size", true),
    Column("commitment", false),
];

/// Adds the owner of every entry that stands, and how many slots each house holds.
fn told(answer: Answer, slots: &[Slot], bytes: &[u8]) -> Answer {
    let (mut rows, mut owners) = (vec![], vec![]);
    for (slot, entry) in slots.iter().filter_map(|slot| Some((slot, slot.standing()?))) {
        let owner = Owner(bytes[slot.number as usize]);
        let (number, place, size) = (slot.number, slot.place, entry.size);
        let commitment = entry.commitment.to_string();
        rows.push(vec![number.to_string(), place.to_string(), owner.word(), size.to_string(), commitment.clone()]);
        let mut members = vec![("slot", Json::Number(number)), ("place", Json::Number(place))];
        members.extend(owner.members());
        members.extend([("size", Json::Number(size)), ("commitment", text(commitment))]);
        owners.push(Json::Object(members));
    }
    let Held { houses: [first, second], nobody } = Held::of(slots, bytes);
    let slots = slots.len();
    let counts =
        format!("of {slots} slots house 1 holds {first} and house 2 holds {second}; {nobody} entries are nobody's\n");
    let number = |count: usize| Json::Number(count as u64);
    let members = vec![
        ("entries", number(slots)),
        ("house_1", number(first)),
        ("house_2", number(second)),
        ("nobody", number(nobody)),
        ("owners", Json::List(owners)),
    ];
    answer.with_text(table(&OWNER_COLUMNS, &rows) + &counts, members)
}
