//! Whose the entries of a deal are, by the table that lies beside it.
use super::failure::{self, Failure};
use super::json::Json;
use super::store::names::{near, Home};
use super::store::OwnerTable;
use super::survey::{Slot, State};

/// The owner byte of a slot: 1 or 2 for a house, anything else for nobody.
#[derive(Clone, Copy, Debug, PartialEq, Eq)]
pub struct Owner(pub u8);

impl Owner {
    /// The house; 0 is nobody.
    pub fn house(self) -> u8 {
        if self.is_house() {
            self.0
        } else {
            0
        }
    }

    /// Whether it is a house's.
    pub fn is_house(self) -> bool {
        matches!(self.0, 1 | 2)
    }

    /// Whether no call of this program gives a slot this byte.
    pub fn is_odd(self) -> bool {
        self.0 > 2
    }

    /// The owner in a word: the house, or nobody, with the byte where it is not 0.
    pub fn word(self) -> String {
        match self.0 {
            0 => "nobody".to_string(),
            1 | 2 => self.0.to_string(),
            byte => format!("nobody({byte})"),
        }
    }

    /// Whose the entry is, in a sentence.
    pub fn whose(self) -> String {
        match self.is_house() {
            true => format!("house {}'s", self.0),
            false => "nobody's".to_string(),
        }
    }

    /// The owner for JSON: 1, 2, or 0 for nobody, and the byte where it is none of these.
    pub fn members(self) -> Vec<(&'static str, Json)> {
        let number = |byte: u8| Json::Number(u64::from(byte));
        let mut members = vec![("owner", number(self.house()))];
        if self.is_odd() {
            members.push(("owner_byte", number(self.0)));
        }
        members
    }
}

/// What is known of the owners of a deal's slots.
#[derive(Debug)]
pub enum Owners {
    /// Nothing, and nothing is missing: nothing lies beside a deal that is no file.
    Nowhere,
    /// The table cannot be read.
    Unreadable { why: Failure },
    /// There is no table with this name.
    Missing { file: String },
    /// The table has another length than one byte a slot.
    WrongLength { file: String, length: u64 },
    /// One byte a slot.
    Whole { bytes: Vec<u8> },
}

impl Owners {
    /// The owners of a deal that has so many slots, by what lies beside it.
    pub fn of(home: &Home, table: Option<&OwnerTable>, slots: usize) -> Owners {
        let file = || near(home.table());
        match table {
            None => Owners::Missing { file: file() },
            Some(table) if table.bytes.len() == slots => Owners::Whole { bytes: table.bytes.clone() },
            Some(table) => Owners::WrongLength { file: file(), length: table.length() },
        }
    }

    /// The same where the table may not have been read.
    pub fn read(home: &Home, table: &Result<Option<OwnerTable>, Failure>, slots: usize) -> Owners {
        match table {
            Ok(table) => Owners::of(home, table.as_ref(), slots),
            Err(failure) => Owners::Unreadable { why: failure.clone() },
        }
    }

    /// The byte of a slot, whatever the slot holds.
    fn byte(&self, slot: &Slot) -> Option<Owner> {
        match self {
            Owners::Whole { bytes } => bytes.get(slot.number as usize).map(|byte| Owner(*byte)),
            _ => None,
        }
    }

    /// The owner of the entry that stands in a slot, where it is known.
    pub fn of_slot(&self, slot: &Slot) -> Option<Owner> {
        slot.standing().and_then(|_| self.byte(slot))
    }

    /// How many of the slots each house holds, where it is known.
    pub fn held(&self, slots: &[Slot]) -> Held {
        match self {
            Owners::Whole { bytes } => Held::of(slots, bytes),
            _ => Held { houses: [0, 0], nobody: 0 },
        }
    }

    /// The owner in a table of slots: of no entry, not known, or a word.
    pub fn cell(&self, slot: &Slot) -> String {
        match (slot.standing(), self.of_slot(slot)) {
            (None, _) => "-".to_string(),
            (Some(_), None) => "?".to_string(),
            (Some(_), Some(owner)) => owner.word(),
        }
    }

    /// The owner of a slot's entry for JSON, where it stands and it is known.
    pub fn members(&self, slot: &Slot) -> Vec<(&'static str, Json)> {
        self.of_slot(slot).map(Owner::members).unwrap_or_default()
    }

    /// What lies beside the deal, for JSON: a word, and the length where it is wrong.
    pub fn table_members(&self) -> Vec<(&'static str, Json)> {
        let word = |word: &str| ("table", Json::Text(word.to_string()));
        match self {
            Owners::Nowhere => vec![],
            Owners::Unreadable { .. } => vec![word("unreadable")],
            Owners::Missing { .. } => vec![word("missing")],
            Owners::WrongLength { length, .. } => vec![word("wrong length"), ("table_bytes", Json::Number(*length))],
            Owners::Whole { .. } => vec![word("whole")],
        }
    }

    /// Why the owners of these slots are not known, and what to do; of a table that is missing only where some entry
    /// stands. `deal` is the name for commands.
    pub fn unknown(&self, slots: &[Slot], deal: &str) -> Option<Failure> {
        let standing = slots.iter().filter(|slot| slot.standing().is_some()).count();
        match self {
            Owners::Unreadable { why } => Some(why.clone()),
            Owners::Missing { file } if standing > 0 => Some(missing(file, standing, deal)),
            Owners::WrongLength { file, length } => Some(wrong_length(file, *length, slots.len(), deal)),
            _ => None,
        }
    }

    /// What is odd about a slot's byte: one that no call of this program writes, or a house's where no entry was.
    pub fn odd(&self, slot: &Slot) -> Option<(Owner, String)> {
        let owner = self.byte(slot)?;
        let why = match (slot.state, owner) {
            (State::Standing { .. }, owner) if owner.is_odd() => "its entry is nobody's",
            (_, owner) if owner.is_odd() => "no entry stands there",
            (State::Blank, owner) if owner.is_house() => "the slot is blank",
            _ => return None,
        };
        Some((owner, why.to_string()))
    }
}

/// There is no table, and entries stand.
fn missing(file: &str, standing: usize, deal: &str) -> Failure {
    let entries = if standing == 1 { "an entry stands".to_string() } else { format!("{standing} entries stand") };
    failure::data(format!("{file} is not there, and {entries} in {deal}: whose is not known"))
        .hint(format!("if {deal} is a copy, copy that table too"))
        .hint(format!("else say whose they are: vizhuthamen owner {deal} HOUSE [PLACE...] (0 for nobody)"))
}

/// The table has not one byte a slot.
fn wrong_length(file: &str, length: u64, slots: usize, deal: &str) -> Failure {
    failure::data(format!("{file} has {length} bytes, and {deal} has {slots} slots, with a byte each")).hint(format!(
        "bring back the right table, or remove it and say whose the entries are: vizhuthamen owner {deal} HOUSE \
         [PLACE...]"
    ))
}

/// How many of the slots each house holds, and how many entries are nobody's.
#[derive(Clone, Copy, Debug, PartialEq, Eq)]
pub struct Held {
    pub houses: [usize; 2],
    pub nobody: usize,
}

impl Held {
    /// The counts over the slots whose entries stand.
    pub fn of(slots: &[Slot], bytes: &[u8]) -> Held {
        let standing = slots.iter().filter(|slot| slot.standing().is_some());
        let owners: Vec<u8> = standing.filter_map(|slot| bytes.get(slot.number as usize).copied()).collect();
        let count = |wanted: u8| owners.iter().filter(|byte| Owner(**byte).house() == wanted).count();
        Held { houses: [count(1), count(2)], nobody: count(0) }
    }

    /// How many a house holds.
    pub fn by(&self, house: u8) -> usize {
        match house {
            1 | 2 => self.houses[usize::from(house) - 1],
            _ => self.nobody,
        }
    }
}

#[cfg(test)]
mod tests {
    use super::*;

    fn slot(number: u64, state: State) -> Slot {
        Slot { number, place: 768 + 64 * number, state }
    }

    fn standing(number: u64) -> Slot {
        let entry = vizhuthamen::Entry { commitment: vizhuthamen::Node([0; 32]), offset: 0, size: 1 };
        slot(number, State::Standing { entry, kept: false, overlaps: None })
    }

    #[test]
    fn every_byte() {
        for byte in 0..=255 {
            let owner = Owner(byte);
            assert_eq!(owner.is_house(), byte == 1 || byte == 2);
            assert_eq!(owner.house(), if owner.is_house() { byte } else { 0 });
            assert_eq!(owner.is_odd(), byte > 2);
            assert_eq!(owner.members().len(), 1 + usize::from(byte > 2));
        }
        assert_eq!([0, 1, 2, 7].map(|byte| Owner(byte).word()), ["nobody", "1", "2", "nobody(7)"]);
    }

    #[test]
    fn bytes_count_where_entries_stand() {
        let slots =
            [standing(0), slot(1, State::Damaged), standing(2), slot(3, State::Blank), standing(4), standing(5)];
        let held = Held::of(&slots, &[2, 1, 1, 1, 7, 0]);
        assert_eq!((held, held.by(1), held.by(2)), (Held { houses: [1, 1], nobody: 2 }, 1, 1));
        let owners = Owners::Whole { bytes: vec![2, 1, 1, 1, 7, 0] };
        let cells: Vec<String> = slots.iter().map(|slot| owners.cell(slot)).collect();
        assert_eq!(cells, ["2", "-", "1", "-", "nobody(7)", "nobody"]);
        let odd: Vec<u64> = slots.iter().filter(|slot| owners.odd(slot).is_some()).map(|slot| slot.number).collect();
        assert_eq!(odd, [3, 4]); // a damaged slot's byte is that of the entry which it held
        let missing = Owners::Missing { file: "t".to_string() };
        assert_eq!((missing.cell(&slots[0]), missing.cell(&slots[1])), ("?".to_string(), "-".to_string()));
    }
}
