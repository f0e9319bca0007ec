//! What the slots of a deal hold, whatever the deal's bytes are. The library is asked of each slot and of each area
//! alone, so that stray bits in one place hide nothing elsewhere, and each area is hashed once however many entries
//! name it.
use std::collections::{BTreeSet, HashMap};
use vizhuthamen::{Entry, IndexNumbers, Node, ReadEntry, Refusal, SlotState, MAX_DEAL};

/// The bytes of a node, and of an entry.
const NODE: usize = 32;
pub const ENTRY: usize = 64;

/// The bits of a node's last byte that are stray where they are set.
const STRAY: u8 = 0xc0;

/// Stray bits: the byte of the deal that has them, and which they are.
#[derive(Clone, Copy, Debug, PartialEq, Eq)]
pub struct Stray {
    pub offset: u64,
    pub bits: u8,
}

/// What a slot holds.
#[derive(Clone, Copy, Debug, PartialEq, Eq)]
pub enum State {
    Blank,
    Damaged,
    /// The checksum is right, but the size or the offset is not allowed.
    Valid(Entry),
    /// The entry stands; whether it is kept, and the lowest slot below that has an entry whose area overlaps.
    Standing {
        entry: Entry,
        kept: bool,
        overlaps: Option<u64>,
    },
}

/// A slot: its number, its entry place, and what it holds.
#[derive(Clone, Copy, Debug, PartialEq, Eq)]
pub struct Slot {
    pub number: u64,
    pub place: u64,
    pub state: State,
}

impl Slot {
    /// The entry, where the checksum is right.
    pub fn entry(&self) -> Option<Entry> {
        match self.state {
            State::Valid(entry) | State::Standing { entry, .. } => Some(entry),
            State::Blank | State::Damaged => None,
        }
    }

    /// The entry, where it stands.
    pub fn standing(&self) -> Option<Entry> {
        match self.state {
            State::Standing { entry, .. } => Some(entry),
            _ => None,
        }
    }

    /// The state that the library's audit gives the slot where it overlaps none.
    pub fn alone(&self) -> SlotState {
        match self.state {
            State::Blank => SlotState::Blank,
            State::Damaged => SlotState::Damaged,
            State::Valid(_) => SlotState::NotStanding,
            State::Standing { kept: false, .. } => SlotState::WrongCommitment,
            State::Standing { kept: true, .. } => SlotState::Kept,
        }
    }

    /// The slot and what it holds, for messages.
    pub fn described(&self) -> String {
        let holds = match self.state {
            State::Blank => "is blank",
            State::Damaged => "is damaged",
            State::Valid(_) => "holds an entry that does not stand",
            State::Standing { .. } => "holds an entry that stands",
        };
        format!("slot {} (place {}) {holds}", self.number, self.place)
    }

    /// Whether it is not blank and no entry stands: what it held may be a customer's.
    pub fn unsound(&self) -> bool {
        matches!(self.state, State::Damaged | State::Valid(_))
    }

    /// The lowest slot below that has an entry whose area overlaps.
    pub fn overlaps(&self) -> Option<u64> {
        match self.state {
            State::Standing { overlaps, .. } => overlaps,
            _ => None,
        }
    }

    /// The entry, where it is kept.
    pub fn kept(&self) -> Option<Entry> {
        match self.state {
            State::Standing { entry, kept: true, .. } => Some(entry),
            _ => None,
        }
    }
}

/// The stray bits and the slots of a deal, by rising offsets and places.
#[derive(Debug)]
pub struct Survey {
    pub numbers: IndexNumbers,
    pub stray: Vec<Stray>,
    pub slots: Vec<Slot>,
}

/// The index numbers of a deal. Refusals: 2.
pub fn numbers(deal: &[u8]) -> Result<IndexNumbers, Refusal> {
    match deal.len() <= MAX_DEAL {
        true => vizhuthamen::index_numbers(deal.len() as u64),
        false => Err(Refusal::SIZE),
    }
}

/// The smallest power of two at or above both a size and 128. The size is allowed in some deal.
pub fn area(size: u64) -> u64 {
    size.max(128).next_power_of_two()
}

/// Whether size and offset of an entry are allowed in a deal, so that it stands where its checksum is right.
pub fn allowed(deal: &[u8], numbers: &IndexNumbers, offset: u64, size: u64) -> bool {
    let half = deal.len() as u64 / 2;
    (1..=half).contains(&size)
        && offset.is_multiple_of(area(size))
        && numbers.start.checked_sub(area(size)).is_some_and(|last| offset <= last)
}

/// Whether the areas of two entries that stand overlap.
pub fn overlap(a: &Entry, b: &Entry) -> bool {
    a.offset < b.offset + area(b.size) && b.offset < a.offset + area(a.size)
}

/// The bytes of the deal that have stray bits.
pub fn stray(deal: &[u8]) -> Vec<Stray> {
    let last = deal.iter().enumerate().skip(NODE - 1).step_by(NODE);
    last.filter(|(_, byte)| *byte & STRAY != 0)
        .map(|(i, byte)| Stray { offset: i as u64, bits: byte & STRAY })
        .collect()
}

/// The 64 bytes of the slot at a place.
pub fn slot_bytes(deal: &[u8], place: u64) -> &[u8] {
    &deal[place as usize..][..ENTRY]
}

/// What every slot of a deal holds, and its stray bits. Refusals: 2.
pub fn survey(deal: &[u8]) -> Result<Survey, Refusal> {
    let numbers = numbers(deal)?;
    let mut slots = slots(deal)?;
    judge_kept(deal, &mut slots);
    Ok(Survey { numbers, stray: stray(deal), slots })
}

/// The slots by their own bytes, without hashing: no entry is said to be kept. Refusals: 2.
pub fn slots(deal: &[u8]) -> Result<Vec<Slot>, Refusal> {
    let numbers = numbers(deal)?;
    let mut slots: Vec<Slot> = vec![];
    for number in 0..numbers.entries {
        let place = numbers.start + ENTRY as u64 * number;
        let state = match vizhuthamen::read_entry(slot_bytes(deal, place))? {
            ReadEntry::Blank => State::Blank,
            ReadEntry::Damaged => State::Damaged,
            ReadEntry::Valid(entry) if allowed(deal, &numbers, entry.offset, entry.size) => {
                let over = slots.iter().find(|slot| slot.standing().is_some_and(|other| overlap(&entry, &other)));
                State::Standing { entry, kept: false, overlaps: over.map(|slot| slot.number) }
            }
            ReadEntry::Valid(entry) => State::Valid(entry),
        };
        slots.push(Slot { number, place, state });
    }
    Ok(slots)
}

/// The slot at a place, by its own bytes and without hashing. Refusals: 2, 6.
pub fn slot_at(deal: &[u8], place: u64) -> Result<Slot, Refusal> {
    slots(deal)?.into_iter().find(|slot| slot.place == place).ok_or(Refusal::PLACE)
}

/// Fills in which entries are kept.
fn judge_kept(deal: &[u8], slots: &mut [Slot]) {
    let wanted = slots.iter().filter_map(Slot::standing).map(|entry| (entry.offset, area(entry.size)));
    let mut areas = Areas::new(deal, wanted);
    for slot in slots {
        if let State::Standing { entry, kept, .. } = &mut slot.state {
            *kept = areas.commitment(entry.offset, area(entry.size)) == Some(entry.commitment);
        }
    }
}

/// The commitments of areas of a deal, each node hashed once. An area within which another is wanted is hashed from its
/// halves.
struct Areas<'d> {
    deal: &'d [u8],
    wanted: BTreeSet<(u64, u64)>,
    known: HashMap<(u64, u64), Option<Node>>,
}

impl<'d> Areas<'d> {
    fn new(deal: &'d [u8], wanted: impl Iterator<Item = (u64, u64)>) -> Areas<'d> {
        Areas { deal, wanted: wanted.collect(), known: HashMap::new() }
    }

    /// The commitment of an area; none where it has stray bits.
    fn commitment(&mut self, offset: u64, area: u64) -> Option<Node> {
        if let Some(known) = self.known.get(&(offset, area)) {
            return *known;
        }
        let mut within = self.wanted.range((offset, 0)..(offset + area, 0));
        let found = match within.any(|(_, other)| *other < area) {
            true => {
                let half = area / 2;
                let halves = (self.commitment(offset, half), self.commitment(offset + half, half));
                above(halves.0, halves.1)
            }
            false => vizhuthamen::commitment(&self.deal[offset as usize..][..area as usize]).ok(),
        };
        self.known.insert((offset, area), found);
        found
    }
}

/// The node above two.
fn above(left: Option<Node>, right: Option<Node>) -> Option<Node> {
    vizhuthamen::commitment(&[left?.0, right?.0].concat()).ok()
}

/// The commitments of all areas of a deal, from 128 bytes to half of it; none where an area has stray bits.
#[derive(Debug)]
pub struct Tree(Vec<Vec<Option<Node>>>);

impl Tree {
    /// Hashes the whole deal once.
    pub fn of(deal: &[u8]) -> Tree {
        let mut level: Vec<Option<Node>> = deal.chunks(128).map(|bytes| vizhuthamen::commitment(bytes).ok()).collect();
        let mut levels = vec![];
        while level.len() > 1 {
            let next = level.chunks(2).map(|pair| above(pair[0], pair[1])).collect();
            levels.push(std::mem::replace(&mut level, next));
        }
        Tree(levels)
    }

    /// The commitment of the area at an offset, which is a multiple of it.
    pub fn commitment(&self, offset: u64, area: u64) -> Option<Node> {
        let level = self.0.get((area / 128).ilog2() as usize)?;
        *level.get((offset / area) as usize)?
    }

    /// The areas below the index that have a commitment: offset and area, by rising area and offset.
    pub fn search(&self, numbers: &IndexNumbers, wanted: &Node) -> Vec<(u64, u64)> {
        let places = self.0.iter().enumerate().flat_map(|(height, level)| {
            let area = 128 << height;
            let here = level.iter().enumerate().filter(|(_, node)| node.as_ref() == Some(wanted));
            here.map(move |(i, _)| (i as u64 * area, area))
        });
        places.filter(|(offset, area)| offset + area <= numbers.start).collect()
    }
}

#[cfg(test)]
mod tests {
    use super::*;
    use vizhuthamen::{audit, book, commitment, make_entry};

    /// Bytes that look random, without stray bits; others for every seed.
    pub fn noise(seed: u64, length: usize) -> Vec<u8> {
        let mut state = seed.wrapping_mul(0x9e37_79b9_7f4a_7c15) | 1;
        let mut bytes: Vec<u8> = std::iter::repeat_with(|| {
            state ^= state << 13;
            state ^= state >> 7;
            state ^= state << 17;
            (state >> 32) as u8
        })
        .take(length)
        .collect();
        bytes.iter_mut().skip(31).step_by(32).for_each(|byte| *byte &= !STRAY);
        bytes
    }

    /// Asserts that every slot is in the state that the library's audit gives it. One that overlaps a lower slot may be
    /// kept or not: it is what it is alone where the others are blank.
    fn assert_audited(deal: &[u8]) {
        for (slot, state) in survey(deal).unwrap().slots.iter().zip(audit(deal).unwrap()) {
            assert_eq!(
                if slot.overlaps().is_some() { SlotState::Overlapping } else { slot.alone() },
                state,
                "{slot:?}"
            );
            let mut others = deal.to_vec();
            others[deal.len() - 256..slot.place as usize].fill(0);
            others[slot.place as usize + ENTRY..].fill(0);
            assert_eq!(slot.alone(), audit(&others).unwrap()[slot.number as usize], "{slot:?}");
        }
    }

    #[test]
    fn every_slot_is_what_the_library_says_of_it() {
        let sizes = [0, 1, 127, 128, 129, 255, 256, 257, 511, 512, 513, 1024, 1025, u64::MAX];
        let offsets = [0, 1, 64, 128, 192, 256, 384, 512, 640, 768, 896, 1024, 1280, 1536, 1792, 1920, u64::MAX - 127];
        let deals = [noise(1, 2048), vec![0; 2048]];
        let (mut kept, mut standing) = (0, 0);
        for (i, offset) in offsets.into_iter().enumerate() {
            for (j, pair) in sizes.chunks(2).enumerate() {
                let mut deal = deals[(i + j) % 2].clone();
                deal[1792..].fill(0);
                for (slot, size) in pair.iter().enumerate() {
                    let bytes =
                        deal.get(offset as usize..).and_then(|rest| rest.get(..area((*size).min(1024)) as usize));
                    let node = bytes.and_then(|bytes| commitment(bytes).ok()).unwrap_or_default();
                    let entry = make_entry(node.as_ref(), offset, *size).unwrap();
                    deal[1792 + 64 * slot..][..64].copy_from_slice(&entry);
                    deal[1920 + 64 * slot..][..64].copy_from_slice(&make_entry(&[1; 32], offset, *size).unwrap());
                }
                deal[1792 + 64] ^= (j % 2) as u8;
                assert_audited(&deal);
                let slots = survey(&deal).unwrap().slots;
                kept += slots.iter().filter(|slot| slot.kept().is_some()).count();
                standing += slots.iter().filter(|slot| slot.standing().is_some()).count();
            }
        }
        assert!(kept > 20 && standing > kept + 20, "{kept} {standing}");
    }

    #[test]
    fn areas_within_areas_are_hashed_from_their_halves() {
        let deal = noise(2, 4096);
        let all = |areas: &mut Areas| {
            for area in [128, 256, 512, 1024, 2048] {
                for offset in (0..4096).step_by(area) {
                    let expected = commitment(&deal[offset..][..area]).ok();
                    assert_eq!(areas.commitment(offset as u64, area as u64), expected);
                }
            }
        };
        all(&mut Areas::new(&deal, std::iter::empty()));
        all(&mut Areas::new(&deal, [(0, 128), (1024, 256), (0, 2048), (2048, 2048), (3968, 128)].into_iter()));
    }

    #[test]
    fn stray_bits_hide_only_their_own_area() {
        let (mut deal, mut table) = (vec![0; 2048], [0; 4]);
        for (seed, house) in [(1, 1), (2, 2), (3, 1)] {
            book(&mut deal, None, &mut table, house, &noise(seed, 128)).unwrap();
        }
        deal[128 + 63] |= 0x40;
        deal[2047] |= 0x80;
        let survey = survey(&deal).unwrap();
        let bits = [Stray { offset: 191, bits: 0x40 }, Stray { offset: 2047, bits: 0x80 }];
        assert_eq!(survey.stray, bits);
        let kept: Vec<bool> = survey.slots.iter().map(|slot| slot.kept().is_some()).collect();
        assert_eq!(kept, [true, false, true, false]);
        for (i, byte) in deal.iter().enumerate() {
            let alone = commitment(&[*byte; 32]).is_err();
            assert_eq!(alone, byte & STRAY != 0, "{i}");
        }
    }

    #[test]
    fn overlapping_entries_name_the_lowest_slot() {
        let mut deal = vec![0; 2048];
        let entry = |offset, size| make_entry(&[0; 32], offset, size).unwrap();
        for (i, bytes) in [entry(0, 256), entry(256, 128), entry(0, 512), entry(384, 128)].iter().enumerate() {
            deal[1792 + 64 * i..][..64].copy_from_slice(bytes);
        }
        let found: Vec<_> = survey(&deal).unwrap().slots.iter().map(Slot::overlaps).collect();
        assert_eq!(found, [None, None, Some(0), Some(2)]);
    }

    #[test]
    fn an_area_is_found_by_its_commitment() {
        let mut deal = noise(5, 2048);
        let numbers = numbers(&deal).unwrap();
        for (offset, area) in [(0, 128), (1664, 128), (256, 256), (1024, 512), (0, 1024)] {
            let node = commitment(&deal[offset..][..area]).unwrap();
            let tree = Tree::of(&deal);
            assert_eq!(tree.commitment(offset as u64, area as u64), Some(node));
            assert_eq!(tree.search(&numbers, &node), [(offset as u64, area as u64)]);
        }
        // Not in the index, and not where stray bits are.
        assert_eq!(Tree::of(&deal).search(&numbers, &commitment(&deal[1792..1920]).unwrap()), []);
        let node = commitment(&deal[256..512]).unwrap();
        deal[287] |= 0x80;
        assert_eq!(Tree::of(&deal).search(&numbers, &node), []);
        assert_eq!(Tree::of(&deal).commitment(256, 256), None);
    }
}
