//! Mending a deal in memory: what can be told for certain, and nothing else.
use super::survey::{self, allowed, area, overlap, Slot, State, Stray, Survey, Tree, ENTRY};
use std::cell::OnceCell;
use vizhuthamen::{Entry, IndexNumbers, Node, ReadEntry, Refusal};

/// Two checksums of 126 bits that differ in no more bits than this are one checksum with damaged bits: two of different
/// entries differ in so few once in 2^40.
const FEW_BITS: u32 = 24;

/// A segment in hand: its commitment; its size and the bytes of its area, zeros after it, where they are known.
#[derive(Debug)]
pub struct Hand {
    pub commitment: Node,
    pub segment: Option<(u64, Vec<u8>)>,
}

impl Hand {
    /// A segment whose bytes are in hand. Refusals: 2, 11.
    pub fn of(segment: &[u8]) -> Result<Hand, Refusal> {
        let mut bytes = segment.to_vec();
        bytes.resize(area(segment.len() as u64) as usize, 0);
        let commitment = vizhuthamen::commitment(&bytes)?;
        Ok(Hand { commitment, segment: Some((segment.len() as u64, bytes)) })
    }
}

/// One thing that was mended.
#[derive(Debug, PartialEq, Eq)]
pub enum Step {
    /// Stray bits were cleared.
    Bits(Stray),
    /// The entry of a slot was made anew.
    Entry { slot: u64, place: u64, entry: Entry },
    /// The bytes of an entry's segment were written anew.
    Segment { slot: u64, place: u64, entry: Entry },
}

/// A mended deal: its bytes, what was mended, and what it is now.
pub struct Mended {
    pub bytes: Vec<u8>,
    pub steps: Vec<Step>,
    pub survey: Survey,
}

/// Mends a deal, with a segment in hand or without; a place names the one slot whose entry is made anew. Refusals: 2; 6
/// for the place.
pub fn mend(deal: &[u8], hand: Option<&Hand>, place: Option<u64>) -> Result<Mended, Refusal> {
    let before = survey::survey(deal)?;
    if place.is_some_and(|place| before.slots.iter().all(|slot| slot.place != place)) {
        return Err(Refusal::PLACE);
    }
    let mut mending = Mending { bytes: deal.to_vec(), numbers: before.numbers, steps: vec![], tree: OnceCell::new() };
    mending.clear(&before.stray);
    let mut now = survey::survey(&mending.bytes)?;
    if let Some(hand) = hand {
        mending.write_segments(&now.slots, hand);
        now = survey::survey(&mending.bytes)?;
    }
    for slot in now.slots.iter().filter(|slot| slot.state == State::Damaged && place.is_none_or(|p| p == slot.place)) {
        if let Some(entry) = mending.told(slot.place) {
            mending.write_entry(slot, entry)?;
        }
    }
    now = survey::survey(&mending.bytes)?;
    if let Some(hand) = hand {
        if let Some((slot, entry)) = mending.in_hand(&now.slots, hand, place) {
            mending.write_entry(&slot, entry)?;
            now = survey::survey(&mending.bytes)?;
        }
    }
    // Bits were cleared and bytes written only where no kept entry's area or slot is.
    assert!(before.slots.iter().zip(&now.slots).all(|(old, new)| old.kept().is_none() || old.kept() == new.kept()));
    Ok(Mended { bytes: mending.bytes, steps: mending.steps, survey: now })
}

/// A deal that is being mended.
struct Mending {
    bytes: Vec<u8>,
    numbers: IndexNumbers,
    steps: Vec<Step>,
    /// Made when it is first asked, after which no byte below the index is changed.
    tree: OnceCell<Tree>,
}

impl Mending {
    fn clear(&mut self, stray: &[Stray]) {
        for bits in stray {
            self.bytes[bits.offset as usize] &= !bits.bits;
            self.steps.push(Step::Bits(*bits));
        }
    }

    /// Writes the segment in hand where an entry for it stands and is not kept, and no other entry's area would change.
    fn write_segments(&mut self, slots: &[Slot], hand: &Hand) {
        let Some((size, bytes)) = &hand.segment else {
            return;
        };
        for slot in slots {
            let entry = match slot.standing() {
                Some(entry) if slot.kept().is_none() => entry,
                _ => continue,
            };
            if (entry.commitment, entry.size) == (hand.commitment, *size) && alone(slots, slot, &entry) {
                self.bytes[entry.offset as usize..][..bytes.len()].copy_from_slice(bytes);
                self.steps.push(Step::Segment { slot: slot.number, place: slot.place, entry });
            }
        }
    }

    /// Writes an entry, unless its area overlaps that of another.
    fn write_entry(&mut self, slot: &Slot, entry: Entry) -> Result<(), Refusal> {
        if alone(&survey::slots(&self.bytes)?, slot, &entry) {
            let made = vizhuthamen::make_entry(entry.commitment.as_ref(), entry.offset, entry.size)?;
            self.bytes[slot.place as usize..][..ENTRY].copy_from_slice(&made);
            self.steps.push(Step::Entry { slot: slot.number, place: slot.place, entry });
        }
        Ok(())
    }

    /// The entry that a damaged slot held, where its own bytes tell it for certain.
    fn told(&self, place: u64) -> Option<Entry> {
        let bytes = survey::slot_bytes(&self.bytes, place);
        self.by_one_bit(bytes).or_else(|| self.by_fields(bytes)).or_else(|| self.by_search(bytes))
    }

    /// One flipped bit: turning it back makes the checksum right.
    fn by_one_bit(&self, bytes: &[u8]) -> Option<Entry> {
        (0..8 * ENTRY).find_map(|bit| {
            let mut turned = bytes.to_vec();
            turned[bit / 8] ^= 1 << (bit % 8);
            match vizhuthamen::read_entry(&turned) {
                Ok(ReadEntry::Valid(entry)) if self.allowed(entry.offset, entry.size) => {
                    // A foreign entry may have a commitment with stray bits, which no entry made here has.
                    checksum_apart(&entry, &turned).map(|_| entry)
                }
                _ => None,
            }
        })
    }

    /// Offset and size are whole: with the commitment of the area there, the checksum is right, or the commitment is
    /// the entry's own and the checksum has some damaged bits.
    fn by_fields(&self, bytes: &[u8]) -> Option<Entry> {
        let (offset, size) = (number(bytes, 32), number(bytes, 40));
        let commitment = self.commitment(offset, size)?;
        let entry = Entry { commitment, offset, size };
        let apart = checksum_apart(&entry, bytes)?;
        (apart == 0 || commitment.as_ref() == &bytes[..32] && apart <= FEW_BITS).then_some(entry)
    }

    /// Commitment and checksum are whole, and the size: the area is searched for.
    fn by_search(&self, bytes: &[u8]) -> Option<Entry> {
        let commitment = Node(bytes[..32].try_into().ok()?);
        let size = number(bytes, 40);
        let areas = self.tree().search(&self.numbers, &commitment);
        let fitting = areas.into_iter().filter(|(offset, found)| self.allowed(*offset, size) && area(size) == *found);
        let mut entries = fitting.map(|(offset, _)| Entry { commitment, offset, size });
        entries.find(|entry| checksum_apart(entry, bytes) == Some(0))
    }

    /// The slot and the entry for the segment in hand: the slot that is named, or the only damaged one; an area of the
    /// deal that has the commitment and no other entry, at best the one that the slot's bytes name; and the segment's
    /// size, or that of the slot's bytes where the checksum agrees.
    fn in_hand(&self, slots: &[Slot], hand: &Hand, place: Option<u64>) -> Option<(Slot, Entry)> {
        let mut open = slots.iter().filter(|slot| match place {
            Some(place) => slot.place == place && matches!(slot.state, State::Blank | State::Damaged),
            None => slot.state == State::Damaged,
        });
        let (Some(slot), None) = (open.next(), open.next()) else {
            return None;
        };
        let bytes = survey::slot_bytes(&self.bytes, slot.place);
        let size = hand.segment.as_ref().map_or(number(bytes, 40), |(size, _)| *size);
        let areas = self.tree().search(&self.numbers, &hand.commitment);
        let certain = |entry: &Entry| {
            hand.segment.is_some() || checksum_apart(entry, bytes).is_some_and(|apart| apart <= FEW_BITS)
        };
        let mut entries: Vec<Entry> = areas
            .into_iter()
            .filter(|(offset, found)| self.allowed(*offset, size) && area(size) == *found)
            .map(|(offset, _)| Entry { commitment: hand.commitment, offset, size })
            .filter(|entry| certain(entry) && alone(slots, slot, entry))
            .collect();
        entries.sort_by_key(|entry| entry.offset != number(bytes, 32));
        entries.first().map(|entry| (*slot, *entry))
    }

    fn allowed(&self, offset: u64, size: u64) -> bool {
        allowed(&self.bytes, &self.numbers, offset, size)
    }

    /// The commitment of the area that an offset and a size name.
    fn commitment(&self, offset: u64, size: u64) -> Option<Node> {
        self.allowed(offset, size).then_some(())?;
        self.tree().commitment(offset, area(size))
    }

    fn tree(&self) -> &Tree {
        self.tree.get_or_init(|| Tree::of(&self.bytes))
    }
}

/// Whether no other slot's entry has an area that overlaps.
fn alone(slots: &[Slot], slot: &Slot, entry: &Entry) -> bool {
    let others = slots.iter().filter(|other| other.number != slot.number);
    !others.filter_map(Slot::standing).any(|other| overlap(entry, &other))
}

/// The little-endian number at a byte of an entry.
fn number(entry: &[u8], at: usize) -> u64 {
    u64::from_le_bytes(std::array::from_fn(|i| entry[at + i]))
}

/// In how many bits the checksum of an entry is another than that of these bytes.
fn checksum_apart(entry: &Entry, bytes: &[u8]) -> Option<u32> {
    let made = vizhuthamen::make_entry(entry.commitment.as_ref(), entry.offset, entry.size).ok()?;
    Some(made[48..].iter().zip(&bytes[48..]).map(|(a, b)| (a ^ b).count_ones()).sum())
}

#[cfg(test)]
mod tests {
    use super::*;
    use vizhuthamen::book;

    fn segment(seed: u8, size: usize) -> Vec<u8> {
        (0..size).map(|i| if i % 32 == 31 { 1 } else { seed ^ (i * i / 5 + i) as u8 }).collect()
    }

    /// A deal of 2,048 bytes with four segments, and their slots.
    fn example() -> (Vec<u8>, Vec<Slot>) {
        let (mut deal, mut table) = (vec![0; 2048], [0; 4]);
        for (seed, size, house) in [(1, 300, 1), (2, 128, 2), (3, 200, 1), (4, 77, 2)] {
            book(&mut deal, None, &mut table, house, &segment(seed, size)).unwrap();
        }
        let slots = survey::survey(&deal).unwrap().slots;
        assert!(slots.iter().all(|slot| slot.kept().is_some()));
        (deal, slots)
    }

    #[test]
    fn a_sound_deal_stays() {
        let (deal, _) = example();
        let mended = mend(&deal, None, None).unwrap();
        assert_eq!((mended.bytes, mended.steps), (deal, vec![]));
    }

    #[test]
    fn any_one_bit_of_an_entry() {
        let (deal, slots) = example();
        for bit in 0..512 {
            let mut spoilt = deal.clone();
            spoilt[1856 + bit / 8] ^= 1 << (bit % 8);
            let mended = mend(&spoilt, None, None).unwrap();
            assert_eq!(mended.bytes, deal, "bit {bit}");
            assert_eq!(mended.survey.slots, slots);
        }
    }

    #[test]
    fn any_one_stray_bit() {
        let (deal, _) = example();
        for at in (31..2048).step_by(32) {
            let mut spoilt = deal.clone();
            spoilt[at] |= 0x80;
            let mended = mend(&spoilt, None, None).unwrap();
            assert_eq!(mended.bytes, deal, "byte {at}");
            assert_eq!(mended.steps[0], Step::Bits(Stray { offset: at as u64, bits: 0x80 }));
        }
    }

    #[test]
    fn many_bits_of_one_field() {
        let (deal, _) = example();
        let fields: [&[usize]; 4] = [&(0..32).collect::<Vec<_>>(), &(32..40).collect::<Vec<_>>(), &[48, 49], &[62]];
        for field in fields {
            let mut spoilt = deal.clone();
            field.iter().for_each(|at| spoilt[1792 + at] = !deal[1792 + at] & 0x3f);
            assert_eq!(mend(&spoilt, None, None).unwrap().bytes, deal, "{field:?}");
        }
    }

    #[test]
    fn a_size_that_cannot_be_told_is_not_guessed() {
        let (deal, _) = example();
        let mut spoilt = deal.clone();
        spoilt[1792 + 40] ^= 0xff;
        assert_eq!(mend(&spoilt, None, None).unwrap().bytes, spoilt);
        let hand = Hand { commitment: Hand::of(&segment(1, 300)).unwrap().commitment, segment: None };
        assert_eq!(mend(&spoilt, Some(&hand), None).unwrap().bytes, spoilt);
        let hand = Hand::of(&segment(1, 300)).unwrap();
        assert_eq!(mend(&spoilt, Some(&hand), None).unwrap().bytes, deal);
        // A segment of the same area and another size has another commitment here, so it tells nothing.
        let other = Hand::of(&segment(1, 299)).unwrap();
        assert_eq!(mend(&spoilt, Some(&other), None).unwrap().bytes, spoilt);
    }

    #[test]
    fn an_entry_that_is_gone_is_made_from_the_segment_in_hand() {
        let (deal, _) = example();
        for fill in [0, 0x3f] {
            let mut spoilt = deal.clone();
            spoilt[1856..1920].fill(fill);
            assert_eq!(mend(&spoilt, None, None).unwrap().bytes, spoilt);
            let hand = Hand::of(&segment(2, 128)).unwrap();
            assert_eq!(mend(&spoilt, Some(&hand), Some(1856)).unwrap().bytes, deal);
            assert_eq!(
                mend(&spoilt, Some(&hand), None).unwrap().bytes,
                if fill == 0 { spoilt.clone() } else { deal.clone() }
            );
            assert_eq!(mend(&spoilt, Some(&hand), Some(1792)).unwrap().bytes, spoilt);
            assert!(matches!(mend(&spoilt, Some(&hand), Some(1857)), Err(Refusal::PLACE)));
        }
    }

    #[test]
    fn a_commitment_in_hand_with_the_size_in_the_slot() {
        let (deal, slots) = example();
        let mut spoilt = deal.clone();
        spoilt[1792..1832].fill(0x15);
        assert_eq!(mend(&spoilt, None, None).unwrap().bytes, spoilt);
        let hand = Hand { commitment: slots[0].kept().unwrap().commitment, segment: None };
        assert_eq!(mend(&spoilt, Some(&hand), None).unwrap().bytes, deal);
    }

    #[test]
    fn a_segment_in_hand_is_written_where_its_entry_stands() {
        let (deal, _) = example();
        let mut spoilt = deal.clone();
        let entry = survey::survey(&deal).unwrap().slots[2].kept().unwrap();
        spoilt[entry.offset as usize..][..100].fill(9);
        assert_eq!(mend(&spoilt, None, None).unwrap().steps.iter().filter(|s| !matches!(s, Step::Bits(_))).count(), 0);
        let mended = mend(&spoilt, Some(&Hand::of(&segment(3, 200)).unwrap()), None).unwrap();
        assert_eq!(mended.bytes, deal);
        assert!(matches!(mended.steps.last(), Some(Step::Segment { slot: 2, .. })));
    }

    #[test]
    fn no_entry_is_made_over_another() {
        let (deal, slots) = example();
        let mut spoilt = deal.clone();
        // Slot 1 gets an entry over the area of slot 0, which is damaged in one bit.
        let first = slots[0].kept().unwrap();
        let over = vizhuthamen::make_entry(&[0; 32], first.offset, 128).unwrap();
        spoilt[1856..1920].copy_from_slice(&over);
        spoilt[1792] ^= 1;
        assert_eq!(mend(&spoilt, None, None).unwrap().bytes, spoilt);
    }
}
