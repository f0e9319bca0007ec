//! The audit of a deal, whoever has made it: the state of every slot.
use crate::codes::{accepted, Refusal};
use crate::deal::table_length;
use crate::ffi;
use std::fmt;

/// The state of a slot. Where two apply, the lower one is given: an overlapping entry may be kept or not.
#[derive(Clone, Copy, Debug, PartialEq, Eq, PartialOrd, Ord, Hash)]
pub enum SlotState {
    /// 0: all 64 bytes are zero.
    Blank,
    /// 1: some byte is not zero, and the checksum is wrong.
    Damaged,
    /// 2: the checksum is right, but the size or the offset is not allowed in the deal.
    NotStanding,
    /// 3: the entry stands, and overlaps one that stands in a lower slot.
    Overlapping,
    /// 4: the entry stands, but its commitment is not that of the bytes at its offset.
    WrongCommitment,
    /// 5: the entry stands, and its commitment is that of the bytes at its offset.
    Kept,
}

impl SlotState {
    /// Every state by its number, which it is as a `u8`.
    pub const ALL: [SlotState; 6] = [
        SlotState::Blank,
        SlotState::Damaged,
        SlotState::NotStanding,
        SlotState::Overlapping,
        SlotState::WrongCommitment,
        SlotState::Kept,
    ];

    /// The state in words, as it is displayed.
    pub fn words(self) -> &'static str {
        match self {
            SlotState::Blank => "blank",
            SlotState::Damaged => "damaged",
            SlotState::NotStanding => "not standing",
            SlotState::Overlapping => "overlapping",
            SlotState::WrongCommitment => "wrong commitment",
            SlotState::Kept => "kept",
        }
    }

    /// Whether the slot is blank or its entry kept, as all are in a deal that was made by bookings alone.
    pub fn is_sound(self) -> bool {
        matches!(self, SlotState::Blank | SlotState::Kept)
    }
}

impl fmt::Display for SlotState {
    fn fmt(&self, f: &mut fmt::Formatter<'_>) -> fmt::Result {
        f.pad(self.words())
    }
}

/// The state of every slot of a deal, by rising place. Refusals: 2, 11.
///
/// ```
/// use vizhuthamen::{audit, book, SlotState};
///
/// let (mut deal, mut table) = ([0; 512], [0; 4]);
/// book(&mut deal, None, &mut table, 1, &[1; 128])?;
/// book(&mut deal, None, &mut table, 2, &[2; 100])?;
/// assert_eq!(audit(&deal)?, [SlotState::Kept, SlotState::Kept, SlotState::Blank, SlotState::Blank]);
/// deal[0] = 3; // a byte of the first segment
/// assert_eq!(audit(&deal)?[0].to_string(), "wrong commitment");
/// # Ok::<(), vizhuthamen::Refusal>(())
/// ```
pub fn audit(deal: &[u8]) -> Result<Vec<SlotState>, Refusal> {
    let mut states = vec![0; table_length(deal.len())];
    audit_into(deal, &mut states)?;
    Ok(states.into_iter().map(|state| SlotState::ALL[usize::from(state)]).collect())
}

/// Writes the number of every slot's state into the first bytes of `states`, one byte each, as many as the deal's table
/// of owners has (see [`table_length`]); the rest stays. Refusals: 2, 11, 12 for fewer bytes than slots.
pub fn audit_into(deal: &[u8], states: &mut [u8]) -> Result<(), Refusal> {
    // SAFETY: both slices are live and apart, since one is borrowed mutably.
    let code = unsafe { ffi::vz_audit(deal.as_ptr(), deal.len(), states.as_mut_ptr(), states.len()) };
    accepted(code)
}

#[cfg(test)]
mod tests {
    use super::*;
    use crate::deal::{book, cancel, collect};
    use crate::entry::make_entry;
    use crate::hash::commitment;
    use crate::testing::segment;

    /// A deal of 2,048 bytes with these entries in its first slots: offset, size, and whether the commitment is right.
    fn foreign(rows: &[(usize, usize, bool)]) -> Vec<u8> {
        let mut deal = segment(7, 1792);
        for (offset, size, right) in rows {
            let area = size.max(&128).next_power_of_two();
            let node = match right {
                true => commitment(&deal[*offset..][..area]).unwrap().0,
                false => [5; 32],
            };
            deal.extend(make_entry(&node, *offset as u64, *size as u64).unwrap());
        }
        deal.resize(2048, 0);
        deal
    }

    fn numbers(deal: &[u8]) -> Vec<u8> {
        audit(deal).unwrap().into_iter().map(|state| state as u8).collect()
    }

    #[test]
    fn every_state() {
        let mut deal = foreign(&[(0, 128, true), (128, 100, false), (0, 256, true), (64, 128, false)]);
        assert_eq!(numbers(&deal), [5, 4, 3, 2]);
        deal[1792] ^= 1;
        assert_eq!(numbers(&deal), [1, 4, 3, 2]);
        deal[1856..1920].fill(0);
        assert_eq!(numbers(&deal), [1, 0, 5, 2]);
    }

    /// The lower number is given, whatever the commitment says; and only lower slots count.
    #[test]
    fn an_overlapping_entry_may_be_kept_or_not() {
        for right in [true, false] {
            for [small, large] in [[(0, 128), (0, 200)], [(128, 1), (0, 129)], [(384, 128), (0, 257)]] {
                for (first, second) in [(small, large), (large, small)] {
                    let rows = [(first.0, first.1, true), (second.0, second.1, right), (1024, 512, right)];
                    let alone = if right { 5 } else { 4 };
                    assert_eq!(numbers(&foreign(&rows)), [5, 3, alone, 0], "{first:?} {second:?}");
                }
            }
        }
    }

    #[test]
    fn a_deal_that_was_booked_into_is_sound() {
        let (mut deal, mut table) = ([0; 2048], [0; 4]);
        for (seed, house, size) in [(1, 1, 128), (2, 2, 300), (3, 1, 1), (4, 2, 256)] {
            book(&mut deal, None, &mut table, house, &segment(seed, size)).unwrap();
            assert!(audit(&deal).unwrap().into_iter().all(SlotState::is_sound));
        }
        assert_eq!(numbers(&deal), [5; 4]);
        cancel(&mut deal, None, &mut table, 2, 1856).unwrap();
        assert_eq!(numbers(&deal), [5, 0, 5, 5]);
        let mut second = [7; 2048];
        collect(&deal, &table, &mut second, None, &mut [7; 4]).unwrap();
        assert_eq!(numbers(&second), [5, 5, 5, 0]);
    }

    #[test]
    fn the_rest_of_a_buffer_stays() {
        let deal = foreign(&[(0, 128, true), (0, 128, false)]);
        for more in [0, 1, 40] {
            let mut states = vec![0xa5; 4 + more];
            assert_eq!(audit_into(&deal, &mut states), Ok(()));
            assert_eq!(states, [vec![5, 3, 0, 0], vec![0xa5; more]].concat());
        }
    }

    #[test]
    fn refusals_in_their_order() {
        let mut deal = foreign(&[(0, 128, true)]);
        let refused = |deal: &[u8], length: usize, refusal: Refusal| {
            let mut states = vec![0xa5; length];
            assert_eq!(audit_into(deal, &mut states), Err(refusal), "{length}");
            assert_eq!(states, vec![0xa5; length]);
        };
        refused(&deal, 3, Refusal::OUTPUT);
        refused(&deal, 0, Refusal::OUTPUT);
        deal[2047] |= 0x40;
        for length in [0, 3, 4] {
            refused(&deal, length, Refusal::STRAY_BITS);
            refused(&deal[..2000], length, Refusal::SIZE);
        }
        assert_eq!(audit(&deal), Err(Refusal::STRAY_BITS));
        assert_eq!(audit(&[]), Err(Refusal::SIZE));
    }

    /// The numbers of include/vizhuthamen.h, and names that are the words.
    #[test]
    fn the_states_are_those_of_the_header() {
        let header = include_str!("../../include/vizhuthamen.h");
        let stated = header.lines().filter_map(|line| line.trim_start().strip_prefix("VZ_SLOT_"));
        let stated: Vec<&str> = stated.map(|line| line.split([',', '/']).next().unwrap_or_default().trim()).collect();
        let names = SlotState::ALL.map(|state| state.to_string().to_uppercase().replace(' ', "_"));
        let here: Vec<String> = names.iter().zip(0..).map(|(name, number)| format!("{name} = {number}")).collect();
        assert_eq!(stated, here);
        assert_eq!(format!("{:<9}|", SlotState::Blank), "blank    |");
    }
}
