//! Index entries, and the numbers of the index area.
use crate::codes::{accepted, Refusal};
use crate::ffi;
use crate::node::Node;

/// The number of index entries of a deal, and the byte at which its index area starts.
#[derive(Clone, Copy, Debug, PartialEq, Eq)]
pub struct IndexNumbers {
    /// The number of entries, which is that of the slots.
    pub entries: u64,
    /// The byte of the deal at which the first slot starts.
    pub start: u64,
}

/// What an index entry says.
#[derive(Clone, Copy, Debug, PartialEq, Eq)]
pub struct Entry {
    /// The commitment of the segment's area.
    pub commitment: Node,
    /// The byte of the deal at which the segment starts.
    pub offset: u64,
    /// The segment's length in bytes, without the zeros after it.
    pub size: u64,
}

/// What 64 bytes of an index say.
#[derive(Clone, Copy, Debug, PartialEq, Eq)]
pub enum ReadEntry {
    /// All bytes are zero: the slot was never used.
    Blank,
    /// Some byte is not zero, and the checksum is wrong.
    Damaged,
    /// The checksum is right.
    Valid(Entry),
}

/// The index numbers for a deal size, a power of two from 512 to 2^36. Refusals: 2.
pub fn index_numbers(size: u64) -> Result<IndexNumbers, Refusal> {
    let (mut entries, mut start) = (0, 0);
    // SAFETY: the two numbers are locals of their own.
    let code = unsafe { ffi::vz_index_numbers(size, &mut entries, &mut start) };
    accepted(code).map(|()| IndexNumbers { entries, start })
}

/// The 64 bytes of the entry for a commitment and two numbers, taken as they are. Refusals: 1, 8.
pub fn make_entry(commitment: &[u8], offset: u64, size: u64) -> Result<[u8; 64], Refusal> {
    let mut entry = [0; 64];
    // SAFETY: both slices are live, and the one that is written is a local of its own.
    let code = unsafe {
        ffi::vz_make_entry(commitment.as_ptr(), commitment.len(), offset, size, entry.as_mut_ptr(), entry.len())
    };
    accepted(code).map(|()| entry)
}

/// What the 64 bytes of an entry say. Refusals: 2 for another length.
pub fn read_entry(entry: &[u8]) -> Result<ReadEntry, Refusal> {
    let (mut kind, mut node, mut offset, mut size) = (0, [0; 32], 0, 0);
    // SAFETY: both slices are live, and what is written are locals of their own.
    let code = unsafe {
        let (out, len) = (node.as_mut_ptr(), node.len());
        ffi::vz_read_entry(entry.as_ptr(), entry.len(), &mut kind, out, len, &mut offset, &mut size)
    };
    accepted(code)?;
    Ok(match kind {
        0 => ReadEntry::Blank,
        1 => ReadEntry::Damaged,
        _ => ReadEntry::Valid(Entry { commitment: Node(node), offset, size }),
    })
}

#[cfg(test)]
mod tests {
    use super::*;

    const COMMITMENT: Node = Node([5; 32]);

    #[test]
    fn index_numbers_of_the_paper() {
        let rows = [
            (512, 4, 256),
            (524_288, 4, 524_032),
            (1_048_576, 8, 1_048_064),
            (16_777_216, 128, 16_769_024),
            (34_359_738_368, 262_144, 34_342_961_152),
            (68_719_476_736, 524_288, 68_685_922_304),
        ];
        for (size, entries, start) in rows {
            assert_eq!(index_numbers(size), Ok(IndexNumbers { entries, start }));
        }
        for size in [0, 256, 513, 768, 1 << 37, u64::MAX] {
            assert_eq!(index_numbers(size), Err(Refusal::SIZE), "{size}");
        }
    }

    #[test]
    fn an_entry_reads_back() {
        for (offset, size) in [(0, 128), (1, 2), (u64::MAX, u64::MAX - 1)] {
            let entry = make_entry(&COMMITMENT.0, offset, size).unwrap();
            assert_eq!(entry[..32], COMMITMENT.0);
            assert_eq!(read_entry(&entry), Ok(ReadEntry::Valid(Entry { commitment: COMMITMENT, offset, size })));
        }
    }

    #[test]
    fn a_changed_entry_is_damaged() {
        for entry in [make_entry(&COMMITMENT.0, 128, 256).unwrap(), [0; 64]] {
            for bit in 0..512 {
                let mut changed = entry;
                changed[bit / 8] ^= 1 << (bit % 8);
                assert_eq!(read_entry(&changed), Ok(ReadEntry::Damaged), "bit {bit}");
            }
        }
        assert_eq!(read_entry(&[0; 64]), Ok(ReadEntry::Blank));
    }

    /// The numbers of include/vizhuthamen.h.
    #[test]
    fn the_kinds_are_those_of_the_header() {
        let header = include_str!("../../include/vizhuthamen.h");
        for line in ["  VZ_BLANK = 0,", "  VZ_DAMAGED = 1,", "  VZ_VALID = 2 "] {
            assert!(header.lines().any(|l| l.starts_with(line)), "{line}");
        }
    }

    #[test]
    fn refusals() {
        assert_eq!(make_entry(&[0; 31], 0, 0), Err(Refusal::COMMITMENT_LENGTH));
        assert_eq!(make_entry(&[], 0, 0), Err(Refusal::COMMITMENT_LENGTH));
        assert_eq!(make_entry(&[0xff; 32], 0, 0), Err(Refusal::COMMITMENT_BITS));
        for length in [0, 63, 65] {
            assert_eq!(read_entry(&vec![0; length]), Err(Refusal::SIZE), "{length}");
        }
    }
}
