//! The commitment of a raw archive that is too long to be held.
use crate::codes::Refusal;
use crate::fr32::pad_into;
use crate::hash::commitment_with_threads;
use crate::node::Node;
use crate::parts;
use crate::streaming::{Streaming, STREAM_STATE};

/// The raw bytes of a part: 2^11 blocks of 127.
pub const RAW_PART: usize = 127 << 11;

/// The bytes of its segment.
const SEGMENT_PART: usize = 128 << 11;

/// The largest number of raw bytes whose commitment can be worked out. Their segment has 2^36 bytes.
pub const MAX_RAW_STREAM: u64 = 127 << 29;

/// The nodes of a piece that the stream is given where no raw bytes are left.
const ZEROS: u64 = 1 << 13;

/// The commitment of a raw archive as its bytes arrive, padded (Fr32) and filled with zeros on the way.
///
/// Each part is padded into zeros and its commitment asked, on all processors, and a stream takes these commitments.
/// That its answer is the commitment of the whole segment, filled with zeros, is proved: `raw_by_parts` in
/// crates/vizhuthamen/specs/RawByParts.antt, at 2^m parts of 2^j blocks with j <= 11 and m + j <= 29; and by
/// `same_as_booked` it is the one that [`crate::book`] writes for the segment.
#[derive(Clone, Debug, PartialEq, Eq)]
pub struct RawStreaming {
    nodes: Streaming,
    parts: u64,
}

/// The commitment of a raw archive, with the sizes that belong to it.
#[derive(Clone, Copy, Debug, PartialEq, Eq)]
pub struct RawStreamed {
    /// The commitment of the segment's area.
    pub commitment: Node,
    /// The length of the segment, 128 / 127 of the raw length and rounded up: the size that an entry of it has.
    pub size: u64,
    /// The bytes that it takes up with the zeros after it: the smallest power of two at or above its length and 128.
    pub area: u64,
}

impl RawStreaming {
    /// A new start.
    pub fn new() -> RawStreaming {
        RawStreaming { nodes: Streaming::new(), parts: 0 }
    }

    /// Goes on from a state that was kept, and the number of raw bytes taken. None where these are no whole parts.
    pub fn resumed(state: [u8; STREAM_STATE], taken: u64) -> Option<RawStreaming> {
        let fits = taken % RAW_PART as u64 == 0 && taken <= MAX_RAW_STREAM;
        fits.then(|| RawStreaming { nodes: Streaming::from(state), parts: taken / RAW_PART as u64 })
    }

    /// The state, to be kept together with the number of raw bytes taken.
    pub fn state(&self) -> &[u8] {
        self.nodes.as_ref()
    }

    /// The number of raw bytes taken.
    pub fn taken(&self) -> u64 {
        self.parts * RAW_PART as u64
    }

    /// Takes the next parts, of [`RAW_PART`] raw bytes each. Refusals: 2 for another length, and for more than
    /// [`MAX_RAW_STREAM`] raw bytes in all.
    pub fn take(&mut self, raw: &[u8]) -> Result<(), Refusal> {
        let parts = self.parts + (raw.len() / RAW_PART) as u64;
        if raw.len() % RAW_PART != 0 || parts * RAW_PART as u64 > MAX_RAW_STREAM {
            return Err(Refusal::SIZE);
        }
        take_parts(&mut self.nodes, raw, SEGMENT_PART)?;
        self.parts = parts;
        Ok(())
    }

    /// The answer for all raw bytes taken so far and the rest of the archive, of any length. Refusals: 2 where there
    /// are none in all, or more than [`MAX_RAW_STREAM`].
    pub fn end(&self, rest: &[u8]) -> Result<RawStreamed, Refusal> {
        let raw = self.taken() + rest.len() as u64;
        if !(1..=MAX_RAW_STREAM).contains(&raw) {
            return Err(Refusal::SIZE);
        }
        let size = (raw * 128).div_ceil(127);
        let area = size.next_power_of_two().max(128);
        // An archive whose area is smaller than a part is a single part, of that size.
        let part = area.min(SEGMENT_PART as u64);
        let mut nodes = self.nodes.clone();
        take_parts(&mut nodes, rest, part as usize)?;
        fill(&mut nodes, area / part - size.div_ceil(part), part as usize)?;
        nodes.end().map(|streamed| RawStreamed { commitment: streamed.commitment, size, area })
    }
}

impl Default for RawStreaming {
    fn default() -> RawStreaming {
        RawStreaming::new()
    }
}

/// Takes the commitments of raw bytes by parts whose segments have so many bytes. The last part may be shorter.
fn take_parts(nodes: &mut Streaming, raw: &[u8], part: usize) -> Result<(), Refusal> {
    let node = |raw: &[u8]| {
        let mut segment = vec![0; part];
        pad_into(raw, &mut segment)?;
        commitment_with_threads(&segment, 1)
    };
    let answers = parts::each(parts::processors(), raw.chunks(part / 128 * 127), node);
    let found: Vec<Node> = answers.into_iter().collect::<Result<_, _>>()?;
    nodes.take(&found.iter().flat_map(|node| node.0).collect::<Vec<u8>>())
}

/// Takes the commitments of so many parts without raw bytes, which are all alike.
fn fill(nodes: &mut Streaming, count: u64, part: usize) -> Result<(), Refusal> {
    if count == 0 {
        return Ok(());
    }
    let zeros = commitment_with_threads(&vec![0; part], 1)?.0.repeat(count.min(ZEROS) as usize);
    (0..count / ZEROS).try_for_each(|_| nodes.take(&zeros))?;
    nodes.take(&zeros[..32 * (count % ZEROS) as usize])
}

#[cfg(test)]
mod tests {
    use super::*;
    use crate::deal::find;
    use crate::fr32::{pad, MAX_RAW};
    use crate::hash::commitment;
    use crate::testing::{noise, put};

    /// The commitment of an archive whose segment can be held: padded in pieces, filled with zeros, and asked.
    fn held(raw: &[u8]) -> RawStreamed {
        let mut segment = raw.chunks(MAX_RAW as usize).flat_map(|piece| pad(piece).unwrap()).collect::<Vec<u8>>();
        let size = segment.len();
        segment.resize(size.next_power_of_two().max(128), 0);
        RawStreamed { commitment: commitment(&segment).unwrap(), size: size as u64, area: segment.len() as u64 }
    }

    #[test]
    fn as_padded_filled_and_committed_to() {
        let raw = noise(1, 2 * MAX_RAW as usize);
        let around = |n: usize| [n - 1, n, n + 1];
        let lengths = [1, 2, 31, 32, 126, 127, 128, 254, 255, 1000].into_iter().chain(around(RAW_PART / 2));
        let long = [RAW_PART, 2 * RAW_PART, 3 * RAW_PART].into_iter().flat_map(around);
        for length in lengths.chain(long).chain([MAX_RAW as usize + 1, 2 * MAX_RAW as usize]) {
            assert_eq!(RawStreaming::new().end(&raw[..length]), Ok(held(&raw[..length])), "{length}");
        }
    }

    #[test]
    fn cut_between_any_two_parts() {
        let raw = noise(2, 5 * RAW_PART + 77);
        let expected = Ok(held(&raw));
        for first in 0..=5 {
            for second in first..=5 {
                let mut stream = RawStreaming::new();
                assert_eq!(stream.take(&raw[..first * RAW_PART]), Ok(()));
                assert_eq!(stream.end(&raw[first * RAW_PART..]), expected);
                let state = <[u8; STREAM_STATE]>::try_from(stream.state()).unwrap();
                let mut resumed = RawStreaming::resumed(state, stream.taken()).unwrap();
                assert_eq!(resumed, stream);
                assert_eq!(resumed.take(&raw[first * RAW_PART..second * RAW_PART]), Ok(()));
                assert_eq!(resumed.taken(), (second * RAW_PART) as u64);
                assert_eq!(resumed.end(&raw[second * RAW_PART..]), expected, "{first} {second}");
            }
        }
    }

    #[test]
    fn the_commitment_that_booking_writes() {
        for length in [1, 127, 128, 1000, RAW_PART + 1] {
            let raw = noise(3, length);
            let mut deal = vec![0; 1 << 21];
            let position = put(&mut deal, &pad(&raw).unwrap());
            let streamed = RawStreaming::new().end(&raw).unwrap();
            let found = find(&deal, streamed.commitment.as_ref()).unwrap();
            assert_eq!((found.place, found.size), (position.place, streamed.size), "{length}");
        }
    }

    #[test]
    fn lengths_that_are_not_allowed() {
        let mut stream = RawStreaming::new();
        assert_eq!(stream.end(&[]), Err(Refusal::SIZE));
        for length in [1, RAW_PART - 1, RAW_PART + 1] {
            assert_eq!(stream.take(&vec![0; length]), Err(Refusal::SIZE));
        }
        assert_eq!((stream.take(&[]), stream.taken()), (Ok(()), 0));
        for taken in [1, RAW_PART as u64 - 1, MAX_RAW_STREAM + RAW_PART as u64, u64::MAX] {
            assert_eq!(RawStreaming::resumed([0; STREAM_STATE], taken), None);
        }
    }

    /// All zeros, up to the largest archive: from a state of one part fewer.
    #[test]
    fn up_to_2_to_the_36_bytes_after_padding() {
        let above = |node: &Node| commitment(&[node.0, node.0].concat()).ok();
        let zeros: Vec<Node> = std::iter::successors(Some(Node::default()), above).take(32).collect();
        let parts = MAX_RAW_STREAM / RAW_PART as u64;
        assert_eq!(parts, 1 << 18);
        let mut nodes = Streaming::new();
        fill(&mut nodes, parts - 1, SEGMENT_PART).unwrap();
        let state = <[u8; STREAM_STATE]>::try_from(nodes.as_ref()).unwrap();
        let almost = RawStreaming::resumed(state, MAX_RAW_STREAM - RAW_PART as u64).unwrap();
        let whole = RawStreamed { commitment: zeros[31], size: 1 << 36, area: 1 << 36 };
        assert_eq!(almost.end(&[0; RAW_PART]), Ok(whole));
        assert_eq!(almost.end(&[0; RAW_PART + 1]), Err(Refusal::SIZE));
        assert_eq!(almost.end(&[0; RAW_PART - 1]).map(|streamed| streamed.area), Ok(1 << 36));
        let mut full = almost.clone();
        assert_eq!(full.take(&[0; RAW_PART]), Ok(()));
        assert_eq!((full.end(&[]), full.end(&[0])), (Ok(whole), Err(Refusal::SIZE)));
        assert_eq!(full.clone().take(&[0; RAW_PART]), Err(Refusal::SIZE));
        // One byte more than 2^35 bytes after padding: half of the area is zeros that nobody hashes.
        let mut half = Streaming::new();
        fill(&mut half, parts / 2, SEGMENT_PART).unwrap();
        let state = <[u8; STREAM_STATE]>::try_from(half.as_ref()).unwrap();
        let half = RawStreaming::resumed(state, MAX_RAW_STREAM / 2).unwrap();
        assert_eq!(half.end(&[]).map(|streamed| streamed.commitment), Ok(zeros[30]));
        let more = half.end(&[0]).unwrap();
        assert_eq!((more.commitment, more.size, more.area), (zeros[31], (1 << 35) + 2, 1 << 36));
    }
}
