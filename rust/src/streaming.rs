//! The commitment of bytes that arrive in pieces.
use crate::codes::{accepted, Refusal};
use crate::ffi;
use crate::node::Node;

/// The length of a stream's state, in bytes.
pub const STREAM_STATE: usize = 1072;

/// The largest number of bytes that a stream takes.
pub const MAX_STREAM: u64 = 1 << 36;

/// The state of a stream: what is kept of the bytes taken so far. As bytes it can be kept anywhere until the next piece
/// arrives; any bytes are a state, and are answered.
#[derive(Clone, Debug, PartialEq, Eq)]
pub struct Streaming([u8; STREAM_STATE]);

/// The commitment of all bytes of a stream, and their number.
#[derive(Clone, Copy, Debug, PartialEq, Eq)]
pub struct Streamed {
    /// The commitment of the bytes.
    pub commitment: Node,
    /// The number of bytes.
    pub count: u64,
}

impl Streaming {
    /// A new start.
    pub fn new() -> Streaming {
        let mut state = [0; STREAM_STATE];
        // SAFETY: the slice is a live local of its own. The only refusal is that of another length.
        unsafe { ffi::vz_stream_new(state.as_mut_ptr(), state.len()) };
        Streaming(state)
    }

    /// Takes one more piece, of any length. Refusals stick until a new start: 11 where a node is completed that has
    /// stray bits, 2 at the first byte past 2^36.
    pub fn take(&mut self, piece: &[u8]) -> Result<(), Refusal> {
        let state = &mut self.0;
        // SAFETY: the slices are live and apart, since one is borrowed mutably.
        let code = unsafe { ffi::vz_stream_take(state.as_mut_ptr(), state.len(), piece.as_ptr(), piece.len()) };
        accepted(code)
    }

    /// The answer for all bytes taken so far; more may be taken afterwards. Refusals: 11 where it sticks, 2 where their
    /// number is no power of two from 32 to 2^36.
    pub fn end(&self) -> Result<Streamed, Refusal> {
        let (mut node, mut count) = ([0; 32], 0);
        let state = &self.0;
        // SAFETY: both slices are live, and all that is written are locals of their own.
        let code =
            unsafe { ffi::vz_stream_end(state.as_ptr(), state.len(), node.as_mut_ptr(), node.len(), &mut count) };
        accepted(code).map(|()| Streamed { commitment: Node(node), count })
    }
}

impl Default for Streaming {
    fn default() -> Streaming {
        Streaming::new()
    }
}

impl From<[u8; STREAM_STATE]> for Streaming {
    fn from(bytes: [u8; STREAM_STATE]) -> Streaming {
        Streaming(bytes)
    }
}

impl AsRef<[u8]> for Streaming {
    fn as_ref(&self) -> &[u8] {
        &self.0
    }
}

#[cfg(test)]
mod tests {
    use super::*;
    use crate::hash::commitment;
    use crate::testing::segment;

    /// The state after these pieces, each taken without a refusal.
    fn after<'p>(pieces: impl IntoIterator<Item = &'p [u8]>) -> Streaming {
        let mut state = Streaming::new();
        for piece in pieces {
            assert_eq!(state.take(piece), Ok(()));
        }
        state
    }

    /// A state made by hand: count, code, and what waits at each height.
    fn state(count: u64, code: u8, waiting: &[Node]) -> Streaming {
        let mut bytes = [0; STREAM_STATE];
        bytes[..8].copy_from_slice(&count.to_le_bytes());
        bytes[8] = code;
        for (slot, node) in bytes[48..].chunks_mut(32).zip(waiting) {
            slot.copy_from_slice(node.as_ref());
        }
        Streaming::from(bytes)
    }

    /// The commitments of all-zero runs of 32, 64, ... bytes, up to 2^36.
    fn zeros() -> Vec<Node> {
        let above = |node: &Node| commitment(&[node.0, node.0].concat()).ok();
        std::iter::successors(Some(Node::default()), above).take(32).collect()
    }

    #[test]
    fn two_pieces_cut_anywhere() {
        for size in [32, 64, 128, 256] {
            let bytes = segment(7, size);
            let expected = Streamed { commitment: commitment(&bytes).unwrap(), count: size as u64 };
            for cut in 0..=size {
                let (first, second) = bytes.split_at(cut);
                assert_eq!(after([first, second]).end(), Ok(expected), "{size} at {cut}");
                assert_eq!(after([first, &[], second, &[]]).end(), Ok(expected), "{size} at {cut}");
            }
        }
    }

    #[test]
    fn pieces_of_one_length() {
        let bytes = segment(8, 8192);
        let expected = Streamed { commitment: commitment(&bytes).unwrap(), count: 8192 };
        for length in [1, 2, 31, 32, 33, 63, 64, 100, 4095, 8192] {
            assert_eq!(after(bytes.chunks(length)).end(), Ok(expected), "{length}");
        }
    }

    #[test]
    fn the_state_is_handed_on_as_bytes() {
        let bytes = segment(9, 1024);
        let first = after([&bytes[..500]]);
        let mut second = Streaming::from(<[u8; STREAM_STATE]>::try_from(first.as_ref()).unwrap());
        assert_eq!(second, first);
        assert_eq!(second.take(&bytes[500..]), Ok(()));
        assert_eq!(second.end().map(|answer| answer.commitment), commitment(&bytes));
    }

    #[test]
    fn other_totals_are_refused_and_do_not_stick() {
        for total in [0, 1, 31, 33, 63, 65, 96, 1023, 1025] {
            assert_eq!(after([&segment(1, total)[..]]).end(), Err(Refusal::SIZE), "{total}");
        }
        let bytes = segment(2, 128);
        let mut state = after([&bytes[..96]]);
        assert_eq!(state.end(), Err(Refusal::SIZE));
        assert_eq!(state.take(&bytes[96..]), Ok(()));
        assert_eq!(state.end().map(|answer| answer.commitment), commitment(&bytes));
    }

    #[test]
    fn stray_bits_stick_and_stand_before_the_size() {
        for bit in [0x40, 0x80] {
            let mut bytes = segment(3, 33);
            bytes[31] = bit;
            assert_eq!(commitment(&bytes), Err(Refusal::SIZE));
            let mut state = Streaming::new();
            assert_eq!(state.take(&bytes[..31]), Ok(()));
            assert_eq!(state.take(&bytes[31..]), Err(Refusal::STRAY_BITS));
            assert_eq!(state.take(&[]), Err(Refusal::STRAY_BITS));
            assert_eq!(state.take(&[0; 64]), Err(Refusal::STRAY_BITS));
            assert_eq!(state.end(), Err(Refusal::STRAY_BITS));
        }
        // A node that is not whole is not judged.
        let mut cut = segment(4, 63);
        cut[62] = 0xff;
        assert_eq!(after([&cut[..]]).end(), Err(Refusal::SIZE));
    }

    /// The last bytes before 2^36, from a state of one byte fewer.
    #[test]
    fn the_first_byte_past_2_to_the_36_sticks() {
        let zeros = zeros();
        let almost = state(MAX_STREAM - 1, 0, &zeros);
        assert_eq!(almost.end(), Err(Refusal::SIZE));
        let mut full = almost.clone();
        assert_eq!(full.take(&[0]), Ok(()));
        let whole = Ok(Streamed { commitment: zeros[31], count: MAX_STREAM });
        assert_eq!(full.end(), whole);
        assert_eq!(full.take(&[]), Ok(()));
        assert_eq!(full.end(), whole);
        // Nodes past the limit are not judged any more.
        for piece in [&[0][..], &[0xff; 32]] {
            let mut over = full.clone();
            assert_eq!(over.take(piece), Err(Refusal::SIZE));
            assert_eq!(over.take(&[0xff; 64]), Err(Refusal::SIZE));
            assert_eq!(over.end(), Err(Refusal::SIZE));
        }
        for (piece, refusal) in [([0, 0], Refusal::SIZE), ([0x80, 0], Refusal::STRAY_BITS)] {
            let mut over = almost.clone();
            assert_eq!(over.take(&piece), Err(refusal));
            assert_eq!(over.end(), Err(refusal));
        }
    }

    #[test]
    fn any_bytes_are_a_state() {
        let absurd = Streaming::from([0xff; STREAM_STATE]);
        assert_eq!(absurd.end(), Err(Refusal::SIZE));
        assert_eq!(absurd.clone().take(&[0; 32]), Err(Refusal::SIZE));
        for count in [MAX_STREAM + 1, MAX_STREAM + 32, 1 << 37, u64::MAX] {
            let mut state = state(count, 0, &[]);
            assert_eq!(state.end(), Err(Refusal::SIZE), "{count}");
            assert_eq!(state.take(&[]), Ok(()), "{count}");
            assert_eq!(state.take(&[0]), Err(Refusal::SIZE), "{count}");
        }
        assert_eq!(state(64, 11, &[]).end(), Err(Refusal::STRAY_BITS));
        assert_eq!(state(64, 1, &[]).end(), Err(Refusal::SIZE));
        assert_eq!(state(64, 0, &[]).end(), Ok(Streamed { commitment: Node::default(), count: 64 }));
    }
}
