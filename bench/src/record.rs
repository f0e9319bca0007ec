//! The longest record that the check accepts: D = 2^36, S = 128, in a deal that is zero but for one segment and its
//! entry.
use crate::peers::{joined, Node, OpenSsl, Peer};

pub const DEAL_SIZE: u64 = 1 << 36;
/// The number of every deal that is measured.
pub const DEAL_NUMBER: u64 = 58;
const SEGMENT_SIZE: u64 = 128;

/// A record with the commitment of its deal, and what a peer needs to walk its two paths.
pub struct Longest {
    pub commitment: Node,
    pub record: Vec<u8>,
    pub segment: Node,
    pub place: u64,
    pub segment_path: Vec<u8>,
    pub entry_path: Vec<u8>,
}

impl Longest {
    /// The segment is at offset 0, its entry in the last slot: their paths meet at the root alone.
    pub fn new() -> Longest {
        let zeros = zero_nodes(36 - 5);
        let segment = OpenSsl.commitment(&filled(SEGMENT_SIZE as usize));
        let place = DEAL_SIZE - 64;
        let mut segment_path = zeros[2..30].concat();
        let mut entry_path = zeros[1..30].concat();
        let left = OpenSsl.path_root(segment, 0, &segment_path);
        let right = OpenSsl.path_root(
            OpenSsl.node_hash(&entry(|bytes| OpenSsl.sha256(bytes), &segment)),
            place / 64,
            &entry_path,
        );
        segment_path.extend(right);
        entry_path.extend(left);
        let commitment = OpenSsl.node_hash(&joined(&left, &right));
        let record = encoded(&segment, place, &segment_path, &entry_path);
        Longest { commitment, record, segment, place, segment_path, entry_path }
    }
}

/// Nodes without stray bits.
pub fn filled(size: usize) -> Vec<u8> {
    (0..size).map(|i| if i % 32 == 31 { 0 } else { (i * 7 + i / 8192) as u8 }).collect()
}

/// The commitments of all-zero runs: 32 bytes, 64 bytes, and so on.
fn zero_nodes(count: usize) -> Vec<Node> {
    std::iter::successors(Some([0; 32]), |node| Some(OpenSsl.node_hash(&joined(node, node)))).take(count).collect()
}

/// The entry of the segment at offset 0.
pub fn entry(sha256: impl Fn(&[u8]) -> Node, segment: &Node) -> [u8; 64] {
    let mut entry = [0; 64];
    entry[..32].copy_from_slice(segment);
    entry[40..48].copy_from_slice(&SEGMENT_SIZE.to_le_bytes());
    let checksum = sha256(&entry);
    entry[48..].copy_from_slice(&checksum[..16]);
    entry[63] &= 0x3f;
    entry
}

fn encoded(segment: &Node, place: u64, segment_path: &[u8], entry_path: &[u8]) -> Vec<u8> {
    let [offset, size, place, number] = [0, SEGMENT_SIZE, place, DEAL_NUMBER].map(u64::to_le_bytes);
    let contents: [&[u8]; 7] = [segment, &offset, &size, &place, segment_path, entry_path, &number];
    let mut record = vec![];
    for (tag, content) in (1..).zip(contents) {
        record.push(tag);
        record.extend((content.len() as u16).to_le_bytes());
        record.extend(content);
    }
    record
}
