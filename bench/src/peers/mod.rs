//! The implementations of SHA-256 that the library is measured against, and the same trees over each.
mod gcrypt;
#[cfg(feature = "go")]
mod go;
mod ipsec_mb;
mod nettle;
mod openssl;
mod rustcrypto;

use crate::record::{entry, Longest};
pub use openssl::OpenSsl;

pub type Node = [u8; 32];

/// An implementation of SHA-256. The rest follows from it, unless it has a way of its own to do the whole piece of
/// work.
pub trait Peer {
    fn name(&self) -> String;

    fn sha256(&self, message: &[u8]) -> Node;

    fn node_hash(&self, pair: &[u8; 64]) -> Node {
        let mut node = self.sha256(pair);
        node[31] &= 0x3f;
        node
    }

    /// Hashes a pair a number of times, each node hash becoming the left half of the next pair.
    fn node_chain(&self, pair: &mut [u8; 64], count: usize) {
        for _ in 0..count {
            let node = self.node_hash(pair);
            pair[..32].copy_from_slice(&node);
        }
    }

    /// The commitment of a run of at least 64 bytes.
    fn commitment(&self, run: &[u8]) -> Node {
        if let Ok(pair) = run.try_into() {
            return self.node_hash(pair);
        }
        let (left, right) = run.split_at(run.len() / 2);
        self.node_hash(&joined(&self.commitment(left), &self.commitment(right)))
    }

    /// The root that a node at a position reaches by a path.
    fn path_root(&self, node: Node, position: u64, path: &[u8]) -> Node {
        path.chunks_exact(32).enumerate().fold(node, |node, (level, sibling)| match (position >> level) & 1 {
            0 => self.node_hash(&joined(&node, sibling)),
            _ => self.node_hash(&joined(sibling, &node)),
        })
    }

    /// The work of the check of a record, 61 hashes: whether both paths lead to the commitment.
    fn check(&self, longest: &Longest) -> bool {
        let leaf = self.node_hash(&entry(|bytes| self.sha256(bytes), &longest.segment));
        self.path_root(longest.segment, 0, &longest.segment_path) == longest.commitment
            && self.path_root(leaf, longest.place / 64, &longest.entry_path) == longest.commitment
    }
}

pub fn joined(left: &[u8], right: &[u8]) -> [u8; 64] {
    let mut pair = [0; 64];
    pair[..32].copy_from_slice(left);
    pair[32..].copy_from_slice(right);
    pair
}

/// Whether the processor's SHA instructions are left to the peers: not where bench/run masks them.
pub fn with_sha_instructions() -> bool {
    std::env::var_os("OPENSSL_ia32cap").is_none()
}

/// The name of intel-ipsec-mb's peers up to their vectors.
pub const IPSEC_MB: &str = "ipsec-mb";

/// The peers of this build that this processor can run; OpenSSL is the first.
pub fn peers() -> Vec<Box<dyn Peer>> {
    let mut peers: Vec<Box<dyn Peer>> = vec![
        Box::new(OpenSsl),
        Box::new(rustcrypto::RustCrypto),
        Box::new(nettle::Nettle),
        Box::new(gcrypt::Gcrypt::new()),
    ];
    for bits in [128, 256, 512] {
        peers.extend(ipsec_mb::IpsecMb::new(bits).map(|peer| Box::new(peer) as Box<dyn Peer>));
    }
    #[cfg(feature = "go")]
    peers.push(Box::new(go::Go));
    peers
}
