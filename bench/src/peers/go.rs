//! Go's crypto/sha256. Only whole pieces of work are asked of it, since a call from C to Go is dear.
use super::{Node, Peer};
use crate::record::Longest;

pub struct Go;

extern "C" {
    fn go_sha256(data: *const u8, length: usize, out: *mut u8);
    fn go_node_chain(pair: *mut u8, count: usize);
    fn go_commitment(run: *const u8, length: usize, out: *mut u8);
    fn go_check(commitment: *const u8, record: *const u8, record_length: usize) -> i32;
}

impl Peer for Go {
    fn name(&self) -> String {
        "Go".to_string()
    }

    fn sha256(&self, message: &[u8]) -> Node {
        let mut digest = [0; 32];
        // SAFETY: the slices are live, and 32 bytes are written.
        unsafe { go_sha256(message.as_ptr(), message.len(), digest.as_mut_ptr()) };
        digest
    }

    fn node_chain(&self, pair: &mut [u8; 64], count: usize) {
        // SAFETY: the pair is live, and its 64 bytes are written.
        unsafe { go_node_chain(pair.as_mut_ptr(), count) };
    }

    fn commitment(&self, run: &[u8]) -> Node {
        let mut node = [0; 32];
        // SAFETY: the slices are live, and 32 bytes are written.
        unsafe { go_commitment(run.as_ptr(), run.len(), node.as_mut_ptr()) };
        node
    }

    fn check(&self, longest: &Longest) -> bool {
        // SAFETY: the slices are live, the commitment has 32 bytes, and nothing is written.
        unsafe { go_check(longest.commitment.as_ptr(), longest.record.as_ptr(), longest.record.len()) == 1 }
    }
}
