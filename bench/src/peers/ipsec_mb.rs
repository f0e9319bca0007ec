//! intel-ipsec-mb, by c/ipsec_mb.c: many messages at once. A single message is one job, flushed.
use super::{with_sha_instructions, Node, Peer, IPSEC_MB};
use std::ffi::c_int;

/// struct IMB_MGR of <intel-ipsec-mb.h>.
#[repr(C)]
struct Manager {
    private: [u8; 0],
}

extern "C" {
    fn ipsec_mb_new(bits: c_int, with_sha: c_int) -> *mut Manager;
    fn ipsec_mb_sha256(manager: *mut Manager, message: *const u8, length: usize, digest: *mut u8);
    fn ipsec_mb_commitment(manager: *mut Manager, run: *const u8, length: usize, node: *mut u8);
}

pub struct IpsecMb {
    bits: c_int,
    manager: *mut Manager,
}

impl IpsecMb {
    /// The manager for vectors of a number of bits; it stays for the whole run. With SHA instructions those of 128 and
    /// 256 bits take them in the place of vectors.
    pub fn new(bits: c_int) -> Option<IpsecMb> {
        // SAFETY: no argument is a pointer.
        let manager = unsafe { ipsec_mb_new(bits, with_sha_instructions().into()) };
        (!manager.is_null()).then_some(IpsecMb { bits, manager })
    }
}

impl Peer for IpsecMb {
    fn name(&self) -> String {
        let vectors = match self.bits {
            128 => "SSE",
            256 => "AVX2",
            _ => "AVX-512",
        };
        format!("{IPSEC_MB} {vectors}{}", if with_sha_instructions() { "" } else { ", masked" })
    }

    fn sha256(&self, message: &[u8]) -> Node {
        let mut digest = [0; 32];
        // SAFETY: the manager lives, the slices are live, and 32 bytes are written.
        unsafe { ipsec_mb_sha256(self.manager, message.as_ptr(), message.len(), digest.as_mut_ptr()) };
        digest
    }

    fn commitment(&self, run: &[u8]) -> Node {
        let mut node = [0; 32];
        // SAFETY: the manager lives, the slices are live, the run's length is one of a tree, and 32 bytes are written.
        unsafe { ipsec_mb_commitment(self.manager, run.as_ptr(), run.len(), node.as_mut_ptr()) };
        node
    }
}
