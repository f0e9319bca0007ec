//! Nettle's sha256_init, sha256_update and sha256_digest.
use super::{with_sha_instructions, Node, Peer};

pub struct Nettle;

/// struct sha256_ctx of <nettle/sha2.h>.
#[repr(C)]
struct Context {
    state: [u32; 8],
    blocks: u64,
    index: u32,
    block: [u8; 64],
}

extern "C" {
    fn nettle_sha256_init(context: *mut Context);
    fn nettle_sha256_update(context: *mut Context, length: usize, data: *const u8);
    fn nettle_sha256_digest(context: *mut Context, length: usize, digest: *mut u8);
}

impl Peer for Nettle {
    fn name(&self) -> String {
        if with_sha_instructions() { "nettle" } else { "nettle, masked" }.to_string()
    }

    fn sha256(&self, message: &[u8]) -> Node {
        let mut context = Context { state: [0; 8], blocks: 0, index: 0, block: [0; 64] };
        let mut digest = [0; 32];
        // SAFETY: the context has the layout of struct sha256_ctx, and the digest 32 bytes.
        unsafe {
            nettle_sha256_init(&mut context);
            nettle_sha256_update(&mut context, message.len(), message.as_ptr());
            nettle_sha256_digest(&mut context, digest.len(), digest.as_mut_ptr());
        }
        digest
    }
}
