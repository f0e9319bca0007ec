//! RustCrypto's sha2.
use super::{Node, Peer};
use sha2::{Digest, Sha256};

pub struct RustCrypto;

impl Peer for RustCrypto {
    fn name(&self) -> String {
        if cfg!(feature = "soft") { "sha2, portable" } else { "sha2" }.to_string()
    }

    fn sha256(&self, message: &[u8]) -> Node {
        Sha256::digest(message).into()
    }
}
