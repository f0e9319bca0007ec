//! OpenSSL's SHA256_Init, SHA256_Update and SHA256_Final.
use super::{Node, Peer};

pub struct OpenSsl;

/// SHA256_CTX of <openssl/sha.h>.
#[repr(C)]
struct Context {
    state: [u32; 8],
    bits: [u32; 2],
    data: [u32; 16],
    used: u32,
    digest_length: u32,
}

extern "C" {
    fn SHA256_Init(context: *mut Context) -> i32;
    fn SHA256_Update(context: *mut Context, data: *const u8, length: usize) -> i32;
    fn SHA256_Final(digest: *mut u8, context: *mut Context) -> i32;
}

impl Peer for OpenSsl {
    fn name(&self) -> String {
        if std::env::var_os("OPENSSL_ia32cap").is_some() { "OpenSSL, masked" } else { "OpenSSL" }.to_string()
    }

    fn sha256(&self, message: &[u8]) -> Node {
        let mut context = Context { state: [0; 8], bits: [0; 2], data: [0; 16], used: 0, digest_length: 0 };
        let mut digest = [0; 32];
        // SAFETY: the context has the layout of SHA256_CTX, and the digest 32 bytes.
        unsafe {
            SHA256_Init(&mut context);
            SHA256_Update(&mut context, message.as_ptr(), message.len());
            SHA256_Final(digest.as_mut_ptr(), &mut context);
        }
        digest
    }
}
