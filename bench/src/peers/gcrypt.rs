//! Libgcrypt's gcry_md_hash_buffer.
use super::{with_sha_instructions, Node, Peer};
use std::ffi::{c_char, c_int, c_void};
use std::ptr;

pub struct Gcrypt;

const GCRY_MD_SHA256: c_int = 8;
const GCRYCTL_DISABLE_SECMEM: c_int = 37;
const GCRYCTL_INITIALIZATION_FINISHED: c_int = 38;
const GCRYCTL_DISABLE_HWF: c_int = 63;

extern "C" {
    fn gcry_check_version(version: *const c_char) -> *const c_char;
    fn gcry_control(command: c_int, ...) -> u32;
    fn gcry_md_hash_buffer(algorithm: c_int, digest: *mut c_void, data: *const c_void, length: usize);
}

impl Gcrypt {
    /// Starts the library, without SHA instructions where they are masked.
    pub fn new() -> Gcrypt {
        // SAFETY: the calls that libgcrypt asks for before its first use, with C strings and null pointers.
        unsafe {
            if !with_sha_instructions() {
                gcry_control(GCRYCTL_DISABLE_HWF, c"intel-shaext".as_ptr(), ptr::null::<c_char>());
            }
            gcry_check_version(ptr::null());
            gcry_control(GCRYCTL_DISABLE_SECMEM, 0);
            gcry_control(GCRYCTL_INITIALIZATION_FINISHED, 0);
        }
        Gcrypt
    }
}

impl Peer for Gcrypt {
    fn name(&self) -> String {
        if with_sha_instructions() { "libgcrypt" } else { "libgcrypt, masked" }.to_string()
    }

    fn sha256(&self, message: &[u8]) -> Node {
        let mut digest = [0u8; 32];
        let (out, data) = (digest.as_mut_ptr().cast(), message.as_ptr().cast());
        // SAFETY: the slices are live, and 32 bytes are written.
        unsafe { gcry_md_hash_buffer(GCRY_MD_SHA256, out, data, message.len()) };
        digest
    }
}
