//! The library at one level of x86-64, or an earlier one, opened as a shared object: so that all are timed in one
//! process.
use crate::peers::{Node, Peer};
use crate::record::{Longest, DEAL_NUMBER, DEAL_SIZE};
use std::ffi::{c_char, c_int, c_void, CStr, CString};
use std::path::Path;
use vizhuthamen::STREAM_STATE;

extern "C" {
    fn dlopen(path: *const c_char, mode: c_int) -> *mut c_void;
    fn dlsym(object: *mut c_void, name: *const c_char) -> *mut c_void;
    fn dlerror() -> *const c_char;
}

const RTLD_NOW: c_int = 2;

/// The levels of x86-64, the lowest first.
pub const LEVELS: [&str; 3] = ["v1", "v3", "v4"];

type Code = u32;
type In = *const u8;
type Out = *mut u8;
type Number = *mut u64;

/// The functions of include/vizhuthamen.h, without their prefix. New ones are named here and measured in routines.rs.
macro_rules! functions {
    ($($name:ident: ($($argument:ty),*);)*) => {
        #[derive(Clone)]
        pub struct Library {
            pub name: String,
            object: *mut c_void,
            $(pub $name: unsafe extern "C" fn($($argument),*) -> Code,)*
        }

        /// The functions' names in the library.
        pub const FUNCTIONS: &[&str] = &[$(concat!("vz_", stringify!($name)),)*];

        impl Library {
            /// Opens a shared object, and takes the functions that have the suffix; ends the program where it cannot
            /// be opened. A function that it lacks ends it when called.
            pub fn open(name: &str, file: &Path, suffix: &str) -> Library {
                let object = opened(file);
                // SAFETY: the object stays open, and its functions have the types of the header.
                unsafe {
                    Library {
                        name: name.to_string(),
                        object,
                        $($name: std::mem::transmute::<*mut c_void, unsafe extern "C" fn($($argument),*) -> Code>(
                            function(object, &format!("{}{suffix}", concat!("vz_", stringify!($name)))),
                        ),)*
                    }
                }
            }
        }
    };
}

functions! {
    sha256: (In, usize, Out, usize);
    commitment: (In, usize, Out, usize);
    stream_new: (Out, usize);
    stream_take: (Out, usize, In, usize);
    stream_end: (In, usize, Out, usize, Number);
    fr32_pad: (In, usize, Out, usize, Number);
    fr32_unpad: (u64, In, usize, Out, usize, Number);
    index_numbers: (u64, Number, Number);
    make_entry: (In, usize, u64, u64, Out, usize);
    read_entry: (In, usize, *mut u32, Out, usize, Number, Number);
    audit: (In, usize, Out, usize);
    tally: (In, usize, Number, Number, Number);
    find: (In, usize, In, usize, Number, Number, Number);
    book: (Out, usize, Out, usize, u8, In, usize, Number, Number);
    cancel: (Out, usize, Out, usize, u8, u64);
    collect: (In, usize, In, usize, Out, usize, Out, usize);
    playback: (u64, In, usize, Number, *mut u32, Number, Number, Number, Out, usize);
    build: (In, usize, u64, u64, Out, usize, Number);
    check: (In, usize, u64, u64, In, usize);
    settle_records: (In, usize, u64, u64, In, usize, In, usize, Out, usize, Out, usize);
    settle_with_deal: (In, usize, u64, In, usize, Out, usize, Out, usize);
    tree_fill: (In, usize, Out, usize);
    tree_row: (In, usize, Out, usize);
    book_with_tree: (Out, usize, Out, usize, Out, usize, u8, In, usize, Number, Number);
    cancel_with_tree: (Out, usize, Out, usize, Out, usize, u8, u64);
    collect_with_tree: (In, usize, In, usize, Out, usize, Out, usize, Out, usize);
    build_with_tree: (In, usize, In, usize, u64, u64, Out, usize, Number);
    settle_with_tree: (In, usize, In, usize, u64, In, usize, Out, usize, Out, usize);
    read_field: (In, usize, u64, *mut u32, Number, Number, Number);
}

fn opened(file: &Path) -> *mut c_void {
    let path = CString::new(file.as_os_str().as_encoded_bytes()).expect("a path has no zero byte");
    // SAFETY: the path is a C string.
    let object = unsafe { dlopen(path.as_ptr(), RTLD_NOW) };
    if object.is_null() {
        // SAFETY: after a failed dlopen this is a C string.
        panic!("{}", unsafe { CStr::from_ptr(dlerror()) }.to_string_lossy());
    }
    object
}

fn function(object: *mut c_void, name: &str) -> *mut c_void {
    let function = symbol(object, name);
    if function.is_null() {
        return absent as *mut c_void;
    }
    function
}

fn symbol(object: *mut c_void, name: &str) -> *mut c_void {
    let name = CString::new(name).expect("a name has no zero byte");
    // SAFETY: the object is open, and the name a C string.
    unsafe { dlsym(object, name.as_ptr()) }
}

extern "C" fn absent() -> Code {
    panic!("an earlier library lacks this function");
}

impl Library {
    /// The level that the library chooses for a function on this processor; none in a library of one level.
    pub fn level_of(&self, function: &str) -> Option<&'static str> {
        let chosen = symbol(self.object, function);
        LEVELS.into_iter().find(|level| symbol(self.object, &format!("{function}_{level}")) == chosen)
    }
}

impl Library {
    /// The commitment of a run.
    pub fn root(&self, run: &[u8]) -> Node {
        let mut node = [0; 32];
        // SAFETY: both slices are live and apart.
        let code = unsafe { (self.commitment)(run.as_ptr(), run.len(), node.as_mut_ptr(), 32) };
        assert_eq!(code, 0);
        node
    }

    /// The commitment of bytes that arrive in pieces of a size.
    pub fn streamed(&self, bytes: &[u8], piece: usize) -> Node {
        let (mut state, mut node, mut count) = ([0u8; STREAM_STATE], [0; 32], 0);
        // SAFETY: all slices are live and apart.
        unsafe {
            (self.stream_new)(state.as_mut_ptr(), state.len());
            for piece in bytes.chunks(piece) {
                (self.stream_take)(state.as_mut_ptr(), state.len(), piece.as_ptr(), piece.len());
            }
            let code = (self.stream_end)(state.as_ptr(), state.len(), node.as_mut_ptr(), 32, &mut count);
            assert_eq!(code, 0);
        }
        node
    }

    pub fn accepts(&self, commitment: &[u8], size: u64, record: &[u8]) -> bool {
        let (commitment, n, record, m) = (commitment.as_ptr(), commitment.len(), record.as_ptr(), record.len());
        // SAFETY: both slices are live, and nothing is written.
        unsafe { (self.check)(commitment, n, size, DEAL_NUMBER, record, m) == 0 }
    }
}

/// The library does what its peers do. It has no node hash of its own: the commitment of 64 bytes is one.
impl Peer for Library {
    fn name(&self) -> String {
        format!("library, {}", self.name)
    }

    fn sha256(&self, message: &[u8]) -> Node {
        let mut digest = [0; 32];
        // SAFETY: both slices are live and apart.
        let code = unsafe { (self.sha256)(message.as_ptr(), message.len(), digest.as_mut_ptr(), 32) };
        assert_eq!(code, 0);
        digest
    }

    fn node_hash(&self, pair: &[u8; 64]) -> Node {
        self.root(pair)
    }

    fn commitment(&self, run: &[u8]) -> Node {
        self.root(run)
    }

    fn check(&self, longest: &Longest) -> bool {
        self.accepts(&longest.commitment, DEAL_SIZE, &longest.record)
    }
}
