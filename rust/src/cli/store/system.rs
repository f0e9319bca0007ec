//! Functions of the system that std does not have, declared by hand as the C library (Linux, 64 bits) has them, each
//! behind a safe one.
use std::ffi::{c_char, c_int, c_uint, c_void, CStr, CString};
use std::fs::{File, OpenOptions};
use std::io;
use std::os::fd::AsRawFd;
use std::os::unix::ffi::OsStrExt;
use std::os::unix::fs::OpenOptionsExt;
use std::path::Path;
use std::sync::atomic::{AtomicBool, Ordering};

/// Numbers of errors that are told apart by number.
pub const EBUSY: i32 = 16;
pub const EXDEV: i32 = 18;
pub const EINVAL: i32 = 22;
pub const EROFS: i32 = 30;
pub const ENODATA: i32 = 61;
pub const EOPNOTSUPP: i32 = 95;

const AT_FDCWD: c_int = -100;
const AT_SYMLINK_FOLLOW: c_int = 0x400;
const RENAME_NOREPLACE: c_uint = 1;
const F_GETFD: c_int = 1;
const SIG_BLOCK: c_int = 0;
const SIG_SETMASK: c_int = 2;
const SIG_IGN: usize = 1;

/// __O_TMPFILE and O_DIRECTORY, which is another number on 64-bit ARM.
#[cfg(target_arch = "aarch64")]
const O_TMPFILE: c_int = 0o20_000_000 | 0o40_000;
#[cfg(not(target_arch = "aarch64"))]
const O_TMPFILE: c_int = 0o20_000_000 | 0o200_000;

/// A set of signals (sigset_t): 1024 bits.
#[repr(C)]
#[derive(Clone, Copy)]
pub struct Signals([u64; 16]);

/// What happens at a signal (struct sigaction).
#[repr(C)]
struct Action {
    handler: usize,
    mask: Signals,
    flags: c_int,
    restorer: usize,
}

extern "C" {
    fn linkat(from: c_int, old: *const c_char, to: c_int, new: *const c_char, flags: c_int) -> c_int;
    fn renameat2(from: c_int, old: *const c_char, to: c_int, new: *const c_char, flags: c_uint) -> c_int;
    fn flistxattr(fd: c_int, list: *mut c_char, size: usize) -> isize;
    fn fgetxattr(fd: c_int, name: *const c_char, value: *mut c_void, size: usize) -> isize;
    fn fsetxattr(fd: c_int, name: *const c_char, value: *const c_void, size: usize, flags: c_int) -> c_int;
    fn fcntl(fd: c_int, command: c_int, ...) -> c_int;
    fn sigaction(signal: c_int, new: *const Action, old: *mut Action) -> c_int;
    fn sigpending(set: *mut Signals) -> c_int;
    fn pthread_sigmask(how: c_int, new: *const Signals, old: *mut Signals) -> c_int;
    fn geteuid() -> c_uint;
}

/// Repeats a call that a signal has interrupted.
pub fn repeat<T>(mut call: impl FnMut() -> io::Result<T>) -> io::Result<T> {
    loop {
        match call() {
            Err(error) if error.kind() == io::ErrorKind::Interrupted => {}
            result => return result,
        }
    }
}

fn c_path(path: &Path) -> io::Result<CString> {
    CString::new(path.as_os_str().as_bytes()).map_err(|_| io::Error::from_raw_os_error(EINVAL))
}

fn done(result: c_int) -> io::Result<()> {
    match result {
        0 => Ok(()),
        _ => Err(io::Error::last_os_error()),
    }
}

/// The user on whose behalf the process works.
pub fn user() -> u32 {
    // SAFETY: asks for a number, and always succeeds.
    unsafe { geteuid() }
}

/// A new file of a folder that has no name; it vanishes with its last user unless it gets one.
pub fn unnamed(folder: &Path, mode: u32) -> io::Result<File> {
    OpenOptions::new().read(true).write(true).mode(mode).custom_flags(O_TMPFILE).open(folder)
}

/// Gives an unnamed file a name that is not taken.
pub fn give_name(file: &File, path: &Path) -> io::Result<()> {
    let old = c_path(Path::new(&format!("/proc/self/fd/{}", file.as_raw_fd())))?;
    let new = c_path(path)?;
    // SAFETY: both are live strings that end with a zero byte.
    repeat(|| done(unsafe { linkat(AT_FDCWD, old.as_ptr(), AT_FDCWD, new.as_ptr(), AT_SYMLINK_FOLLOW) }))
}

/// Renames a file to a name that is not taken.
pub fn rename_to_free(old: &Path, new: &Path) -> io::Result<()> {
    let (old, new) = (c_path(old)?, c_path(new)?);
    // SAFETY: both are live strings that end with a zero byte.
    repeat(|| done(unsafe { renameat2(AT_FDCWD, old.as_ptr(), AT_FDCWD, new.as_ptr(), RENAME_NOREPLACE) }))
}

/// Asks for a length first, then for as many bytes.
fn read_sized(read: impl Fn(*mut c_void, usize) -> isize) -> io::Result<Vec<u8>> {
    loop {
        let length = read(std::ptr::null_mut(), 0);
        let mut bytes = vec![0; usize::try_from(length).map_err(|_| io::Error::last_os_error())?];
        match usize::try_from(read(bytes.as_mut_ptr().cast(), bytes.len())) {
            Ok(length) if length <= bytes.len() => {
                bytes.truncate(length);
                return Ok(bytes);
            }
            Ok(_) => {}
            Err(_) => return Err(io::Error::last_os_error()),
        }
    }
}

/// The names of a file's extended attributes; none where its file system has no such thing.
pub fn attribute_names(file: &File) -> io::Result<Vec<CString>> {
    // SAFETY: the buffer has the length that is said; length 0 asks for the length alone.
    let list = read_sized(|list, size| unsafe { flistxattr(file.as_raw_fd(), list.cast(), size) });
    match list {
        Ok(list) => Ok(list
            .split_inclusive(|byte| *byte == 0)
            .filter_map(|n| CStr::from_bytes_with_nul(n).ok())
            .map(CString::from)
            .collect()),
        Err(error) if error.raw_os_error() == Some(EOPNOTSUPP) => Ok(vec![]),
        Err(error) => Err(error),
    }
}

/// The value of an extended attribute.
pub fn attribute(file: &File, name: &CStr) -> io::Result<Vec<u8>> {
    // SAFETY: the name is a live string, and the buffer has the length that is said.
    read_sized(|value, size| unsafe { fgetxattr(file.as_raw_fd(), name.as_ptr(), value, size) })
}

/// Sets an extended attribute.
pub fn set_attribute(file: &File, name: &CStr, value: &[u8]) -> io::Result<()> {
    // SAFETY: name and value are live, and the value has the length that is said.
    done(unsafe { fsetxattr(file.as_raw_fd(), name.as_ptr(), value.as_ptr().cast(), value.len(), 0) })
}

impl Signals {
    pub const NONE: Signals = Signals([0; 16]);

    pub fn with(mut self, signal: c_int) -> Signals {
        let bit = signal as usize - 1;
        self.0[bit / 64] |= 1 << (bit % 64);
        self
    }

    fn meets(&self, other: &Signals) -> bool {
        self.0.iter().zip(&other.0).any(|(a, b)| a & b != 0)
    }
}

/// Whether the process ignores a signal.
pub fn ignored(signal: c_int) -> bool {
    let mut old = Action { handler: 0, mask: Signals::NONE, flags: 0, restorer: 0 };
    // SAFETY: nothing is changed where the new action is null; the old one is a local of its own.
    let result = unsafe { sigaction(signal, std::ptr::null(), &mut old) };
    result == 0 && old.handler == SIG_IGN
}

/// Holds signals back in this thread; gives those that were held back before.
pub fn hold(signals: &Signals) -> Signals {
    let mut old = Signals::NONE;
    // SAFETY: both sets are live, and the one that is written is a local of its own.
    unsafe { pthread_sigmask(SIG_BLOCK, signals, &mut old) };
    old
}

/// Holds back these signals and no others; those that have come in the meantime act now.
pub fn release(old: &Signals) {
    // SAFETY: the set is live, and none is written.
    unsafe { pthread_sigmask(SIG_SETMASK, old, std::ptr::null_mut()) };
}

/// Whether one of these signals has come and is held back.
pub fn has_come(signals: &Signals) -> bool {
    let mut come = Signals::NONE;
    // SAFETY: the set that is written is a local of its own.
    unsafe { sigpending(&mut come) };
    come.meets(signals)
}

/// Whether standard output was closed when the process began.
static OUTPUT_CLOSED: AtomicBool = AtomicBool::new(false);

/// Runs before main: std opens /dev/null in the place of a closed standard output, after which nothing shows that it
/// was closed.
extern "C" fn look_at_output() {
    // SAFETY: asks for the flags of a descriptor, which may be closed.
    OUTPUT_CLOSED.store(unsafe { fcntl(1, F_GETFD) } == -1, Ordering::Relaxed);
}

#[used]
#[link_section = ".init_array"]
static BEFORE_MAIN: extern "C" fn() = look_at_output;

/// Whether standard output was closed when the process began.
pub fn output_closed() -> bool {
    OUTPUT_CLOSED.load(Ordering::Relaxed)
}
