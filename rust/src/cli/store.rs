//! Files that several processes may change at once, and that a kill, a full disk or a power cut leaves whole.
//!
//! **The lock of a deal** is a lock (flock) of its file, taken for the file that the name leads to and held from
//! reading to the end of the change. A change renames a new file over the old one; the new one is locked before it has
//! a name, and whoever gets a lock looks again whether the name still leads to the locked file. So the lock holds over
//! the rename, is the same under every name of a deal, and ends with its process. A file that once had its name is
//! never written again, so reading one file needs no lock.
//!
//! **A change** (`change`) writes its files aside, unnamed where the system has such files, flushes them to the disk,
//! and then puts them in their places. One file is put there by a rename. Several are put there together or not at all:
//! a journal that names them is put in place first, and whoever opens the deal next ends what the journal says.
//!
//! **A log** (`log`) gets lines with a change: it grows in place, wherever it lies, and the journal has its name, its
//! length before and the lines, so that they too are added with the files or not at all. It has a lock of its own,
//! taken after the deal's.
//!
//! **Beside a deal** lie what is known of it (`sidecar`), the table of its owners (`owners`), which changes together
//! with the deal or alone, and its manifest (`cli::manifest`), which changes with the deal. All are read under the
//! lock, or without it as they were at one moment (`view`).
//!
//! **Names** that a change needs for a moment are those of the deal with a number (`names`). Whoever holds the deal's
//! lock may remove them, so that they never pile up; a file aside that is written without a deal's lock is locked
//! itself for as long as it is in use.
pub mod aside;
mod attributes;
pub mod change;
mod create;
mod deal;
mod journal;
mod lock;
pub mod log;
pub mod names;
mod owners;
mod sidecar;
mod signals;
pub mod system;
mod view;

pub use attributes::{Attributes, Keep};
pub use create::{create, NewDeal};
pub use deal::{troubled, Access, DealFile};
pub use owners::{NewTable, OwnerTable};
pub use sidecar::{known, said, Known};
pub use signals::Held;
pub use view::{view, View};
