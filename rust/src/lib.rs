//! Verifiable data aggregation (FRC-0058) over the proved static library libvizhuthamen.a.
//!
//! Every function here is a safe call of one function of the library, or of one of two where a tree may be in hand.
//! From 2^20 bytes on, [`commitment`] and [`tree_fill`] are calls for parts of the run, which all processors take; laws
//! of the library join them. [`commitment_with_threads`] and [`tree_fill_with_threads`] say how many threads may.
//! [`RawStreaming`] pads a raw archive, and commits to it, part by part in the same way. A refusal is a [`Refusal`],
//! which carries the code and its meaning in words. The answers with a code that is not 0 and yet carry values (15 of a
//! booking, 17 of a settling) are cases of [`Booking`] and [`Settled`]. A commitment is a [`Node`], which is written in
//! hex, or as a piece CID ([`cid`]).
//!
//! Whoever builds many records of one deal keeps its tree beside it ([`filled_tree`]), and lends it to [`book`],
//! [`cancel`], [`build`] and [`settle_with_deal`], which then hash little of the deal. [`collect`] fills one for the
//! second deal.
//!
//! Two houses, 1 and 2, book in one deal; whose entry a slot holds says a table beside the deal ([`table_length`]).
//! What to make of a deal that another program has made says its [`audit`]. A log has a [`Line`] for every booking and
//! cancellation whose answer gets one; [`playback`] says whether the rules give these answers.
//!
//! ```
//! let mut deal = vec![0; 512];
//! let mut table = vec![0; vizhuthamen::table_length(512)];
//! let (house, segment) = (1, [1; 128]);
//! let vizhuthamen::Booking::Booked(position) = vizhuthamen::book(&mut deal, None, &mut table, house, &segment)? else {
//!     unreachable!("an all-zero deal keeps nothing");
//! };
//! let number = 2026; // the deal's, which its bytes do not hold
//! let record = vizhuthamen::build(&deal, None, number, position.place)?;
//! let commitment = vizhuthamen::commitment(&deal)?;
//! vizhuthamen::check(commitment.as_ref(), 512, number, &record)?;
//! # Ok::<(), vizhuthamen::Refusal>(())
//! ```
#![deny(missing_docs)]
#![warn(missing_debug_implementations)]

mod archive;
mod audit;
pub mod cid;
mod codes;
mod deal;
mod entry;
pub mod ffi;
mod fr32;
mod hash;
pub mod hex;
mod log;
mod node;
mod parts;
mod playback;
mod record;
mod streaming;
mod tree;

pub use archive::{RawStreamed, RawStreaming, MAX_RAW_STREAM, RAW_PART};
pub use audit::{audit, audit_into, SlotState};
pub use codes::{meaning, Refusal};
pub use deal::{
    book, cancel, collect, find, table_length, tally, Booking, Found, Position, Tally, MAX_DEAL, MAX_TABLE,
};
pub use entry::{index_numbers, make_entry, read_entry, Entry, IndexNumbers, ReadEntry};
pub use fr32::{pad, pad_into, segment_length, unpad, unpad_into, MAX_RAW};
pub use hash::{commitment, commitment_with_threads, sha256};
pub use log::{lines, Answers, Fault, Line, Lines, Malformed, BOOKING_LINE, CANCELLING_LINE};
pub use node::{Node, NotANode};
pub use playback::{playback, LedgerRow, Playback, ROW, ROWS, WRONG_LINE};
pub use record::{
    build, build_into, check, fields, read_field, settle_records, settle_with_deal, Field, Fields, Settled, MAX_RECORD,
};
pub use streaming::{Streamed, Streaming, MAX_STREAM, STREAM_STATE};
pub use tree::{filled_tree, tree_fill, tree_fill_with_threads, tree_length, tree_row};

#[cfg(test)]
mod testing;
