//! What the measured routines are lent.
use crate::record::{filled, Longest, DEAL_NUMBER};
use vizhuthamen::{Booking, Line, Node, MAX_DEAL, MAX_TABLE};

/// Clean nodes, the longest record, deals of 512 bytes and of 1 MiB that keep one segment of a quarter, and logs.
pub struct Inputs {
    pub bytes: Vec<u8>,
    pub longest: Longest,
    pub small: Kept,
    pub large: Kept,
    pub logs: Logs,
}

/// Logs of a deal of 16 MiB: the first booking; one that fills every slot; one booking and cancelling over and over.
pub struct Logs {
    pub first: Vec<u8>,
    pub full: Vec<u8>,
    pub turns: Vec<u8>,
}

/// The house whose segment a deal keeps.
pub const HOUSE: u8 = 1;

/// A deal with its tree and its table of owners, and with the entry, the segment and the record of what it keeps.
pub struct Kept {
    pub deal: Vec<u8>,
    pub tree: Vec<u8>,
    pub table: Vec<u8>,
    pub segment: Vec<u8>,
    pub place: u64,
    pub entry: Vec<u8>,
    pub record: Vec<u8>,
}

impl Inputs {
    pub fn new() -> Inputs {
        Inputs {
            bytes: filled(1 << 20),
            longest: Longest::new(),
            small: Kept::new(512),
            large: Kept::new(1 << 20),
            logs: Logs::new(),
        }
    }
}

impl Logs {
    fn new() -> Logs {
        let start = vizhuthamen::index_numbers(MAX_DEAL as u64).expect("a size of a deal").start;
        let booked = |slot: u64| Line::Booking {
            house: 1 + slot as u8 % 2,
            commitment: Node([slot as u8; 32]),
            size: 128,
            code: 0,
            offset: 128 * slot,
            place: start + 64 * slot,
        };
        let bookings: Vec<Vec<u8>> = (0..MAX_TABLE as u64).map(|slot| booked(slot).to_bytes()).collect();
        let cancelled = Line::Cancelling { house: 1, place: start, code: 0 }.to_bytes();
        let turns = [&bookings[0][..], &cancelled].concat().repeat(MAX_TABLE / 2);
        Logs { first: bookings[0].clone(), full: bookings.concat(), turns }
    }
}

impl Kept {
    fn new(size: usize) -> Kept {
        let (mut deal, segment) = (filled(size), filled(size / 4));
        let start = vizhuthamen::index_numbers(size as u64).expect("a size of a deal").start as usize;
        deal[start..].fill(0);
        let mut table = vec![0; vizhuthamen::table_length(size)];
        let Ok(Booking::Booked(position)) = vizhuthamen::book(&mut deal, None, &mut table, HOUSE, &segment) else {
            panic!("booking into a deal of {size} bytes");
        };
        let entry = deal[position.place as usize..][..64].to_vec();
        let tree = vizhuthamen::filled_tree(&deal).expect("a deal");
        let record = vizhuthamen::build(&deal, None, DEAL_NUMBER, position.place).expect("it is kept");
        Kept { deal, tree, table, segment, place: position.place, entry, record }
    }
}
