//! What the unit tests share.
use crate::deal::{book, table_length, Booking, Position};

/// Bytes that look random, without stray bits; others for every seed.
pub fn noise(seed: u64, length: usize) -> Vec<u8> {
    let mut state = seed.wrapping_mul(0x9e37_79b9_7f4a_7c15) | 1;
    let byte = |i: usize| {
        state ^= state << 13;
        state ^= state >> 7;
        state ^= state << 17;
        let byte = (state >> 32) as u8;
        match i % 32 {
            31 => byte % 64,
            _ => byte,
        }
    };
    (0..length).map(byte).collect()
}

/// A segment of nodes without stray bits, another one for every seed.
pub fn segment(seed: u8, size: usize) -> Vec<u8> {
    let byte = |i: usize| match i % 32 {
        0 => seed,
        31 => 63,
        _ => (i / 32) as u8,
    };
    (0..size).map(byte).collect()
}

/// Books a segment for a house that holds no slot, whatever stands in the deal, and keeps no table.
pub fn put(deal: &mut [u8], segment: &[u8]) -> Position {
    let mut table = vec![0; table_length(deal.len())];
    match book(deal, None, &mut table, 1, segment) {
        Ok(Booking::Booked(position)) => position,
        other => panic!("the segment is not booked: {other:?}"),
    }
}
