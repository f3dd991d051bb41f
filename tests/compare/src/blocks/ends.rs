//! Where a trace across blocks ends.

use super::Reads;
use reference::trace::RECORD_BYTES;

/// The numbers of records, around the blocks of both programs; the last is no multiple of either.
pub const LENGTHS: [usize; 8] = [1023, 1024, 1025, 8191, 8192, 8193, 16384, 70_003];

/// A cut record as the last of a block, and as the first of the next.
const BEFORE: &str = "before";
const BEHIND: &str = "behind";

pub fn all(reads: Reads) -> Vec<String> {
    let mut all = LENGTHS.map(|records| length(reads, records)).to_vec();
    all.push(full(reads));
    for bytes in 1..RECORD_BYTES {
        all.extend([BEFORE, BEHIND].map(|place| cut(reads, bytes, place)));
    }
    all
}

/// Those of so many records and a last piece of so many bytes.
pub fn of(reads: Reads, records: usize, piece: usize) -> Vec<String> {
    let mut outcomes = Vec::new();
    let behind = records % reads.block;
    match (piece, behind) {
        (0, _) => {
            if LENGTHS.contains(&records) {
                outcomes.push(length(reads, records));
            }
            if behind == 0 {
                outcomes.push(full(reads));
            }
        }
        (_, 0) => outcomes.push(cut(reads, piece, BEHIND)),
        (_, place) if place + 1 == reads.block => outcomes.push(cut(reads, piece, BEFORE)),
        _ => {}
    }
    outcomes
}

fn length(Reads { what, .. }: Reads, records: usize) -> String {
    format!("{what} across blocks, {records} records of all kinds")
}

fn full(Reads { what, .. }: Reads) -> String {
    format!("{what} across blocks, its last block is full")
}

fn cut(Reads { what, .. }: Reads, bytes: usize, place: &str) -> String {
    format!("{what} across blocks, a last piece of {bytes} bytes right {place} a boundary")
}
