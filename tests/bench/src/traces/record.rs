//! The records of a trace, each a number of 64 bits.

pub const BYTES: usize = 8;

const USER: u64 = 8 << 56;
const WRITE: u64 = 4 << 56;

pub fn user_read(page: u32, draw: u32) -> u64 {
    USER | access(page, draw)
}

pub fn user_write(page: u32, draw: u32) -> u64 {
    USER | WRITE | access(page, draw)
}

fn access(page: u32, draw: u32) -> u64 {
    u64::from(draw) << 56 | u64::from(page * 8192 + 0x123)
}

pub fn store(index: u32, value: u32) -> u64 {
    1 << 60 | u64::from(index) << 32 | u64::from(value)
}

pub fn context(value: u32) -> u64 {
    2 << 60 | u64::from(value)
}

pub fn ctrl(value: u32) -> u64 {
    3 << 60 | u64::from(value)
}

pub fn enable(value: u32) -> u64 {
    7 << 60 | u64::from(value)
}

/// A kind that no record has.
pub const MALFORMED: u64 = 15 << 60;
