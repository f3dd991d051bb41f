//! A new pool.

use super::pool::{Pool, BIT_NUMBERS};
use crate::refusal::{check_pool, Refusal};

/// "A new pool, all free"; refusal 1, and "a refused new one all 0".
pub fn new_pool(first: u32, size: u32) -> (Result<(), Refusal>, Pool) {
    let pool = Pool {
        first,
        size,
        bits: [0; BIT_NUMBERS],
    };
    match check_pool(&pool) {
        Ok(()) => (Ok(()), pool),
        Err(refusal) => (Err(refusal), Pool::ALL_ZERO),
    }
}
