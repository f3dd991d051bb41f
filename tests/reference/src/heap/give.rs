//! A frame given back.

use super::pool::Pool;
use crate::refusal::{check_pool, Refusal};

/// Refusals 1 and 11 in this order, 11 for a "frame not held or outside the pool".
pub fn give(pool: Pool, pfn: u32) -> (Result<(), Refusal>, Pool) {
    if let Err(refusal) = check_pool(&pool) {
        return (Err(refusal), pool);
    }
    match pool.place_of(pfn) {
        Some(place) if pool.is_held(place) => (Ok(()), pool.with_other_bit(place)),
        _ => (Err(Refusal::NotHeld), pool),
    }
}
