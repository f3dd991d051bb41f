//! The taking of a frame.

use super::pool::Pool;
use crate::refusal::{check_pool, Refusal};

/// The pfn of the frame taken. "Taking gives the lowest free frame, and is refused with 10 exactly
/// when every frame is held"; refusal 1 before it.
pub fn take(pool: Pool) -> (Result<u32, Refusal>, Pool) {
    if let Err(refusal) = check_pool(&pool) {
        return (Err(refusal), pool);
    }
    match pool.lowest_free() {
        Some(place) => (Ok(pool.first + place), pool.with_other_bit(place)),
        None => (Err(Refusal::PoolFull), pool),
    }
}
