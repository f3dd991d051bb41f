//! How many frames are held.

use super::pool::Pool;
use crate::refusal::{check_pool, Refusal};

/// The frames within the size that are held, counted one by one; refusal 1.
pub fn held(pool: &Pool) -> Result<u32, Refusal> {
    check_pool(pool)?;
    let mut held = 0;
    for place in 0..pool.size {
        if pool.is_held(place) {
            held += 1;
        }
    }
    Ok(held)
}
