//! Outcomes of a take.

use super::shape;
use crate::outcome::refused;
use reference::heap::{Pool, PFNS};
use reference::{check_pool, Refusal};

const CALL: &str = "take";
const ACCEPTED: &str = "take accepted";
const FULL: &str = "take refused 10";

const FROM_ALL_FREE: &str = "take from a pool with no frame held";
const LAST_FREE: &str = "take of the last free frame";
const ABOVE_HELD: &str = "take, the next frame held";
const ABOVE_FREE: &str = "take, the next frame free";
const LAST_PFN: &str = "take of pfn 524287";

pub fn all() -> Vec<String> {
    let mut all = refused::all_sets_of_grounds(CALL, &[1, 10]);
    all.extend(shape::all_misfits(CALL));
    all.extend(shape::all_shapes(FULL));
    all.extend(shape::all_shapes(ACCEPTED));
    all.extend(all_accepted(CALL));
    all
}

/// The outcomes of the frame that an accepted take or map gets.
pub fn all_accepted(call: &str) -> Vec<String> {
    let mut all = shape::all_places(call);
    let single = [FROM_ALL_FREE, LAST_FREE, ABOVE_HELD, ABOVE_FREE, LAST_PFN];
    all.extend(single.map(|outcome| outcome.replacen(CALL, call, 1)));
    all
}

pub fn of(pool: &Pool, answered: u32) -> Vec<String> {
    let grounds = refused::grounds(&[check_pool(pool), check_free(pool)]);
    let mut outcomes = match grounds[..] {
        [] => {
            let mut outcomes = shape::shapes(ACCEPTED, pool);
            outcomes.extend(of_frame(CALL, pool, answered));
            return outcomes;
        }
        [10] => shape::shapes(FULL, pool),
        _ => vec![shape::misfit(CALL, pool.first, pool.size)],
    };
    outcomes.push(refused::set_of_grounds(CALL, &grounds, answered));
    outcomes
}

/// The ground 10, asked by itself.
pub fn check_free(pool: &Pool) -> Result<(), Refusal> {
    match shape::is_full(pool) {
        true => Err(Refusal::PoolFull),
        false => Ok(()),
    }
}

/// The outcomes of the frame that an accepted call gets.
pub fn of_frame(call: &str, pool: &Pool, pfn: u32) -> Vec<String> {
    let place = pfn - pool.first;
    let held = shape::held(pool);
    let mut outcomes = shape::places(call, pool, place);
    let mut note = |holds: bool, outcome: &str| {
        if holds {
            outcomes.push(outcome.replacen(CALL, call, 1));
        }
    };
    note(held == 0, FROM_ALL_FREE);
    note(held + 1 == pool.size as usize, LAST_FREE);
    if place + 1 < pool.size {
        let above = pool.is_held(place + 1);
        note(above, ABOVE_HELD);
        note(!above, ABOVE_FREE);
    }
    note(pfn == PFNS - 1, LAST_PFN);
    outcomes
}
