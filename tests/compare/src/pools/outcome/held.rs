//! Outcomes of asking for the held number.

use super::shape;
use crate::outcome::refused;
use reference::check_pool;
use reference::heap::Pool;

const CALL: &str = "held";
const ACCEPTED: &str = "held accepted";

const COUNTS: [&str; 5] = [
    "no frame",
    "one frame",
    "every frame but one",
    "every frame",
    "frames of several numbers",
];

pub fn all() -> Vec<String> {
    let mut all = refused::all_sets_of_grounds(CALL, &[1]);
    all.extend(shape::all_misfits(CALL));
    all.extend(shape::all_shapes(ACCEPTED));
    all.extend(COUNTS.map(of_count));
    all.extend(shape::all_places(CALL).into_iter().map(alone));
    all
}

pub fn of(pool: &Pool, answered: u32) -> Vec<String> {
    let grounds = refused::grounds(&[check_pool(pool)]);
    if !grounds.is_empty() {
        return vec![
            shape::misfit(CALL, pool.first, pool.size),
            refused::set_of_grounds(CALL, &grounds, answered),
        ];
    }
    let places: Vec<u32> = (0..pool.size)
        .filter(|&place| pool.is_held(place))
        .collect();
    let (held, size) = (places.len(), pool.size as usize);
    let holds = [
        held == 0,
        held == 1,
        held + 1 == size,
        held == size,
        held > 1 && places[0] / 64 != places[held - 1] / 64,
    ];
    let mut outcomes = shape::shapes(ACCEPTED, pool);
    let counts = COUNTS.into_iter().zip(holds).filter(|(_, holds)| *holds);
    outcomes.extend(counts.map(|(count, _)| of_count(count)));
    if let [place] = places[..] {
        outcomes.extend(shape::places(CALL, pool, place).into_iter().map(alone));
    }
    outcomes
}

fn of_count(count: &str) -> String {
    format!("held is {count}")
}

/// The one frame that is held.
fn alone(place: String) -> String {
    format!("{place} alone")
}
