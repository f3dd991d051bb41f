//! Outcomes of a give.

use super::shape;
use crate::outcome::refused;
use reference::heap::{Pool, MOST_FRAMES, PFNS};
use reference::{check_pool, Refusal};

const CALL: &str = "give";
const ACCEPTED: &str = "give accepted";

const TO_FULL: &str = "give to a pool with every frame held";
const LAST_HELD: &str = "give of the last held frame";
const LAST_PFN: &str = "give of pfn 524287";

/// Which of the frames beside the given one are held.
const NEIGHBOURS: [&str; 4] = ["none", "the one below", "the one above", "both"];

/// Why a frame can't be given.
const REFUSED: [&str; 13] = [
    "just below the pool",
    "further below the pool",
    "just past the pool",
    "further past the pool",
    "past pfn 524287",
    "pfn 4294967295",
    "past the size, its bit set",
    "past the size, its bit clear",
    "4096 past a held frame",
    "524288 past a held frame",
    "a free frame beside a held one",
    "a free frame of a pool with none held",
    "the last frame, free",
];

pub fn all() -> Vec<String> {
    let mut all = refused::all_sets_of_grounds(CALL, &[1, 11]);
    all.extend(shape::all_misfits(CALL));
    all.extend(REFUSED.map(not_held));
    all.extend(shape::all_shapes(ACCEPTED));
    all.extend(shape::all_places(CALL));
    for at in ["0", "63", "between"] {
        all.extend(NEIGHBOURS.map(|held| beside(at, held)));
    }
    all.extend([TO_FULL, LAST_HELD, LAST_PFN].map(String::from));
    all
}

pub fn of(pool: &Pool, pfn: u32, answered: u32) -> Vec<String> {
    let grounds = refused::grounds(&[check_pool(pool), check_held(pool, pfn)]);
    let mut outcomes = match grounds[..] {
        [] => return of_accepted(pool, pfn),
        [11] => of_not_held(pool, pfn),
        _ => vec![shape::misfit(CALL, pool.first, pool.size)],
    };
    outcomes.push(refused::set_of_grounds(CALL, &grounds, answered));
    outcomes
}

/// The ground 11, asked by itself, as far as the pool has bits for its frames.
fn check_held(pool: &Pool, pfn: u32) -> Result<(), Refusal> {
    match is_held(pool, pfn.into()) {
        true => Ok(()),
        false => Err(Refusal::NotHeld),
    }
}

/// Whether a number is the pfn of a held frame.
fn is_held(pool: &Pool, pfn: i64) -> bool {
    let place = pfn - i64::from(pool.first);
    (0..i64::from(pool.size.min(MOST_FRAMES))).contains(&place) && pool.is_held(place as u32)
}

fn of_accepted(pool: &Pool, pfn: u32) -> Vec<String> {
    let place = pfn - pool.first;
    let held = shape::held(pool);
    let neighbours = [-1, 1].map(|by| is_held(pool, i64::from(pfn) + by));
    let at = match place % 64 {
        0 => "0",
        63 => "63",
        _ => "between",
    };
    let [below, above] = neighbours.map(usize::from);
    let mut outcomes = shape::shapes(ACCEPTED, pool);
    outcomes.extend(shape::places(CALL, pool, place));
    outcomes.push(beside(at, NEIGHBOURS[below + 2 * above]));
    let mut note = |holds: bool, outcome: &str| {
        if holds {
            outcomes.push(outcome.to_string());
        }
    };
    note(held == pool.size as usize, TO_FULL);
    note(held == 1, LAST_HELD);
    note(pfn == PFNS - 1, LAST_PFN);
    outcomes
}

fn of_not_held(pool: &Pool, pfn: u32) -> Vec<String> {
    let wide = i64::from(pfn);
    let (first, size) = (i64::from(pool.first), i64::from(pool.size));
    let end = first + size;
    let inside = (first..end).contains(&wide);
    let bit_past = (end..first + i64::from(MOST_FRAMES))
        .contains(&wide)
        .then(|| pool.is_held(pfn - pool.first));
    let holds = [
        wide == first - 1,
        wide < first - 1,
        wide == end,
        wide > end,
        pfn >= PFNS,
        pfn == u32::MAX,
        bit_past == Some(true),
        bit_past == Some(false),
        !inside && is_held(pool, wide - i64::from(MOST_FRAMES)),
        !inside && is_held(pool, wide - i64::from(PFNS)),
        inside && (is_held(pool, wide - 1) || is_held(pool, wide + 1)),
        inside && shape::held(pool) == 0,
        wide == end - 1,
    ];
    REFUSED
        .into_iter()
        .zip(holds)
        .filter(|(_, holds)| *holds)
        .map(|(why, _)| not_held(why))
        .collect()
}

fn not_held(why: &str) -> String {
    format!("give refused 11, {why}")
}

fn beside(at: &str, held: &str) -> String {
    match at {
        "between" => format!("give at a bit between, neighbours held: {held}"),
        _ => format!("give at bit {at}, neighbours held: {held}"),
    }
}
