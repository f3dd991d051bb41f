//! What kind of pool a call is handed, and which frame of it is concerned.

use reference::heap::{Pool, MOST_FRAMES, PFNS};

const MISFITS: [&str; 9] = [
    SIZE_0,
    SIZE_0_PAST,
    SIZE_4097,
    SIZE_ABOVE,
    BOTH,
    ONE_PAST,
    SOME_PAST,
    ALL_PAST,
    END_PAST,
];
const SIZE_0: &str = "size 0";
const SIZE_0_PAST: &str = "size 0 past pfn 524287";
const SIZE_4097: &str = "size 4097";
const SIZE_ABOVE: &str = "size above 4097";
const BOTH: &str = "size above 4096 and past pfn 524287";
const ONE_PAST: &str = "one frame past pfn 524287";
const SOME_PAST: &str = "several frames past pfn 524287";
const ALL_PAST: &str = "every frame past pfn 524287";
const END_PAST: &str = "first pfn + size above 4294967295";

/// Outcomes of number 1 for the pool.
pub fn all_misfits(call: &str) -> Vec<String> {
    MISFITS.map(|kind| misfit_of_kind(call, kind)).to_vec()
}

pub fn misfit(call: &str, first: u32, size: u32) -> String {
    let end = u64::from(first) + u64::from(size);
    let past = end.saturating_sub(u64::from(PFNS));
    let kind = match (size, past) {
        (0, 0) => SIZE_0,
        (0, _) => SIZE_0_PAST,
        (4097, 0) => SIZE_4097,
        (4098.., 0) => SIZE_ABOVE,
        (4097.., _) => BOTH,
        _ if end >= 1 << 32 => END_PAST,
        (_, 1) if size > 1 => ONE_PAST,
        _ if past < u64::from(size) => SOME_PAST,
        _ => ALL_PAST,
    };
    misfit_of_kind(call, kind)
}

fn misfit_of_kind(call: &str, kind: &str) -> String {
    format!("{call} refused 1, pool: {kind}")
}

const SHAPES: [&str; 9] = [
    ONE_FRAME,
    MOST,
    ONE_LESS,
    MULTIPLE,
    NO_MULTIPLE,
    FROM_0,
    TO_THE_END,
    SET_PAST,
    CLEAR_PAST,
];
const ONE_FRAME: &str = "size 1";
const MOST: &str = "size 4096";
const ONE_LESS: &str = "size 4095";
const MULTIPLE: &str = "size a multiple of 64";
const NO_MULTIPLE: &str = "size no multiple of 64";
const FROM_0: &str = "from pfn 0 on";
const TO_THE_END: &str = "up to pfn 524287";
const SET_PAST: &str = "bits past the size set in its last number";
const CLEAR_PAST: &str = "bits past the size clear in its last number";

/// Outcomes of a pool that fits.
pub fn all_shapes(call: &str) -> Vec<String> {
    SHAPES.map(|shape| format!("{call}, pool {shape}")).to_vec()
}

pub fn shapes(call: &str, pool: &Pool) -> Vec<String> {
    let size = pool.size;
    let rest = (size..size.div_ceil(64) * 64).collect::<Vec<u32>>();
    let is_set = |place: &u32| pool.is_held(*place);
    let holds = [
        size == 1,
        size == MOST_FRAMES,
        size == MOST_FRAMES - 1,
        size.is_multiple_of(64),
        !size.is_multiple_of(64),
        pool.first == 0,
        pool.first + size == PFNS,
        !rest.is_empty() && rest.iter().all(is_set),
        !rest.is_empty() && !rest.iter().any(is_set),
    ];
    SHAPES
        .into_iter()
        .zip(holds)
        .filter(|(_, holds)| *holds)
        .map(|(shape, _)| format!("{call}, pool {shape}"))
        .collect()
}

const PLACES: [&str; 11] = [
    "the only frame",
    "the first frame",
    "the last frame",
    "an inner frame",
    "in the first number",
    "in a number between",
    "in the last number, which is whole",
    "in the last number, which is in part",
    "at bit 0",
    "at bit 63",
    "at a bit between",
];

/// Outcomes of the frame that is concerned.
pub fn all_places(call: &str) -> Vec<String> {
    PLACES.map(|place| format!("{call}, {place}")).to_vec()
}

pub fn places(call: &str, pool: &Pool, place: u32) -> Vec<String> {
    let last = pool.size - 1;
    let only = last == 0;
    let in_last = place / 64 == last / 64;
    let is_whole = pool.size.is_multiple_of(64);
    let holds = [
        only,
        place == 0 && !only,
        place == last && !only,
        0 < place && place < last,
        place < 64,
        64 <= place && !in_last,
        in_last && is_whole,
        in_last && !is_whole,
        place.is_multiple_of(64),
        place % 64 == 63,
        (1..63).contains(&(place % 64)),
    ];
    PLACES
        .into_iter()
        .zip(holds)
        .filter(|(_, holds)| *holds)
        .map(|(place, _)| format!("{call}, {place}"))
        .collect()
}

/// Whether every frame is held, as far as the pool has bits for them.
pub fn is_full(pool: &Pool) -> bool {
    (0..pool.size.min(MOST_FRAMES)).all(|place| pool.is_held(place))
}

/// The held frames of a pool that fits.
pub fn held(pool: &Pool) -> usize {
    (0..pool.size).filter(|&place| pool.is_held(place)).count()
}
