//! Outcomes of a new pool.

use super::shape;
use reference::check_pool;
use reference::heap::{Pool, BIT_NUMBERS, MOST_FRAMES, PFNS};

const CALL: &str = "new pool";
const ACCEPTED: &str = "new pool accepted";

/// What the pool of the request is, which is not looked at.
const BESIDES: [&str; 3] = ["that fits", "that does not fit", "all 0"];

pub fn all() -> Vec<String> {
    let mut all = shape::all_misfits(CALL);
    all.extend(ENDS.map(|end| format!("{ACCEPTED}, {end}")));
    for end in [ACCEPTED, "new pool refused"] {
        all.extend(BESIDES.map(|besides| format!("{end}, beside a pool {besides}")));
    }
    all
}

const ENDS: [&str; 8] = [
    "size 1",
    "size 4096",
    "size a multiple of 64",
    "size no multiple of 64",
    "from pfn 0 on",
    "from another pfn on",
    "up to pfn 524287",
    "up to another pfn",
];

pub fn of((first, size): (u32, u32), beside: &Pool) -> Vec<String> {
    let besides = BESIDES[match beside {
        _ if *beside == Pool::ALL_ZERO => 2,
        _ => usize::from(check_pool(beside).is_err()),
    }];
    let asked = Pool {
        first,
        size,
        bits: [0; BIT_NUMBERS],
    };
    if check_pool(&asked).is_err() {
        return vec![
            shape::misfit(CALL, first, size),
            format!("new pool refused, beside a pool {besides}"),
        ];
    }
    let holds = [
        size == 1,
        size == MOST_FRAMES,
        size.is_multiple_of(64),
        !size.is_multiple_of(64),
        first == 0,
        first != 0,
        first + size == PFNS,
        first + size != PFNS,
    ];
    let mut outcomes = vec![format!("{ACCEPTED}, beside a pool {besides}")];
    let ends = ENDS.into_iter().zip(holds).filter(|(_, holds)| *holds);
    outcomes.extend(ends.map(|(end, _)| format!("{ACCEPTED}, {end}")));
    outcomes
}
