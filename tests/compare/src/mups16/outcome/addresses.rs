//! Outcomes of entry addresses.

use super::super::call::{Operation, AT_ENTRIES};
use super::super::words::{ADDRESSES, PLACE_BITS};

pub fn all() -> Vec<String> {
    let single = (PLACE_BITS..32).map(|bit| 1 << bit);
    let kinds: Vec<u32> = single.chain([0, 3 << PLACE_BITS]).collect();
    let mut all = Vec::new();
    for operation in AT_ENTRIES {
        all.extend(ADDRESSES.map(|a| at(operation, a)));
        all.extend(kinds.iter().map(|&a| with_bits(operation, a)));
    }
    all
}

pub fn of(operation: Operation, a: u32) -> Vec<String> {
    let mut outcomes = vec![with_bits(operation, a)];
    if ADDRESSES.contains(&a) {
        outcomes.push(at(operation, a));
    }
    outcomes
}

fn at(operation: Operation, a: u32) -> String {
    format!("{} at {a}", operation.name())
}

fn with_bits(operation: Operation, a: u32) -> String {
    let above = a >> PLACE_BITS;
    let bits = match above {
        0 => "no bit".to_string(),
        _ if above.is_power_of_two() => format!("bit {} alone", PLACE_BITS + above.ilog2()),
        _ => "several bits".to_string(),
    };
    format!("{} at a place with {bits} above it", operation.name())
}
