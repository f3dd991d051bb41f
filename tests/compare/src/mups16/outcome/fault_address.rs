//! What becomes of the fault address that a call finds.

use super::super::call::{Operation, OPERATIONS, WITH_RUN};
use super::{map, Case};

/// Every set of faults but none.
const FAULTS: std::ops::RangeInclusive<u32> = 1..=7;

const GOOD_MAP: &str = "a map without a fault";
const BOOT_MAP: &str = "a map in boot mode without a fault out of it";

pub fn all() -> Vec<String> {
    let mut all = Vec::new();
    for is_zero in [true, false] {
        let refused = WITH_RUN.map(by_refused);
        let others = OPERATIONS.into_iter().filter(|&one| one != Operation::Map);
        let faulting = FAULTS.map(by_boot_map);
        let single = [GOOD_MAP, BOOT_MAP].map(String::from);
        let ways = refused
            .into_iter()
            .chain(others.map(by_other))
            .chain(faulting)
            .chain(single);
        all.extend(ways.map(|way| kept(is_zero, &way)));
        all.extend(FAULTS.map(|faults| replaced(is_zero, faults)));
    }
    all
}

/// None where a fault's own address stood there before.
pub fn of(case: &Case) -> Option<String> {
    let address = case.state.fault_address;
    let operation = case.call.operation;
    let is_zero = address == 0;
    let way = match operation {
        _ if case.is_refused() => by_refused(operation),
        Operation::Map if case.state.boot_mode => match map::would_be(case) {
            0 => BOOT_MAP.to_string(),
            faults => by_boot_map(faults),
        },
        Operation::Map if case.faults() != 0 => {
            let is_other = u32::from(address) != case.call.a;
            return is_other.then(|| replaced(is_zero, case.faults()));
        }
        Operation::Map => GOOD_MAP.to_string(),
        _ => by_other(operation),
    };
    Some(kept(is_zero, &way))
}

fn by_refused(operation: Operation) -> String {
    format!("a refused {}", operation.name())
}

fn by_boot_map(faults: u32) -> String {
    format!("a map in boot mode with faults {faults} out of it")
}

fn by_other(operation: Operation) -> String {
    format!("a {}", operation.name())
}

fn kept(is_zero: bool, way: &str) -> String {
    format!("fault address {} kept by {way}", found(is_zero))
}

fn replaced(is_zero: bool, faults: u32) -> String {
    format!(
        "fault address {} replaced by a map with faults {faults}",
        found(is_zero)
    )
}

fn found(is_zero: bool) -> &'static str {
    match is_zero {
        true => "0",
        false => "above 0",
    }
}
