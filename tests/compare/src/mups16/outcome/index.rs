//! Outcomes of what the table index is set to.

use super::super::call::Operation;
use super::super::words::INDICES;
use reference::mups16::TABLES;

const OTHER_TABLE: &str = "another table";
const OTHER_ABOVE: &str = "another value above 31";

pub fn all() -> Vec<String> {
    let single = (0..32).map(|bit| 1 << bit);
    let others = [3, 3 << 5].map(|value| to_kind(kind(value)));
    let exact = INDICES.into_iter().chain(single);
    exact.map(to_value).chain(others).collect()
}

pub fn of(value: u32) -> Vec<String> {
    match INDICES.contains(&value) || value.is_power_of_two() {
        true => vec![to_value(value)],
        false => vec![to_kind(kind(value))],
    }
}

fn kind(value: u32) -> &'static str {
    match value {
        ..TABLES => OTHER_TABLE,
        _ => OTHER_ABOVE,
    }
}

fn to_value(value: u32) -> String {
    to_kind(&format!("{value:X} (hex)"))
}

fn to_kind(kind: &str) -> String {
    format!("{} to {kind}", Operation::SetIndex.name())
}
