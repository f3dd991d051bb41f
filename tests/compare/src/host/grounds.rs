//! The grounds on which a C call is refused, each asked by itself.

use super::case::{words_of_bytes, Case};
use super::outcome::{RAW, SERVED, SETTING, START, STORE};
use crate::protocol::Call;
use reference::host::{BUFFER_BYTES, MOST_TABLE_BYTES, REGISTER_BYTES};
use reference::*;

/// A register length is a ground of its own.
pub const BY_LENGTH: &str = "1 by length";
const BY_CONTENT: &str = "1 by content";

/// Each call with the grounds that it can be refused on, in their order.
const POSSIBLE: [(&str, &[&str]); 5] = [
    (RAW, &[BY_LENGTH, BY_CONTENT, "2", "4"]),
    (SERVED, &[BY_LENGTH, BY_CONTENT, "2", "3", "4", "5"]),
    (STORE, &[BY_LENGTH, BY_CONTENT, "2", "3", "6"]),
    (START, &[BY_LENGTH, "2"]),
    (SETTING, &[BY_LENGTH, BY_CONTENT, "5", "7"]),
];

/// An outcome for each set of grounds that can come together, of each call.
pub fn all() -> Vec<String> {
    let of_call = |(call, possible): (&str, &[&str])| all_refused(call, possible);
    POSSIBLE.into_iter().flat_map(of_call).collect()
}

/// The register fields are unknown where their length is wrong, and with them the grounds that they
/// decide.
fn all_refused(call: &str, possible: &[&str]) -> Vec<String> {
    let by_fields: &[&str] = match call {
        SERVED => &[BY_CONTENT, "5"],
        _ => &[BY_CONTENT],
    };
    (1..1u32 << possible.len())
        .map(|set| {
            (0..possible.len())
                .filter(|n| set >> n & 1 == 1)
                .map(|n| possible[n])
                .collect::<Vec<&str>>()
        })
        .filter(|grounds| {
            !grounds.contains(&BY_LENGTH) || !grounds.iter().any(|it| by_fields.contains(it))
        })
        .map(|grounds| refused(call, &grounds))
        .collect()
}

/// The call's name and its grounds.
pub fn of(case: &Case) -> (&'static str, Vec<&'static str>) {
    let runs = &case.runs;
    let fields = (runs.registers.len() == REGISTER_BYTES).then(|| fields_of(&runs.registers));
    let fails = |check: fn(Registers) -> Result<(), Refusal>| {
        fields.is_some_and(|fields| check(fields).is_err())
    };
    let length = (fields.is_none(), BY_LENGTH);
    let content = (fails(check_registers), BY_CONTENT);
    let buffer = (runs.buffer.len() != BUFFER_BYTES, "2");
    let tables = (!is_table_length(runs.tables.len()), "3");
    let (call, all) = match case.call {
        Call::Raw(access) => (RAW, vec![length, content, buffer, (access.draw > 3, "4")]),
        Call::Served(access) => {
            let draw = (access.draw > 3, "4");
            let served = (fails(check_served), "5");
            (SERVED, vec![length, content, buffer, tables, draw, served])
        }
        Call::Store { index, .. } => {
            let index = (index as usize >= runs.tables.len() / 4, "6");
            (STORE, vec![length, content, buffer, tables, index])
        }
        Call::Start => (START, vec![length, buffer]),
        Call::Setting { number, value } => {
            let switch = (check_switch(number, value).is_err(), "5");
            let setting = (check_setting(number, value).is_err(), "7");
            (SETTING, vec![length, content, switch, setting])
        }
        other => panic!("{other:?} is no C call"),
    };
    let held = all.into_iter().filter(|(holds, _)| *holds);
    (call, held.map(|(_, ground)| ground).collect())
}

pub fn refused(call: &str, grounds: &[&str]) -> String {
    let number = &grounds[0][..1];
    let grounds = grounds.join(", ");
    format!("{call} refused {number}, grounds {grounds}")
}

pub fn is_table_length(bytes: usize) -> bool {
    bytes.is_multiple_of(4096) && (1..=MOST_TABLE_BYTES / 4096).contains(&(bytes / 4096))
}

fn fields_of(registers: &[u8]) -> Registers {
    let words = words_of_bytes(registers);
    Registers::from_words(words.try_into().expect("the registers are eleven words"))
}
