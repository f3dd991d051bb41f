//! Outcomes of a start.

use super::refused;
use reference::{check_buffer, check_registers, Registers};

const CALL: &str = "start";
const ACCEPTED: &str = "start accepted";
const IGNORED: &str = "start accepted, register fields too large";

pub fn all() -> Vec<String> {
    [
        vec![ACCEPTED.to_string(), IGNORED.to_string()],
        refused::all_sets_of_grounds(CALL, &[2]),
        refused::all_lengths(CALL),
    ]
    .concat()
}

pub fn of(registers: Registers, buffer: &[u64], number: u32) -> Vec<String> {
    let grounds = refused::grounds(&[check_buffer(buffer)]);
    if !grounds.is_empty() {
        let mut outcomes = refused::of_length(CALL, buffer, &grounds);
        outcomes.push(refused::set_of_grounds(CALL, &grounds, number));
        return outcomes;
    }
    match check_registers(registers) {
        Ok(()) => vec![ACCEPTED.to_string()],
        Err(_) => vec![ACCEPTED.to_string(), IGNORED.to_string()],
    }
}
