//! Outcomes of a guarded setting.

use super::{refused, Runs};
use crate::protocol::{Answer, Request};
use reference::*;

const CALL: &str = "guarded setting";
const IN_SEQUENCE: &str = "sequence, guarded setting";
const GROUNDS: [u32; 3] = [1, 5, 7];

const OTHER_LENGTH: &str = "guarded setting accepted, buffer not 64 long";
const OTHER_RUN: &str = "guarded setting accepted, table run that a store refuses";
const TEST_MODE: &str = "guarded setting accepted in test mode";
const UNDER_63: &str = "guarded setting accepted under context 63";

/// The largest value of each setting that is accepted.
const LARGEST: [u32; SETTINGS] = [0xFFFF, 7, 1, u32::MAX, u32::MAX, 62];

pub fn all() -> Vec<String> {
    let mut all = Vec::new();
    for call in [CALL, IN_SEQUENCE] {
        all.extend(refused::all_sets_of_grounds(call, &GROUNDS));
        all.extend(all_values(call));
        all.extend((6..10).map(|number| unknown(call, number)));
        all.extend(refused::all_unknown_numbers(call));
    }
    all.extend(refused::all_fields(CALL));
    all.extend([OTHER_LENGTH, OTHER_RUN, TEST_MODE, UNDER_63].map(String::from));
    all
}

/// Values around the largest that each setting takes.
pub fn all_values(call: &str) -> Vec<String> {
    let mut all = Vec::new();
    for (number, largest) in (0..).zip(LARGEST) {
        all.extend([0, largest].map(|value| accepted(call, number, value)));
        all.extend(largest.checked_add(1).map(|_| just_above(call, number)));
    }
    all.extend([0, 1, 3, 4, 5].map(|number| accepted(call, number, 2)));
    all.extend([64, 65, u32::MAX].map(|value| switch(call, value)));
    all
}

pub fn of(
    registers: Registers,
    request: &Request,
    (number, value): (u32, u32),
    runs: Runs,
    expected: &Answer,
) -> Vec<String> {
    let grounds = grounds(registers, number, value);
    let mut outcomes = of_either(CALL, &grounds, (number, value), expected);
    outcomes.extend(refused::of_fields(CALL, registers, &grounds));
    let mut note = |holds: bool, outcome: &str| {
        if holds && grounds.is_empty() {
            outcomes.push(outcome.to_string());
        }
    };
    note(request.buffer.len() != SLOTS, OTHER_LENGTH);
    note(check_tables(runs.before.len()).is_err(), OTHER_RUN);
    note(registers.test == 1, TEST_MODE);
    note(registers.context == 63, UNDER_63);
    outcomes
}

pub fn in_sequence(
    registers: Registers,
    (number, value): (u32, u32),
    expected: &Answer,
) -> Vec<String> {
    let grounds = grounds(registers, number, value);
    of_either(IN_SEQUENCE, &grounds, (number, value), expected)
}

pub fn grounds(registers: Registers, number: u32, value: u32) -> Vec<u32> {
    refused::grounds(&[
        check_registers(registers),
        check_switch(number, value),
        check_setting(number, value),
    ])
}

/// The outcomes that happen in a sequence as well as outside.
pub fn of_either(
    call: &str,
    grounds: &[u32],
    (number, value): (u32, u32),
    expected: &Answer,
) -> Vec<String> {
    if grounds.is_empty() {
        return vec![accepted(call, number, value)];
    }
    let mut outcomes = vec![refused::set_of_grounds(call, grounds, expected.words[1])];
    if grounds.contains(&1) {
        return outcomes;
    }
    match LARGEST.get(number as usize) {
        Some(largest) if largest.checked_add(1) == Some(value) => {
            outcomes.push(just_above(call, number))
        }
        Some(_) if number == 5 => outcomes.push(switch(call, value)),
        Some(_) => {}
        None if number < 10 => outcomes.push(unknown(call, number)),
        None => outcomes.push(refused::unknown_number(call, number)),
    }
    outcomes
}

fn accepted(call: &str, number: u32, value: u32) -> String {
    let which = match value {
        0 => "0",
        _ if value == LARGEST[number as usize] => "its largest value",
        _ => "a value between",
    };
    format!("{call} {number} accepted, {which}")
}

fn just_above(call: &str, number: u32) -> String {
    format!("{call} {number} refused, just above its largest value")
}

fn switch(call: &str, value: u32) -> String {
    match value {
        64 | u32::MAX => format!("{call} 5 refused 5, value {value}"),
        _ => format!("{call} 5 refused 5, another value above 64"),
    }
}

fn unknown(call: &str, number: u32) -> String {
    format!("{call} refused 7, number {number} of a register that is not guarded")
}
