//! Outcomes of an access that the report books.

use crate::fault;
use crate::traces::record::{Record, USER};
use reference::{segment, Outcome, Registers};

const DISABLED: &str = "access booked, enable off";
const LINEAR: &str = "access booked, linear";

pub fn all() -> Vec<String> {
    let mut all = [DISABLED, LINEAR].map(String::from).to_vec();
    all.extend([0, 1].map(at));
    for value in 1..=7 {
        all.extend([0, 1].map(|loads| fault(value, loads)));
    }
    all.push(fault(8, 1));
    all.extend(fault::OF_WALKS.map(|value| fault(value, 0)));
    all
}

/// By the registers that the access found.
pub fn of(registers: Registers, record: Record, outcome: Outcome, loads: u32) -> Vec<String> {
    let is_user = record.modes & USER != 0;
    let is_linear = registers.segment_is_linear(segment(record.value)) && !is_user;
    vec![match outcome {
        Outcome::Fault(value) => fault(value, loads),
        _ if registers.enable == 0 => DISABLED.to_string(),
        _ if is_linear => LINEAR.to_string(),
        _ => at(loads),
    }]
}

fn at(loads: u32) -> String {
    format!("access booked, at by the buffer, loads {loads}")
}

fn fault(value: u32, loads: u32) -> String {
    format!("access booked, {}, loads {loads}", fault::name(value))
}
