//! Outcomes of the registers and the buffer beside a call.

use super::super::call::{Operation, OPERATIONS};
use super::Case;
use crate::cases::state::LENGTHS;
use reference::{check_registers, Registers};

pub fn all() -> Vec<String> {
    let mut all = Vec::new();
    for operation in OPERATIONS {
        all.extend(LENGTHS.map(|length| buffer(operation, length)));
        all.extend([true, false].map(|fit| registers(operation, fit)));
    }
    all
}

pub fn of(case: &Case) -> Vec<String> {
    let operation = case.call.operation;
    let fit = check_registers(Registers::from_words(case.request.registers)).is_ok();
    vec![
        buffer(operation, case.request.buffer.len()),
        registers(operation, fit),
    ]
}

fn buffer(operation: Operation, length: usize) -> String {
    format!("{} beside a buffer of {length}", operation.name())
}

fn registers(operation: Operation, fit: bool) -> String {
    let what = match fit {
        true => "that fit",
        false => "too large for their fields",
    };
    format!("{} beside registers {what}", operation.name())
}
