//! The outcomes of a C call: those of the call on numbers, and what bytes add to them.

use super::case::{Answer, Case};
use super::grounds::{self, BY_LENGTH};
use super::lengths::{BUFFERS, REGISTERS, TABLES};
use crate::fault;
use crate::outcome::{raw, served, setting, start, store};
use crate::protocol::Call;
use crate::witness;
use reference::SLOTS;

pub const RAW: &str = "C raw access";
pub const SERVED: &str = "C served access";
pub const STORE: &str = "C table store";
pub const START: &str = "C start";
pub const SETTING: &str = "C guarded setting";

const BUFFER: &str = "buffer";
const TABLE_RUN: &str = "tables";

pub fn all() -> Vec<String> {
    let of_numbers = [
        raw::all(),
        served::all(),
        store::all(),
        start::all(),
        setting::all(),
    ]
    .concat();
    let mut all: Vec<String> = of_numbers
        .into_iter()
        .filter(|outcome| !outcome.starts_with("sequence"))
        .collect();
    all.extend(grounds::all());
    for call in [RAW, SERVED, STORE, START, SETTING] {
        all.extend(REGISTERS[1..].iter().map(|&n| registers_of(call, n)));
    }
    for call in [RAW, SERVED, STORE, START] {
        all.extend(BUFFERS[1..].iter().map(|&n| buffer_of(call, n)));
    }
    all.push(buffer_of(START, 16));
    for call in [SERVED, STORE] {
        all.extend((1..=16).map(|n| tables_taken(call, 4096 * n)));
        let wrong = TABLES.iter().filter(|&&n| !grounds::is_table_length(n));
        all.extend(wrong.map(|&n| tables_of(call, n)));
        all.push(tables_of(call, 4));
    }
    for call in [RAW, SERVED, START, SETTING] {
        all.extend([true, false].map(|changed| change(call, "registers", changed)));
    }
    all.extend([true, false].map(|changed| change(START, BUFFER, changed)));
    all.extend([RAW, START, SETTING].map(|call| beside(call, TABLE_RUN)));
    all.extend([beside(SETTING, BUFFER), high_bits_stay()]);
    all.push(fault::POSSIBLE.to_string());
    all.extend(witness::of_calls());
    all
}

pub fn of(case: &Case, expected: &Answer) -> Vec<String> {
    let runs = &case.runs;
    let (call, grounds) = grounds::of(case);
    match grounds[..] {
        [] => return of_accepted(call, case, expected),
        [BY_LENGTH] => vec![registers_of(call, runs.registers.len())],
        ["2"] => vec![buffer_of(call, runs.buffer.len())],
        ["3"] => vec![tables_of(call, runs.tables.len())],
        ["3", "6"] if runs.tables.len() < 4 => vec![tables_of(call, runs.tables.len())],
        _ => Vec::new(),
    }
    .into_iter()
    .chain([grounds::refused(call, &grounds)])
    .collect()
}

fn of_accepted(call: &str, case: &Case, expected: &Answer) -> Vec<String> {
    let (before, after) = (&case.runs, &expected.runs);
    let mut outcomes = Vec::new();
    if !matches!(case.call, Call::Store { .. }) {
        let changed = before.registers != after.registers;
        outcomes.push(change(call, "registers", changed));
    }
    match case.call {
        Call::Served(_) | Call::Store { .. } => {
            outcomes.push(tables_taken(call, before.tables.len()))
        }
        _ if !before.tables.is_empty() => outcomes.push(beside(call, TABLE_RUN)),
        _ => {}
    }
    match case.call {
        Call::Start => outcomes.push(change(call, BUFFER, before.buffer != after.buffer)),
        Call::Setting { .. } if !before.buffer.is_empty() => outcomes.push(beside(call, BUFFER)),
        Call::Served(_) if some_high_bits_stay(&before.buffer, &after.buffer) => {
            outcomes.push(high_bits_stay())
        }
        _ => {}
    }
    outcomes
}

/// Whether one slot is written and another one keeps junk in the bits that are not read.
fn some_high_bits_stay(before: &[u8], after: &[u8]) -> bool {
    let junk = |slot: usize| before[8 * slot] != 0;
    let stays = |slot: usize| {
        let number = 8 * slot..8 * slot + 8;
        before[number.clone()] == after[number]
    };
    before != after && (0..SLOTS).any(|n| junk(n) && stays(n))
}

fn registers_of(call: &str, bytes: usize) -> String {
    format!("{call} refused 1, registers of {bytes} bytes")
}

fn buffer_of(call: &str, bytes: usize) -> String {
    match BUFFERS.contains(&bytes) {
        true => format!("{call} refused 2, buffer of {bytes} bytes"),
        false => format!("{call} refused 2, another length"),
    }
}

fn tables_of(call: &str, bytes: usize) -> String {
    match TABLES.contains(&bytes) {
        true => format!("{call} refused 3, tables of {bytes} bytes"),
        false => format!("{call} refused 3, another length"),
    }
}

fn tables_taken(call: &str, bytes: usize) -> String {
    format!("{call} accepted, tables of {bytes} bytes")
}

/// What the call makes of a run that it may write.
fn change(call: &str, run: &str, changed: bool) -> String {
    match changed {
        true => format!("{call} accepted, {run} changed"),
        false => format!("{call} accepted, {run} as before"),
    }
}

/// A run that the call is not handed.
fn beside(call: &str, run: &str) -> String {
    format!("{call} accepted, {run} beside it")
}

fn high_bits_stay() -> String {
    format!("{SERVED} with a load, another slot keeps its high bits")
}
