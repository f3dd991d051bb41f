//! Outcomes of the bits 19 and up of an entry that a call finds, or is given.

use super::super::call::{Operation, WITH_RUN};
use super::super::words::ENTRY_BITS;
use super::{mode, Case};

const GIVEN: &str = "set of an entry, given one with";

pub fn all() -> Vec<String> {
    let single = (ENTRY_BITS..32).map(|bit| 1 << bit);
    let kinds: Vec<u32> = single.chain([0, u32::MAX, 5 << ENTRY_BITS]).collect();
    let mut all = Vec::new();
    for operation in WITH_RUN {
        for boot_mode in [false, true] {
            let found = found(operation, boot_mode);
            all.extend(kinds.iter().map(|&word| with(&found, word)));
        }
    }
    all.extend(kinds.iter().map(|&word| with(GIVEN, word)));
    all
}

pub fn of(case: &Case) -> Vec<String> {
    let (call, state) = (case.call, case.state);
    let Some(entry) = case.entry() else {
        return Vec::new();
    };
    let found = found(call.operation, state.boot_mode);
    let mut outcomes = vec![with(&found, entry)];
    if call.operation == Operation::SetEntry {
        outcomes.push(with(GIVEN, call.b));
    }
    outcomes
}

fn found(operation: Operation, boot_mode: bool) -> String {
    format!(
        "{} {}, over an entry with",
        operation.name(),
        mode(boot_mode)
    )
}

fn with(what: &str, word: u32) -> String {
    let junk = word >> ENTRY_BITS;
    let kind = match junk {
        0 => "none".to_string(),
        _ if junk == u32::MAX >> ENTRY_BITS => "all".to_string(),
        _ if junk.is_power_of_two() => format!("only {}", ENTRY_BITS + junk.ilog2()),
        _ => "some".to_string(),
    };
    format!("{what} {kind} of the bits above 18")
}
