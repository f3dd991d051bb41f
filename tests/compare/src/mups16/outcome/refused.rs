//! Outcomes of refused calls.

use super::super::call::{Operation, WITH_RUN};
use super::{mode, Case};
use reference::mups16::ENTRIES;

const LENGTHS: [usize; 5] = [0, 1, 8191, 8193, 16384];
const SHORTER: usize = 4096;
const LONGER: usize = 12288;

pub fn all() -> Vec<String> {
    let mut all = Vec::new();
    for operation in WITH_RUN {
        for boot_mode in [false, true] {
            let lengths = LENGTHS.into_iter().chain([SHORTER, LONGER]);
            all.extend(lengths.map(|length| refused(operation, length, boot_mode)));
        }
    }
    all
}

pub fn of(case: &Case) -> String {
    refused(
        case.call.operation,
        case.entries.len(),
        case.state.boot_mode,
    )
}

fn refused(operation: Operation, length: usize, boot_mode: bool) -> String {
    let run = match length {
        _ if LENGTHS.contains(&length) => format!("run of {length} words"),
        ..ENTRIES => "another shorter run".to_string(),
        _ => "another longer run".to_string(),
    };
    format!("{} refused 2, {run}, {}", operation.name(), mode(boot_mode))
}
