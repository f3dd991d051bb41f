//! The outcomes that a call, its files, their lines and their records belong to, by what the second
//! program says of them.

mod access;
mod lines;
mod records;
mod store;

use super::case::Case;
use super::names::{NAMED, UNREAD};
use super::{across, failing, forbidden};
pub use lines::column_name;
use reference::report::Report;
use reference::trace::RECORD_BYTES;

pub const NO_ARGUMENT: &str = "call with no argument";
const ONE_FILE: &str = "call with one file";
const SEVERAL_FILES: &str = "call with several files";
pub const TWICE: &str = "call that names a file twice";
const BEHIND_REFUSED: &str = "call with a file behind one that is refused";
const BEHIND_UNREAD: &str = "call with a file behind one that is unread";

pub const BOTH_COUNTS: &str = "file of which both counts of the second program say the same";
const TOTALS: &str = "file with 63 lines";
const REFUSED: &str = "file refused 9";
const EMPTY: &str = "file that is empty";
const ONLY_REFUSED: &str = "file of refused records alone";

pub const AT_LIMIT_ABOVE: &str = "file with a net change of exactly 4294967295";
pub const AT_LIMIT_BELOW: &str = "file with a net change of exactly -4294967295";
pub const PAST_ABOVE: &str = "file with a net change one past the limit above zero";
pub const PAST_BELOW: &str = "file with a net change one past the limit below zero";
pub const PAST_AND_BACK: &str = "file with a net change past the limit and back";

/// Of longer traces the lines alone are looked at, not the records.
const MOST_BYTES: usize = 1 << 15;

pub fn all() -> Vec<String> {
    let calls = [
        NO_ARGUMENT,
        ONE_FILE,
        SEVERAL_FILES,
        TWICE,
        BEHIND_REFUSED,
        BEHIND_UNREAD,
    ];
    let files = [
        BOTH_COUNTS,
        TOTALS,
        REFUSED,
        EMPTY,
        ONLY_REFUSED,
        AT_LIMIT_ABOVE,
        AT_LIMIT_BELOW,
        PAST_ABOVE,
        PAST_BELOW,
        PAST_AND_BACK,
    ];
    let mut all: Vec<String> = calls.into_iter().chain(files).map(String::from).collect();
    all.extend(NAMED.map(named));
    all.extend(UNREAD.map(unread));
    all.extend((1..=3).map(digits));
    for bytes in 1..RECORD_BYTES {
        all.extend([piece(bytes, 0), piece(bytes, 1)]);
    }
    all.extend(lines::all());
    all.extend(records::all());
    all.extend(across::all());
    all.extend(failing::all());
    all.extend(forbidden::all());
    all
}

pub fn of_call(reports: &[Report]) -> Vec<&'static str> {
    let mut outcomes = match reports.len() {
        0 => vec![],
        1 => vec![ONE_FILE],
        _ => vec![SEVERAL_FILES],
    };
    for pair in reports.windows(2) {
        match pair {
            [Report::Refused(_), Report::Totals(_)] => outcomes.push(BEHIND_REFUSED),
            [Report::Unread, Report::Totals(_)] => outcomes.push(BEHIND_UNREAD),
            _ => {}
        }
    }
    outcomes
}

pub fn of_file(number: usize, case: &Case, report: &Report) -> Vec<String> {
    let mut outcomes = vec![digits(number.to_string().len())];
    match report {
        Report::Totals(totals) => {
            outcomes.push(TOTALS.to_string());
            outcomes.extend(lines::of(totals));
        }
        Report::Refused(_) => outcomes.push(REFUSED.to_string()),
        Report::Unread => {}
    }
    if let Some(trace) = &case.trace {
        outcomes.extend(of_trace(trace));
    }
    outcomes
}

fn of_trace(trace: &[u8]) -> Vec<String> {
    let (records, rest) = trace.as_chunks();
    let mut outcomes = Vec::new();
    if !rest.is_empty() {
        outcomes.push(piece(rest.len(), records.len()));
    }
    if trace.is_empty() {
        outcomes.push(EMPTY.to_string());
    }
    if trace.len() > MOST_BYTES {
        return outcomes;
    }
    let of_records = records::of(records);
    if !records.is_empty()
        && of_records
            .iter()
            .all(|outcome| records::is_refused(outcome))
    {
        outcomes.push(ONLY_REFUSED.to_string());
    }
    outcomes.extend(of_records);
    outcomes
}

pub fn named(how: &str) -> String {
    format!("file named {how}")
}

pub fn unread(why: &str) -> String {
    format!("file unread: {why}")
}

fn digits(digits: usize) -> String {
    format!("file with a number of {digits} digits")
}

fn piece(bytes: usize, records: usize) -> String {
    match records {
        0 => format!("file of a last piece of {bytes} bytes alone"),
        _ => format!("file with a last piece of {bytes} bytes"),
    }
}
