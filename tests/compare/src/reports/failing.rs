//! Files of which a read fails behind good records.

use super::across::short;
use super::case::Case;
use super::comparison::Comparison;
use super::outcome::unread;
use crate::blocks::{cases, BY_REPORT};
use crate::random::Random;

/// So many records are read: within a block, to its end, and in the block behind it.
const RECORDS: [usize; 4] = [100, 8191, 8192, 12_000];

pub fn all() -> Vec<String> {
    RECORDS.map(outcome).to_vec()
}

pub fn put(comparison: &mut Comparison, random: &mut Random) -> Result<(), String> {
    let mut calls = calls(random).into_iter();
    calls.try_for_each(|cases| comparison.put(cases))
}

/// Each between files that are read to their end.
pub fn calls(random: &mut Random) -> Vec<Vec<Case>> {
    let call = |records| {
        let trace = cases::trace(random, BY_REPORT, records);
        let case = Case::failing(trace).remark(outcome(records));
        vec![short(), case, short()]
    };
    RECORDS.map(call).into()
}

fn outcome(records: usize) -> String {
    unread(&format!("a read fails behind {records} records"))
}
