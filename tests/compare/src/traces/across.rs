//! Traces across the blocks in which the program reads them.

use super::Comparison;
use crate::blocks::pieces::ODD;
use crate::blocks::{cases, BY_TRACE};
use crate::random::Random;

pub struct Case {
    pub trace: Vec<u8>,
    /// The trace as it comes.
    pub pieces: Vec<Vec<u8>>,
    /// Each with whether it holds, whatever the program under test says.
    pub outcomes: Vec<(String, bool)>,
}

pub fn all() -> Vec<String> {
    let mut all = BY_TRACE.all();
    all.extend(ODD.map(|pieces| pieces.outcome(BY_TRACE)));
    all
}

pub fn put(comparison: &mut Comparison, random: &mut Random) -> Result<(), String> {
    let mut cases = cases(random).into_iter();
    cases.try_for_each(|case| comparison.put_across(case))
}

pub fn cases(random: &mut Random) -> Vec<Case> {
    let in_pieces = ODD.map(|pieces| {
        let trace = cases::trace(random, BY_TRACE, pieces.records(BY_TRACE));
        Case {
            pieces: pieces.cut(random, &trace, BY_TRACE),
            trace,
            outcomes: vec![(pieces.outcome(BY_TRACE), true)],
        }
    });
    let whole = cases::cases(random, BY_TRACE).into_iter().map(|case| Case {
        pieces: vec![case.trace.clone()],
        trace: case.trace,
        outcomes: case.outcomes,
    });
    in_pieces.into_iter().chain(whole).collect()
}
