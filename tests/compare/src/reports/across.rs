//! Files across the blocks in which the program reads them, each with a short one behind it.

use super::case::{Case, CountBy};
use super::columns;
use super::comparison::Comparison;
use super::names::FOLDER;
use super::script;
use crate::blocks::ends::LENGTHS;
use crate::blocks::pieces::ODD;
use crate::blocks::{cases, fresh, BY_REPORT};
use crate::random::Random;

/// The records of a long file among others.
const LONG: usize = 9000;
const WITH_UNREAD: &str = "call with names that can't be read between long files and short ones";

pub fn all() -> Vec<String> {
    let mut all = BY_REPORT.all();
    all.push(WITH_UNREAD.to_string());
    all.extend(columns::all());
    all.extend(fresh::all(BY_REPORT));
    all.extend(ODD.map(|pieces| pieces.outcome(BY_REPORT)));
    all
}

pub fn put(comparison: &mut Comparison, random: &mut Random) -> Result<(), String> {
    for cases in calls(random) {
        comparison.put(cases)?;
    }
    comparison.put_call(with_unread(random), Some(WITH_UNREAD))
}

/// The calls of a long file and a short one. Some files book under all identifications.
pub fn calls(random: &mut Random) -> Vec<Vec<Case>> {
    let in_pieces = ODD.map(|pieces| {
        let trace = cases::trace(random, BY_REPORT, pieces.records(BY_REPORT));
        let cut = pieces.cut(random, &trace, BY_REPORT);
        let case = Case::in_pieces(trace, cut).remark(pieces.outcome(BY_REPORT));
        vec![case, short()]
    });
    let under_all = LENGTHS.map(|records| {
        let trace = script::trace(random, records, 0);
        with_short(trace, Vec::new())
    });
    let cases = cases::cases(random, BY_REPORT).into_iter();
    let whole = cases.map(|case| with_short(case.trace, case.outcomes));
    let calls = whole.chain(in_pieces).chain(under_all);
    calls.collect()
}

/// Long files and short ones, with names between them that can't be read.
pub fn with_unread(random: &mut Random) -> Vec<Case> {
    let mut long = || {
        let trace = cases::trace(random, BY_REPORT, LONG);
        Case::of(trace, CountBy::Counts)
    };
    let missing = || Case::unread("none".into());
    let folder = || Case::unread(FOLDER.into());
    let empty = Case::of(Vec::new(), CountBy::Counts);
    vec![
        long(),
        missing(),
        short(),
        long(),
        folder(),
        short(),
        long(),
        empty,
        long(),
        folder(),
        missing(),
        short(),
    ]
}

/// The file, and behind it one that tells what it left.
fn with_short(trace: Vec<u8>, outcomes: Vec<(String, bool)>) -> Vec<Case> {
    let leaks = fresh::of(BY_REPORT, &trace);
    let columns = columns::of(&trace);
    let long = Case::of(trace, CountBy::Counts)
        .with(outcomes)
        .with(columns);
    vec![long, short().with(leaks)]
}

pub fn short() -> Case {
    Case::of(fresh::trace(), CountBy::Counts)
}
