//! The outcomes of passes, by what the reference says of them.

mod accepted;
mod refused;
mod swept;
mod visited;

use super::{full, grounds, sequence};
use crate::comparison::Judges;
use crate::expected::DONE;
use crate::outcome::Runs;
use crate::pools::history;
use crate::protocol::{Answer, Call, PoolCall, Request};
use crate::{fault, witness};

const CALL: &str = "pass";
const TABLES: &str = "table run asked for";

/// Every outcome that has to happen.
pub fn all() -> Vec<String> {
    let mut all = [
        refused::all(),
        grounds::all_outcomes(),
        accepted::all(),
        visited::all(),
        swept::all(),
        full::all_outcomes(),
        sequence::all(),
        history::all(),
        witness::all(),
    ]
    .concat();
    all.push(history::of_passes());
    let single = [
        TABLES,
        witness::MAP_EMPTIED,
        witness::PASS_EMPTIED,
        fault::POSSIBLE,
    ];
    all.extend(single.map(String::from));
    all
}

/// The outcomes of one call; those of other calls are told of elsewhere.
pub fn of(request: &Request, runs: Runs, expected: &Answer, judges: &Judges) -> Vec<String> {
    match request.call {
        Call::Tables => vec![TABLES.to_string()],
        Call::OnPool(PoolCall::Collect { id }) if judges.witness.is_none() => {
            of_pass(request, id, runs, expected)
        }
        _ => Vec::new(),
    }
}

fn of_pass(request: &Request, id: u32, runs: Runs, expected: &Answer) -> Vec<String> {
    if expected.words[0] != DONE {
        return refused::of(request, id, runs.before, expected);
    }
    let visits = visited::visits(request, id, runs.before);
    let mut outcomes = accepted::of(request, id, runs, expected, &visits);
    outcomes.extend(visited::of(request, id, runs.before, &visits));
    outcomes.extend(swept::of(request, id, runs.before, &visits));
    outcomes
}

/// One thing that may hold of a case.
type Point = (&'static str, bool);

/// Names of the points that hold.
fn those_that_hold(points: impl IntoIterator<Item = Point>) -> Vec<String> {
    points
        .into_iter()
        .filter(|(_, holds)| *holds)
        .map(|(name, _)| name.to_string())
        .collect()
}

/// None, one or several.
fn how_many(number: usize) -> &'static str {
    match number {
        0 => "none",
        1 => "one",
        _ => "several",
    }
}
