//! Outcomes of accepted passes: who asks, over what, and how much comes of it.

use super::{how_many, those_that_hold, CALL};
use crate::outcome::{refused, Runs};
use crate::passes::visit::Visit;
use crate::pools::outcome::shape;
use crate::protocol::{Answer, Request};
use reference::collector::{by_tables, Stretches};
use reference::*;

const ACCEPTED: &str = "pass accepted";

const IDS: [u32; 3] = [0, 5, 62];
const LENGTHS: [usize; 3] = [2048, 4096, 16384];

const TEST_MODE: &str = "pass accepted in test mode";
const UNDER_63: &str = "pass accepted under context 63";
const UNDER_ITSELF: &str = "pass accepted, CONTEXT is its identification";
const UNDER_ANOTHER: &str = "pass accepted, the tree of CONTEXT maps frames of the pool too";
const ABSENT_ROOT: &str = "pass accepted, absent root";
const ABSENT_DIRTY: &str = "pass accepted, absent root, a sweep would empty slots";
const NO_TABLE: &str = "pass accepted, directory without a table";
const NO_VISIT_DIRTY: &str = "pass accepted, no leaf in the pool, a sweep would empty slots";
const BROKEN_OTHER: &str = "pass accepted, another root is broken";
const ALL_64: &str = "pass empties 64 slots";
const GLOBAL_TREE: &str = "pass accepted, beside a global tree";

pub fn all() -> Vec<String> {
    let mut all = shape::all_shapes(ACCEPTED);
    all.extend(IDS.map(by_id));
    all.extend(LENGTHS.map(over));
    all.push(refused::smallest_run(CALL));
    for aged in 0..3 {
        all.extend((0..3).map(|gone| comes_to(aged, gone)));
    }
    all.extend((0..3).map(emptied));
    all.extend(
        [
            TEST_MODE,
            UNDER_63,
            UNDER_ITSELF,
            UNDER_ANOTHER,
            ABSENT_ROOT,
            ABSENT_DIRTY,
            NO_TABLE,
            NO_VISIT_DIRTY,
            BROKEN_OTHER,
            GLOBAL_TREE,
            ALL_64,
        ]
        .map(String::from),
    );
    all
}

pub fn of(
    request: &Request,
    id: u32,
    runs: Runs,
    expected: &Answer,
    visits: &[Visit],
) -> Vec<String> {
    let registers = Registers::from_words(request.registers);
    let words = runs.before;
    let gone = visits.iter().filter(|visit| !visit.is_valid()).count();
    assert_eq!(gone, expected.words[3] as usize);
    let mut outcomes = shape::shapes(ACCEPTED, request.pool());
    outcomes.extend(refused::of_fields(CALL, registers, &[]));
    outcomes.push(comes_to(visits.len() - gone, gone));
    outcomes.push(emptied(expected.words[1] as usize));
    if IDS.contains(&id) {
        outcomes.push(by_id(id));
    }
    if LENGTHS.contains(&words.len()) {
        outcomes.push(over(words.len()));
    }
    if words.len() == refused::SMALLEST_RUN {
        outcomes.push(refused::smallest_run(CALL));
    }
    let tree = Stretches::of(words, id as usize);
    let is_absent = tree.directory().is_none();
    let is_dirty = || sweep(&mut request.buffer.clone()[..], words) > 0;
    let in_pool = |leaf: &Decided| request.pool().place_of(leaf.word % (1 << 19)).is_some();
    let others = || (0..64).filter(|&root| root != id as usize);
    let context = registers.context;
    outcomes.extend(those_that_hold([
        (TEST_MODE, registers.test == 1),
        (ALL_64, expected.words[1] == SLOTS as u32),
        (UNDER_63, context == 63),
        (UNDER_ITSELF, context == id),
        (
            UNDER_ANOTHER,
            context != id && by_tables::leaves(words, context).iter().any(in_pool),
        ),
        (ABSENT_ROOT, is_absent),
        (ABSENT_DIRTY, is_absent && is_dirty()),
        (NO_TABLE, !is_absent && tree.tables().next().is_none()),
        (
            NO_VISIT_DIRTY,
            !is_absent && visits.is_empty() && is_dirty(),
        ),
        (
            BROKEN_OTHER,
            others().any(|root| Stretches::of(words, root).root_is_broken()),
        ),
        (
            GLOBAL_TREE,
            Stretches::of(words, GLOBAL_ROOT).directory().is_some(),
        ),
    ]));
    outcomes
}

fn by_id(id: u32) -> String {
    format!("{ACCEPTED}, identification {id}")
}

fn over(words: usize) -> String {
    format!("{ACCEPTED}, table run of {words} words")
}

fn comes_to(aged: usize, gone: usize) -> String {
    format!(
        "{CALL} ages {}, takes away {}",
        how_many(aged),
        how_many(gone)
    )
}

fn emptied(slots: usize) -> String {
    format!("{CALL} empties slots: {}", how_many(slots))
}
