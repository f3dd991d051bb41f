//! Which leaves a pass visits, and which ones beside them it does not.

use super::{those_that_hold, Point};
use crate::cases::forest::{PRESENT, TABLE_WORDS};
use crate::passes::visit::Visit;
use crate::pools::outcome::shape;
use crate::protocol::Request;
use reference::collector::{by_tables, Stretches, PAGES};
use reference::heap::PFNS;
use reference::*;

/// All of them, in their order.
pub fn visits(request: &Request, id: u32, words: &[u32]) -> Vec<Visit> {
    by_tables::leaves(words, id)
        .into_iter()
        .map(|leaf| Visit {
            page: page_of(words, id, leaf.index),
            index: leaf.index,
            word: leaf.word,
        })
        .filter(|visit| request.pool().place_of(visit.pfn()).is_some())
        .collect()
}

/// The page whose leaf stands at the index, in a tree that names each table once.
fn page_of(words: &[u32], id: u32, index: usize) -> u32 {
    let directory = Stretches::of(words, id as usize).directory();
    let names = |word: &u32| *word == PRESENT | (index / TABLE_WORDS) as u32;
    let place = words[directory.expect("there is one")]
        .iter()
        .position(names);
    (TABLE_WORDS * place.expect("a word names it") + index % TABLE_WORDS) as u32
}

const KINDS: [&str; 2] = ["ages", "takes away"];

/// What may hold of a visit.
const POINTS: [&str; 18] = [
    "page 0",
    "page 524287",
    "the first leaf of a later table",
    "the last leaf of an earlier table",
    "an inner leaf",
    "pfn 0",
    "pfn 524287",
    "a kernel page",
    "a page that is no kernel's",
    "a page to be written",
    "a page not to be written",
    "a leaf with every software bit",
    "a leaf with no software bit",
    "a leaf with the lowest software bit alone",
    "a page under a global leaf",
    "a page under a broken global word",
    "a page under a global leaf of the same frame",
    "a page of a later table",
];

const BEFORE_POOL: &str = "pass leaves a leaf of the frame before the pool";
const BEHIND_POOL: &str = "pass leaves a leaf of the frame behind the pool";
const ABSENT: &str = "pass leaves an absent leaf of a frame of the pool";

pub fn all() -> Vec<String> {
    let mut all = Vec::new();
    for kind in KINDS {
        all.extend(POINTS.map(|point| named(kind, point)));
        all.extend(shape::all_places(&format!("pass {kind}")));
    }
    all.extend([BEFORE_POOL, BEHIND_POOL, ABSENT].map(String::from));
    all
}

pub fn of(request: &Request, id: u32, words: &[u32], visits: &[Visit]) -> Vec<String> {
    let pool = request.pool();
    let mut outcomes = Vec::new();
    for visit in visits {
        let kind = KINDS[usize::from(!visit.is_valid())];
        let holds = points(words, visit).into_iter().zip(POINTS);
        let holds = holds.filter(|(holds, _)| *holds);
        outcomes.extend(holds.map(|(_, point)| named(kind, point)));
        let place = visit.pfn() - pool.first;
        outcomes.extend(shape::places(&format!("pass {kind}"), pool, place));
    }
    outcomes.extend(those_that_hold(beside(request, id, words)));
    outcomes.sort_unstable();
    outcomes.dedup();
    outcomes
}

fn points(words: &[u32], visit: &Visit) -> [bool; 18] {
    let &Visit { page, index, word } = visit;
    let in_table = index % TABLE_WORDS;
    let bit = |bit: u32| word >> bit & 1 == 1;
    let software = word >> 19 & 0x1FF;
    let global = walk_tree(words, Tree::Global, 0, page);
    let leaf = match global {
        Walk::Leaf(leaf) => Some(leaf.word % PFNS),
        _ => None,
    };
    [
        page == 0,
        page == PAGES - 1,
        in_table == 0 && page > 0,
        in_table == TABLE_WORDS - 1 && page < PAGES - 1,
        (1..TABLE_WORDS - 1).contains(&in_table),
        visit.pfn() == 0,
        visit.pfn() == PFNS - 1,
        bit(29),
        !bit(29),
        bit(28),
        !bit(28),
        software == 0x1FF,
        software == 0,
        software == 1,
        leaf.is_some(),
        matches!(global, Walk::Broken(..)),
        leaf == Some(visit.pfn()),
        page >= TABLE_WORDS as u32,
    ]
}

/// Leaves beside the visited ones.
fn beside(request: &Request, id: u32, words: &[u32]) -> [Point; 3] {
    let pool = request.pool();
    let pfns = by_tables::leaves(words, id).into_iter();
    let pfns: Vec<u32> = pfns.map(|leaf| leaf.word % PFNS).collect();
    let before = pool.first.checked_sub(1);
    let behind = pool.first + pool.size;
    let absent =
        |index: usize| words[index] < PRESENT && pool.place_of(words[index] % PFNS).is_some();
    let tree = Stretches::of(words, id as usize);
    let mut leaf_words = tree.tables().flatten();
    [
        (BEFORE_POOL, before.is_some_and(|pfn| pfns.contains(&pfn))),
        (BEHIND_POOL, pfns.contains(&behind)),
        (ABSENT, leaf_words.any(absent)),
    ]
}

fn named(kind: &str, point: &str) -> String {
    format!("pass {kind} {point}")
}
