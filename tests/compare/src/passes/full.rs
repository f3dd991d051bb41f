//! Passes over as many pages as a pool has frames.

use super::known::{handed_on, put_one};
use super::plot::{any_id, leaf_at, Plot};
use super::slots;
use super::words::leaf;
use crate::cases::forest::TABLE_WORDS;
use crate::expected::DONE;
use crate::pools::shapes;
use crate::put::PutJudged;
use crate::random::Random;
use reference::heap::MOST_FRAMES;

const AGED: &str = "pass over 4096 pages, all of them aged";
const GONE: &str = "pass over 4096 pages, all of them taken away";
const BOTH: &str = "pass over 4096 pages, some aged and some taken away";

/// Whether the leaf is valid that is planted when so many are left.
type IsValid = fn(usize) -> bool;

/// Whether pages are valid, and what the first pass does.
const KINDS: [(IsValid, &str); 3] = [
    (|_| true, AGED),
    (|_| false, GONE),
    (|page| page % 3 == 0, BOTH),
];

const RUN: usize = 16384;

/// One more than until nothing is left.
const PASSES: usize = 3;

pub fn all_outcomes() -> Vec<String> {
    [AGED, GONE, BOTH].map(String::from).to_vec()
}

pub fn put(to: &mut dyn PutJudged, random: &mut Random) {
    for (is_valid, outcome) in KINDS {
        to.may_restart();
        let mut request = grown(random, is_valid).request();
        let mut outcomes = vec![outcome.to_string()];
        for _ in 0..PASSES {
            let answer = put_one(to, request.clone(), std::mem::take(&mut outcomes));
            assert_eq!(answer.words[0], DONE);
            request = handed_on(request, answer);
        }
    }
}

/// Four tables whose every leaf maps a frame, in no order.
fn grown(random: &mut Random, is_valid: IsValid) -> Plot {
    let mut plot = with_tables(random);
    plot.pool = shapes::full(random, MOST_FRAMES);
    let first = plot.pool.first;
    let mut frames: Vec<u32> = (first..first + MOST_FRAMES).collect();
    for (_, table) in plot.tree().tables.clone() {
        for place in 0..TABLE_WORDS {
            let pfn = frames.swap_remove(random.below(frames.len()));
            plot.words[leaf_at(table, place)] = leaf(random, is_valid(frames.len()), pfn);
        }
    }
    plot.buffer = slots::any(random, &plot);
    plot
}

/// A tree with as many tables as a pool's frames fill.
fn with_tables(random: &mut Random) -> Plot {
    let tables = MOST_FRAMES as usize / TABLE_WORDS;
    loop {
        let id = any_id(random);
        let mut plot = Plot::bare(random, RUN, id);
        plot.own = plot.grow(random, id as usize, tables);
        if plot.tree().tables.len() == tables {
            return plot;
        }
    }
}
