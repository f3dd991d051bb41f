//! Passes that are refused before their tree is looked at, and the order of the grounds.

use super::known::put_one;
use super::plot::{any_id, Plot};
use super::words::{absent, broken};
use crate::cases::forest::TABLE_WORDS;
use crate::cases::tables::ask_for_tables;
use crate::cases::{spoil, state};
use crate::pools::shapes;
use crate::protocol::{PoolCall, Request};
use crate::put::PutJudged;
use crate::random::Random;
use reference::heap::Pool;

/// How many passes have each set of grounds.
const PASSES_OF_A_SET: usize = 6;

/// The registers, the pool, the buffer, the tables, the identification and the tree.
const GROUNDS: usize = 6;

/// Identifications above 62 that name a word of every run.
const NEAR_IDS: [u32; 6] = [63, 64, 65, 69, 127, 261];

/// Others, most of them small once cut to fewer bits.
const FAR_IDS: [u32; 5] = [65541, 65536, 1 << 31, 0x8000_0005, u32::MAX];

/// How many wrong runs are handed over.
const WRONG_RUNS: usize = 40;

/// The longest run that `probe` takes has 16,384 words: this one is no multiple of 1,024.
const LONGEST_WRONG_RUN: usize = 16_383;

/// Passes by a program that has not been given a run yet.
pub fn without_run(to: &mut dyn PutJudged, random: &mut Random) {
    for id in [0, 62, 63] {
        let plot = Plot::alone(random, id % 63);
        let request = Request {
            tables: Vec::new(),
            ..plot.request()
        };
        put_one(to, request, Vec::new());
    }
}

pub fn put(to: &mut dyn PutJudged, random: &mut Random) {
    sets_of_grounds(to, random);
    identifications(to, random);
    for registers in state::register_edges(random) {
        to.may_restart();
        let mut plot = alone(random);
        plot.registers = registers;
        put_one(to, plot.request(), Vec::new());
    }
    lengths(to, random);
    pools(to, random);
}

fn alone(random: &mut Random) -> Plot {
    let id = any_id(random);
    Plot::alone(random, id)
}

fn sets_of_grounds(to: &mut dyn PutJudged, random: &mut Random) {
    for set in 1..1 << GROUNDS {
        for _ in 0..PASSES_OF_A_SET {
            to.may_restart();
            let request = of_set(random, |ground| set >> ground & 1 == 1);
            put_one(to, request, Vec::new());
        }
    }
}

fn of_set(random: &mut Random, has: impl Fn(usize) -> bool) -> Request {
    let mut plot = alone(random);
    if has(0) {
        plot.registers = state::spoil(random, plot.registers);
    }
    if has(1) {
        plot.pool = shapes::spoil(random, plot.pool);
    }
    if has(2) {
        plot.buffer = state::wrong_buffer(random);
    }
    if has(3) {
        let length = plot.words.len();
        let wrong = random.pick(&[1023, length - 512, length - 1, length + 1, length + 512]);
        plot.words.resize(wrong.min(LONGEST_WRONG_RUN), 0);
    }
    if has(4) {
        plot.id = match has(5) || random.one_in(2) {
            true => random.pick(&NEAR_IDS),
            false => random.pick(&FAR_IDS),
        };
    }
    let length = plot.words.len();
    let root = plot.words.get_mut(plot.id as usize);
    match (root, has(5), has(3) || has(4)) {
        (Some(root), true, _) => *root = broken(random, length),
        (Some(root), false, true) => *root = absent(random),
        _ => {}
    }
    plot.request()
}

/// Every identification with a tree, and too large ones with a tree at their lower bits.
fn identifications(to: &mut dyn PutJudged, random: &mut Random) {
    let too_large = NEAR_IDS.into_iter().chain(FAR_IDS);
    for id in (0..63).chain(too_large) {
        to.may_restart();
        let mut plot = Plot::alone(random, id % 64);
        plot.id = id;
        if id > 63 && (id as usize) < plot.words.len() {
            plot.words[id as usize] = absent(random);
        }
        put_one(to, plot.request(), Vec::new());
    }
}

/// Wrong lengths of the buffer and of the run, each alone.
fn lengths(to: &mut dyn PutJudged, random: &mut Random) {
    for length in state::LENGTHS {
        let mut plot = alone(random);
        plot.buffer = state::buffer(random, length);
        put_one(to, plot.request(), Vec::new());
    }
    for _ in 0..WRONG_RUNS {
        to.may_restart();
        let mut plot = alone(random);
        plot.words = spoil::wrong_run(random);
        if let Some(root) = plot.words.get_mut(plot.id as usize) {
            *root = absent(random);
        }
        put_one(to, plot.request(), Vec::new());
    }
}

/// Every first pfn with every size and nothing else wrong, by the run that is kept.
fn pools(to: &mut dyn PutJudged, random: &mut Random) {
    to.may_restart();
    let mut plot = alone(random);
    for (_, table) in plot.tree().tables.clone() {
        plot.clear(random, TABLE_WORDS * table, TABLE_WORDS);
    }
    let mut tables = plot.words.clone();
    for (first, size) in shapes::firsts_and_sizes() {
        let bits = shapes::fitting(random).bits;
        let call = PoolCall::Collect { id: plot.id };
        let pool = Pool { first, size, bits };
        let buffer = state::empty_slots();
        let request = Request {
            tables: std::mem::take(&mut tables),
            ..Request::on_pool(call, plot.registers, pool, buffer)
        };
        to.put(request);
    }
    ask_for_tables(to);
}
