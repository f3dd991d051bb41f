//! The cases that are put to both programs.

mod dump;
pub mod forest;
mod raw;
mod raw_edges;
mod read;
pub mod scene;
pub mod sequence;
mod served;
mod served_edges;
pub mod setting;
pub mod spoil;
mod start;
pub mod state;
pub mod steps;
pub mod store;
pub mod tables;
mod walk;
pub mod witnesses;
pub mod words;
pub mod world;
mod write;

use crate::comparison::Comparison;
use crate::protocol::Request;
use crate::put::Put;
use crate::random::Random;
use scene::Scene;
use tables::ask_for_tables;
use walk::Walks;

const CASES_FOR_A_PROCESS: usize = 40_000;
const SEQUENCES_FOR_A_PROCESS: usize = 20;
const DUMPS_FOR_A_PROCESS: usize = 20;

/// Register numbers and draws that are too large, some of them small once cut to fewer bits.
const TOO_LARGE: [u32; 10] = [
    10,
    11,
    255,
    256,
    264,
    65536,
    65544,
    0x8000_0000,
    0xFFFF_FFFC,
    u32::MAX,
];

/// Cases that are made on purpose; the first walk finds no table run.
pub fn edges(comparison: &mut Comparison, random: &mut Random) {
    walk::without_run(comparison);
    start::edges(comparison, random);
    raw_edges::put(comparison, random);
    write::edges(comparison, random);
    read::edges(comparison, random);
    walk::edges(comparison, random);
}

/// Random cases of the single calls mixed, until the total is reached, a part for each process.
pub fn at_random(comparison: &mut Comparison, random: &mut Random, total: usize) {
    while comparison.wants_more(total) {
        comparison.restart();
        let mut walks = Walks::default();
        for _ in 0..CASES_FOR_A_PROCESS {
            if comparison.wants_more(total) {
                comparison.put(any_case(random, &mut walks));
            }
        }
    }
}

/// Dumps of the buffer, until the total is reached, some to each process.
pub fn dumps(comparison: &mut Comparison, random: &mut Random, total: usize) {
    while comparison.wants_more(total) {
        comparison.restart();
        for _ in 0..DUMPS_FOR_A_PROCESS {
            if comparison.wants_more(total) {
                dump::put(comparison, random);
            }
        }
    }
}

/// Served accesses, stores and settings made on purpose; the first ones find no table run.
pub fn served_edges(comparison: &mut Comparison, random: &mut Random) {
    comparison.restart();
    ask_for_tables(comparison);
    served_edges::without_run(comparison, random);
    store::without_run(comparison, random);
    served_edges::put(comparison, random);
    store::edges(comparison, random);
    setting::edges(comparison, random);
}

/// Random served accesses, stores and settings of arbitrary states, until the total is reached.
pub fn served_at_random(comparison: &mut Comparison, random: &mut Random, total: usize) {
    while comparison.wants_more(total) {
        comparison.restart();
        let mut scene = Scene::default();
        for _ in 0..CASES_FOR_A_PROCESS {
            if comparison.wants_more(total) {
                put_any_served(comparison, random, &mut scene);
            }
        }
    }
}

/// Sequences from the start, until the total is reached, some to each process.
pub fn sequences(comparison: &mut Comparison, random: &mut Random, total: usize) {
    while comparison.wants_more(total) {
        comparison.restart();
        for _ in 0..SEQUENCES_FOR_A_PROCESS {
            if comparison.wants_more(total) {
                let steps = 200 + random.below(1800);
                sequence::put(comparison, random, steps);
            }
        }
    }
}

/// The C calls made on purpose; the first ones find no table run.
pub fn c_edges(to: &mut dyn Put, random: &mut Random) {
    served_edges::without_run(to, random);
    store::without_run(to, random);
    raw_edges::put(to, random);
    served_edges::put(to, random);
    served_edges::every_length(to, random);
    store::edges(to, random);
    store::every_length(to, random);
    start_and_setting_edges(to, random);
}

/// A random C call.
pub fn any_c_call(random: &mut Random, scene: &mut Scene, kept: &[u32]) -> Request {
    match random.below(20) {
        0..=5 => raw::random(random),
        6..=10 => served::random(random, scene, kept),
        11..=15 => store::random(random, scene, kept),
        _ => any_start_or_setting(random),
    }
}

/// Starts and guarded settings made on purpose; they take no table run.
pub fn start_and_setting_edges(to: &mut dyn Put, random: &mut Random) {
    start::edges(to, random);
    setting::edges(to, random);
}

/// A random start or guarded setting.
pub fn any_start_or_setting(random: &mut Random) -> Request {
    match random.below(4) {
        0 => start::random(random),
        1 => start::over_anything(random),
        _ => setting::random(random, 0),
    }
}

fn put_any_served(comparison: &mut Comparison, random: &mut Random, scene: &mut Scene) {
    let request = match random.below(64) {
        0 => return ask_for_tables(comparison),
        1..=6 => setting::random(random, comparison.tables().len()),
        7..=36 => store::random(random, scene, comparison.tables()),
        _ => served::random(random, scene, comparison.tables()),
    };
    comparison.put(request);
}

fn any_case(random: &mut Random, walks: &mut Walks) -> Request {
    match random.below(64) {
        0 => start::random(random),
        1..=4 => read::random(random),
        5..=14 => write::random(random),
        15..=26 => walks.random(random),
        _ => raw::random(random),
    }
}
