//! Calls of the MUPS/16 unit, put to the program `probe`.
//!
//! Every edge case is put whatever the number of cases. Random ones follow: half of the number over
//! runs of all kinds, and half in sequences with calls of the other unit between. At last some come
//! through a pipe in pieces.

mod apart;
mod at_random;
pub mod call;
mod comparison;
mod entries;
mod fault_addresses;
mod handed;
mod indices;
mod maps;
mod outcome;
mod pieces;
mod refusals;
mod sequence;
pub mod stand_ins;
mod unit;
mod words;

use crate::put::{put_at_random, PutJudged};
use crate::random::Random;
use comparison::Comparison;

pub const CASES: usize = 300_000;

pub fn compare(program: &str, seed: u64, number: usize) -> Result<bool, String> {
    let mut comparison = Comparison::start(program)?;
    put(&mut comparison, seed, number);
    pieces::put(&mut comparison, program, seed);
    Ok(comparison.finish())
}

/// The first calls find no table run.
fn put(to: &mut dyn PutJudged, seed: u64, number: usize) {
    let mut random = Random::new(seed);
    refusals::without_run(to, &mut random);
    refusals::put(to, &mut random);
    maps::put(to, &mut random);
    entries::put(to, &mut random);
    indices::put(to, &mut random);
    fault_addresses::put(to, &mut random);
    handed::put(to, &mut random);
    apart::put(to, &mut random);
    put_at_random(to, &mut random, number, at_random::put, sequence::put);
}
