//! Passes of the collector, put to the program `probe`.
//!
//! Every edge case is put whatever the number of cases. Random ones follow: half of the number over
//! trees of all kinds, and half in sequences of a unit and a pool.

mod at_random;
mod comparison;
mod full;
mod grounds;
mod known;
mod outcome;
mod plot;
mod refusals;
mod room;
mod sequence;
mod slots;
pub mod stand_ins;
mod visit;
mod words;

use crate::put::{put_at_random, PutJudged};
use crate::random::Random;
use comparison::Comparison;

pub const CASES: usize = 200_000;

pub fn compare(program: &str, seed: u64, number: usize) -> Result<bool, String> {
    let mut comparison = Comparison::start(program)?;
    put(&mut comparison, seed, number);
    Ok(comparison.finish())
}

/// The first passes find no table run.
fn put(to: &mut dyn PutJudged, seed: u64, number: usize) {
    let mut random = Random::new(seed);
    refusals::without_run(to, &mut random);
    refusals::put(to, &mut random);
    grounds::put(to, &mut random);
    full::put(to, &mut random);
    put_at_random(to, &mut random, number, at_random::put, sequence::put);
}
