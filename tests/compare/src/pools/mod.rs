//! Calls on pools of frames, put to the program `probe`.
//!
//! Every edge case and every run that fills and empties a pool is put whatever the number of cases.
//! Random ones follow: a fifth of the number each of calls on a pool alone, of maps on arbitrary
//! states, and of calls in sequences of a unit and a pool.

mod alone;
pub mod chain;
mod comparison;
mod fill;
pub mod history;
mod maps;
pub mod outcome;
pub mod pooled;
mod sequence;
pub mod shapes;

use crate::random::Random;
use comparison::Comparison;

pub const CASES: usize = 150_000;

pub fn compare(program: &str, seed: u64, number: usize) -> Result<bool, String> {
    let mut random = Random::new(seed);
    let mut comparison = Comparison::start(program)?;
    alone::edges(&mut comparison, &mut random);
    maps::edges(&mut comparison, &mut random);
    fill::put(&mut comparison, &mut random);
    let total = comparison.count() + number / 5;
    alone::at_random(&mut comparison, &mut random, total);
    let total = comparison.count() + number / 5;
    maps::at_random(&mut comparison, &mut random, total);
    let total = comparison.count() + number / 5;
    while comparison.wants_more(total) {
        comparison.may_restart();
        let steps = 100 + random.below(500);
        sequence::put(&mut comparison, &mut random, steps);
    }
    Ok(comparison.finish())
}
