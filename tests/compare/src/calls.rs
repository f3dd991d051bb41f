//! The single calls, put to the program `probe`.
//!
//! Every edge case is put whatever the number of cases; random ones fill it up. There are so many
//! cases of the single calls, a fifth as many in dumps of the buffer, more than half as many served
//! accesses, stores and settings on arbitrary states, and some more of these in sequences from the
//! start.

use crate::cases;
use crate::comparison::Comparison;
use crate::random::Random;

pub const CASES: usize = 200_000;

pub fn compare(program: &str, seed: u64, number: usize) -> Result<bool, String> {
    let mut random = Random::new(seed);
    let mut comparison = Comparison::start(program)?;
    cases::edges(&mut comparison, &mut random);
    cases::at_random(&mut comparison, &mut random, number);
    let total = comparison.count() + number / 5;
    cases::dumps(&mut comparison, &mut random, total);
    let total = comparison.count() + number / 20 * 11;
    cases::served_edges(&mut comparison, &mut random);
    cases::served_at_random(&mut comparison, &mut random, total);
    let total = comparison.count() + number / 20 * 13;
    cases::sequences(&mut comparison, &mut random, total);
    Ok(comparison.finish())
}
