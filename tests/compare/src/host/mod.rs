//! The C calls, put to tests/host.
//!
//! Every edge case is put whatever the number of cases, and so are some sequences from a start;
//! random ones fill it up.

mod case;
mod comparison;
mod control;
mod difference;
mod grounds;
mod layout;
mod lengths;
mod outcome;
#[cfg(test)]
mod stand_ins;
pub mod words;

use crate::cases;
use crate::cases::scene::Scene;
use crate::put::Put;
use crate::random::Random;
use case::PutCase;
use comparison::Comparison;

pub const CASES: usize = 80_000;

const SEQUENCES: usize = 12;
const STEPS: usize = 300;

pub fn compare(program: &str, seed: u64, number: usize) -> Result<bool, String> {
    let mut random = Random::new(seed);
    let mut comparison = Comparison::start(program)?;
    cases::c_edges(&mut comparison, &mut random);
    lengths::edges(&mut comparison, &mut random);
    control::edges(&mut comparison, &mut random);
    for _ in 0..SEQUENCES {
        cases::sequence::put(&mut comparison, &mut random, STEPS);
    }
    let mut scene = Scene::default();
    while comparison.wants_more(number) {
        match random.one_in(8) {
            true => comparison.put_case(lengths::random(&mut random)),
            false => {
                let tables = comparison.tables();
                let request = cases::any_c_call(&mut random, &mut scene, tables);
                comparison.put(request);
            }
        }
    }
    Ok(comparison.finish())
}
