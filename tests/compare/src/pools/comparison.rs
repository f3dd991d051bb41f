//! Puts every call on a pool, and the unit's calls between them, to both programs.

use super::outcome;
use crate::comparison::{self, Judges, Outcomes};
use crate::outcome::Runs;
use crate::protocol::{Answer, Request};

/// The outcomes of the calls on pools.
pub struct Pools;

impl Outcomes for Pools {
    fn all() -> Vec<String> {
        outcome::all()
    }

    fn of(request: &Request, runs: Runs, expected: &Answer, _: &Judges) -> Vec<String> {
        outcome::of(request, runs, expected)
    }
}

pub type Comparison = comparison::Comparison<Pools>;
