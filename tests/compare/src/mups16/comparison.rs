//! Puts every call of the MUPS/16 unit, and the other unit's between them, to both programs.

use super::outcome;
use crate::comparison::{self, Judges, Outcomes};
use crate::outcome::Runs;
use crate::protocol::{Answer, Request};

/// The outcomes of the MUPS/16 unit.
pub struct Mups16;

impl Outcomes for Mups16 {
    fn all() -> Vec<String> {
        outcome::all()
    }

    fn of(request: &Request, runs: Runs, expected: &Answer, _: &Judges) -> Vec<String> {
        outcome::of(request, runs, expected)
    }
}

pub type Comparison = comparison::Comparison<Mups16>;
