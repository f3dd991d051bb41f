//! Puts every pass, and the calls between them, to both programs.

use super::outcome;
use crate::comparison::{self, Judges, Outcomes};
use crate::outcome::Runs;
use crate::protocol::{Answer, Request};

/// The outcomes of passes.
pub struct Passes;

impl Outcomes for Passes {
    fn all() -> Vec<String> {
        outcome::all()
    }

    fn of(request: &Request, runs: Runs, expected: &Answer, judges: &Judges) -> Vec<String> {
        outcome::of(request, runs, expected, judges)
    }
}

pub type Comparison = comparison::Comparison<Passes>;
