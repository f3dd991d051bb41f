//! The comparison's cases show every fault.

use crate::passes;
use crate::stand_ins::{trial, Faults};

/// Random cases beside the edges, which show every fault.
const CASES: usize = 2000;

#[test]
fn every_faulty_pass_shows_and_the_right_one_does_not() {
    trial::every_fault_shows(Faults::of_passes(), |to| passes::put(to, 1, CASES));
}
