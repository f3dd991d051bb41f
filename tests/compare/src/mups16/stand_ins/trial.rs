//! The comparison's cases show every fault.

use crate::mups16;
use crate::stand_ins::{trial, Faults};

/// Random cases beside the edges, which show every fault.
const CASES: usize = 2000;

#[test]
fn every_faulty_unit_shows_and_the_right_one_does_not() {
    trial::every_fault_shows(Faults::of_mups16(), |to| mups16::put(to, 1, CASES));
}
