//! Calls of all kinds over runs of all kinds.

use super::call::{Operation, OPERATIONS};
use super::unit::{ask_after, of, Unit};
use super::words;
use crate::put::PutJudged;
use crate::random::Random;
use reference::mups16::ENTRIES;

/// So many calls at the most are made over one run.
const MOST_CALLS: usize = 600;

/// The table run is asked for behind one call of so many.
const CALLS_TO_THE_RUN: usize = 40;

pub const AFTER_ANY: &str = "calls of all kinds";

pub fn put(to: &mut dyn PutJudged, random: &mut Random, total: usize) {
    while to.wants_more(total) {
        to.may_restart();
        let run = words::run(random, ENTRIES);
        let mut unit = Unit::with(random, run);
        for _ in 0..1 + random.below(MOST_CALLS) {
            any_call(to, random, &mut unit);
            if random.one_in(CALLS_TO_THE_RUN) {
                ask_after(to, AFTER_ANY);
            }
        }
        ask_after(to, AFTER_ANY);
    }
}

/// A call by the state that the last one left, or by any.
pub fn any_call(to: &mut dyn PutJudged, random: &mut Random, unit: &mut Unit) {
    if random.one_in(2) {
        let boot_mode = random.one_in(3);
        unit.state = words::state(random, boot_mode);
    }
    let operation = match random.one_in(2) {
        true => Operation::Map,
        false => random.pick(&OPERATIONS),
    };
    let call = of(random, operation);
    unit.call(to, random, call, Vec::new());
}
