//! Calls that are handed their run, after which it is kept.

use super::call::{Operation, OPERATIONS};
use super::unit::{ask_after, of, Unit};
use super::words;
use crate::put::PutJudged;
use crate::random::Random;
use reference::mups16::ENTRIES;

pub fn all() -> Vec<String> {
    OPERATIONS.map(outcome).to_vec()
}

fn outcome(operation: Operation) -> String {
    format!("{} that is handed its run", operation.name())
}

pub fn after(operation: Operation) -> String {
    format!("a {} with it", operation.name())
}

pub fn put(to: &mut dyn PutJudged, random: &mut Random) {
    for operation in OPERATIONS {
        for boot_mode in [false, true] {
            to.may_restart();
            let run = words::run(random, ENTRIES);
            let mut unit = Unit::with(random, run);
            unit.state.boot_mode = boot_mode;
            let call = of(random, operation);
            unit.call(to, random, call, vec![outcome(operation)]);
            ask_after(to, &after(operation));
        }
    }
}
