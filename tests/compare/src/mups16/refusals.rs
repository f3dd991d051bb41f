//! Calls over runs of a wrong length.

use super::call::{Operation, UnitCall, WITH_RUN};
use super::unit::{any_map, ask_after, read, set_entry, Unit};
use super::words;
use crate::put::PutJudged;
use crate::random::Random;
use reference::mups16::{PAGES, TABLES};

/// Runs at the edges, of whole tables, and others.
const LENGTHS: [usize; 14] = [
    1, 2, 255, 256, 4096, 7936, 8190, 8191, 8193, 8194, 8448, 12288, 16383, 16384,
];

/// Calls of each operation over each run, in boot mode and out of it.
const CALLS: usize = 3;

/// Calls by a program that has not been given a run yet.
pub fn without_run(to: &mut dyn PutJudged, random: &mut Random) {
    let mut unit = Unit::with(random, Vec::new());
    put_all(to, random, &mut unit, 0);
}

pub fn put(to: &mut dyn PutJudged, random: &mut Random) {
    for length in LENGTHS {
        to.may_restart();
        let run = words::run(random, length);
        let mut unit = Unit::with(random, run);
        put_all(to, random, &mut unit, length);
    }
}

/// Every operation that needs a run, in boot mode and out of it; the run is asked for behind each.
fn put_all(to: &mut dyn PutJudged, random: &mut Random, unit: &mut Unit, length: usize) {
    for operation in WITH_RUN {
        for boot_mode in [false, true] {
            for _ in 0..CALLS {
                unit.state = words::state(random, boot_mode);
                let call = inside(random, unit, operation, length);
                unit.call(to, random, call, Vec::new());
            }
            ask_after(to, &after_refused(operation));
        }
    }
}

pub fn after_refused(operation: Operation) -> String {
    format!("a refused {}", operation.name())
}

/// A call about an entry that the run has, where it has any.
pub fn inside(
    random: &mut Random,
    unit: &mut Unit,
    operation: Operation,
    length: usize,
) -> UnitCall {
    let most = length.clamp(1, (TABLES * PAGES) as usize);
    let place = match random.below(3) {
        0 => 0,
        1 => most - 1,
        _ => random.below(most),
    } as u32;
    let a = words::address_of(random, place);
    match operation {
        Operation::Map => {
            unit.state.table_index = place / PAGES;
            let page = (place % PAGES) as u16;
            let offset = words::virtual_address(random) & 0xFF;
            any_map(random, page << 8 | offset)
        }
        Operation::SetEntry => {
            let entry = words::entry(random);
            set_entry(random, a, entry)
        }
        _ => read(random, operation, a),
    }
}
