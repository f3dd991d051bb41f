//! Table indices that are set on purpose, and what is then seen by them.

use super::call::Operation;
use super::unit::{any_map, ask_after, read, set_index, Unit};
use super::words::{self, INDICES};
use crate::put::PutJudged;
use crate::random::Random;

pub const AFTER_SET: &str = "sets of the table index";

const MAPPED_BY: &str = "map by the table index just set";
const READ_BACK: &str = "high word with the table index just set";

pub fn all() -> Vec<String> {
    [MAPPED_BY, READ_BACK].map(String::from).to_vec()
}

pub fn put(to: &mut dyn PutJudged, random: &mut Random) {
    to.may_restart();
    let run = words::run_of_every_kind(random);
    let mut unit = Unit::with(random, run);
    let small = 0..32;
    let single = (0..32).map(|bit| 1 << bit);
    let beside = (5..32).map(|bit| 1 << bit | 31);
    let values: Vec<u32> = small.chain(single).chain(beside).chain(INDICES).collect();
    for value in values {
        for boot_mode in [false, true] {
            unit.state = words::state(random, boot_mode);
            set_and_see(to, random, &mut unit, value);
        }
    }
    ask_after(to, AFTER_SET);
}

fn set_and_see(to: &mut dyn PutJudged, random: &mut Random, unit: &mut Unit, value: u32) {
    let call = set_index(random, value);
    unit.call(to, random, call, Vec::new());
    let place = words::place(random);
    let call = read(random, Operation::HighWord, place);
    unit.call(to, random, call, vec![READ_BACK.to_string()]);
    unit.state.boot_mode = false;
    let address = words::virtual_address(random);
    let call = any_map(random, address);
    unit.call(to, random, call, vec![MAPPED_BY.to_string()]);
}
