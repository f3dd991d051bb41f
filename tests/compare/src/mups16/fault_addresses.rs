//! Fault addresses that are read on purpose.

use super::unit::{ask_after, fault_address, Unit};
use super::words;
use crate::put::PutJudged;
use crate::random::Random;

const ADDRESSES: [u16; 3] = [0, 0xFF, 0xFFFF];

pub const AFTER_READS: &str = "reads of the fault address";

pub fn all() -> Vec<String> {
    addresses().map(outcome).collect()
}

fn outcome(address: u16) -> String {
    format!("fault address read, {address:04X} (hex)")
}

/// Each bit alone, and some more.
fn addresses() -> impl Iterator<Item = u16> {
    let single = (0..16).map(|bit| 1 << bit);
    single.chain(ADDRESSES)
}

pub fn put(to: &mut dyn PutJudged, random: &mut Random) {
    to.may_restart();
    let run = words::run_of_every_kind(random);
    let mut unit = Unit::with(random, run);
    for address in addresses() {
        for boot_mode in [false, true] {
            unit.state = words::state(random, boot_mode);
            unit.state.fault_address = address;
            let call = fault_address(random);
            unit.call(to, random, call, vec![outcome(address)]);
        }
    }
    ask_after(to, AFTER_READS);
}
