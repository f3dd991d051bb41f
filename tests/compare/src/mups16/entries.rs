//! Entries that are read and set on purpose.

use super::call::Operation;
use super::unit::{any_map, ask_after, read, set_entry, Unit};
use super::words::{self, address_of, other_address_of, ADDRESSES, EVERY_KIND, PLACE_BITS};
use crate::put::PutJudged;
use crate::random::Random;
use reference::mups16::{ENTRIES, PAGES};

const READS: [Operation; 2] = [Operation::LowWord, Operation::HighWord];

pub const AFTER_READS: &str = "reads of entries";
pub const AFTER_SET: &str = "a set of an entry";
pub const AFTER_NEIGHBOURS: &str = "a set of an entry and reads around it";

/// The table run is asked for right after one set of so many, and so often after the reads.
const SETS_TO_THE_RUN: usize = 6;

/// Other entries than the one that is set, by their distance.
const NEIGHBOURS: [(u32, &str); 6] = [
    (1, "next"),
    (8191, "one before"),
    (256, "one of the next table"),
    (8192 - 256, "one of the table before"),
    (4096, "one 4096 further"),
    (0, "one of the same page in another table"),
];

pub fn all() -> Vec<String> {
    let mut all: Vec<String> = ["low word", "high word", "map"].map(read_back).to_vec();
    for read in READS {
        all.extend(NEIGHBOURS.map(|(_, name)| neighbour(name, read)));
    }
    all
}

fn read_back(by: &str) -> String {
    format!("set of an entry, read back by a {by}")
}

fn neighbour(name: &str, by: Operation) -> String {
    format!(
        "set of an entry, the {name} read by a {} as it was",
        by.name()
    )
}

pub fn put(to: &mut dyn PutJudged, random: &mut Random) {
    to.may_restart();
    let run = words::run_of_every_kind(random);
    let mut unit = Unit::with(random, run);
    reads(to, random, &mut unit);
    ask_after(to, AFTER_READS);
    for (n, a) in set_addresses(random).into_iter().enumerate() {
        let entry = words::entry_of_kind(random, n as u32);
        set_and_read(to, random, &mut unit, (a, entry));
    }
}

/// Reads of each kind of entry, and by every address.
fn reads(to: &mut dyn PutJudged, random: &mut Random, unit: &mut Unit) {
    let kinds = (0..EVERY_KIND).map(|place| address_of(random, place));
    let mut all: Vec<u32> = kinds.collect();
    all.extend(addresses(random));
    for a in all {
        for operation in READS {
            unit.state = words::state(random, unit.state.boot_mode);
            let call = read(random, operation, a);
            unit.call(to, random, call, Vec::new());
            unit.state.boot_mode = random.one_in(2);
        }
    }
}

/// Those at the edges, and each bit above a place alone.
fn addresses(random: &mut Random) -> Vec<u32> {
    let single = (PLACE_BITS..32).flat_map(|bit| {
        let places = [0, 8191, words::place(random), words::place(random)];
        places.map(|place| 1 << bit | place)
    });
    ADDRESSES.into_iter().chain(single).collect()
}

/// Every address, and one for each kind of entry; a set finds every kind there too.
fn set_addresses(random: &mut Random) -> Vec<u32> {
    let mut all = addresses(random);
    let step = ENTRIES as u32 / EVERY_KIND;
    all.extend((0..EVERY_KIND).map(|kind| (step - 1) * EVERY_KIND + kind));
    all
}

/// Sets an entry and reads it, by another address of the same place, and entries around it.
fn set_and_read(
    to: &mut dyn PutJudged,
    random: &mut Random,
    unit: &mut Unit,
    (a, entry): (u32, u32),
) {
    let boot_mode = random.one_in(2);
    unit.state = words::state(random, boot_mode);
    let call = set_entry(random, a, entry);
    unit.call(to, random, call, Vec::new());
    if random.one_in(SETS_TO_THE_RUN) {
        ask_after(to, AFTER_SET);
    }
    for operation in READS {
        let other = other_address_of(random, a);
        let call = read(random, operation, other);
        let outcomes = vec![read_back(operation.name())];
        unit.call(to, random, call, outcomes);
    }
    let place = a % ENTRIES as u32;
    unit.state.table_index = place / PAGES;
    unit.state.boot_mode = false;
    let offset = words::virtual_address(random) & 0xFF;
    let call = any_map(random, ((place % PAGES) << 8) as u16 | offset);
    unit.call(to, random, call, vec![read_back("map")]);
    for (distance, name) in NEIGHBOURS {
        let distance = match distance {
            0 => PAGES * (2 + random.below(29) as u32),
            _ => distance,
        };
        let other = address_of(random, (place + distance) % ENTRIES as u32);
        let operation = random.pick(&READS);
        let call = read(random, operation, other);
        unit.call(to, random, call, vec![neighbour(name, operation)]);
    }
    if random.one_in(SETS_TO_THE_RUN) {
        ask_after(to, AFTER_NEIGHBOURS);
    }
}
