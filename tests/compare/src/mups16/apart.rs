//! Maps over runs that differ in every table but the active one, and in boot mode in every entry.

use super::call::{Operation, UnitCall};
use super::unit::{of, Unit};
use super::words;
use crate::put::PutJudged;
use crate::random::Random;
use reference::mups16::{State, ENTRIES, PAGES};
use std::ops::Range;

/// How often the other entries change, and how many maps are made each time.
const TURNS: usize = 24;
const MAPS: usize = 8;

const OTHER_TABLES: &str = "map as before, every entry of the other tables changed";
const OTHER_ENTRIES: &str = "map in boot mode as before, every entry changed";

pub fn all() -> Vec<String> {
    [OTHER_TABLES, OTHER_ENTRIES].map(String::from).to_vec()
}

pub fn put(to: &mut dyn PutJudged, random: &mut Random) {
    for turn in 0..TURNS {
        to.may_restart();
        let state = words::state(random, turn % 2 == 1);
        over_two_runs(to, random, state);
    }
}

/// The same maps over both runs.
fn over_two_runs(to: &mut dyn PutJudged, random: &mut Random, state: State) {
    let run = words::run(random, ENTRIES);
    let table = PAGES as usize * state.table_index as usize;
    let (kept, outcome) = match state.boot_mode {
        true => (0..0, OTHER_ENTRIES),
        false => (table..table + PAGES as usize, OTHER_TABLES),
    };
    let other = with_others_changed(random, &run, kept);
    let maps: [UnitCall; MAPS] = std::array::from_fn(|_| of(random, Operation::Map));
    let mut unit = Unit::with(random, run);
    let mut map = |unit: &mut Unit, call: UnitCall, outcomes: Vec<String>| {
        unit.state = state;
        unit.call(to, random, call, outcomes).words
    };
    let answers = maps.map(|call| map(&mut unit, call, Vec::new()));
    unit.hand_over(other);
    let again = maps.map(|call| map(&mut unit, call, vec![outcome.to_string()]));
    assert_eq!(again, answers);
}

/// Every entry outside the table gets another status and another page.
fn with_others_changed(random: &mut Random, run: &[u32], kept: Range<usize>) -> Vec<u32> {
    let changed = |random: &mut Random| {
        let status = 1 + random.below(7) as u32;
        let page = 1 + random.below(0xFFFF) as u32;
        status << 16 | page
    };
    run.iter()
        .enumerate()
        .map(|(place, &word)| match kept.contains(&place) {
            true => word,
            false => word ^ changed(random),
        })
        .collect()
}
