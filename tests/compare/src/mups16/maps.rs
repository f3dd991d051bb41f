//! Maps made on purpose.

use super::unit::{any_map, ask_after, map, Unit};
use super::words::{self, EVERY_KIND};
use crate::put::PutJudged;
use crate::random::Random;
use reference::mups16::{PAGES, TABLES};

pub const AFTER_MAPS: &str = "maps";

pub fn put(to: &mut dyn PutJudged, random: &mut Random) {
    to.may_restart();
    let run = words::run_of_every_kind(random);
    let mut unit = Unit::with(random, run);
    every_kind_of_entry(to, random, &mut unit);
    every_place(to, random, &mut unit);
    ask_after(to, AFTER_MAPS);
}

/// Each kind of entry, whoever maps and for what, in boot mode and out of it.
fn every_kind_of_entry(to: &mut dyn PutJudged, random: &mut Random, unit: &mut Unit) {
    for page in 0..EVERY_KIND as u16 {
        for lines in 0..8 {
            let (user, write, boot_mode) = (lines & 1 == 1, lines & 2 == 2, lines & 4 == 4);
            unit.state = words::state(random, boot_mode);
            let offset = words::virtual_address(random) & 0xFF;
            let call = map(random, page << 8 | offset, user, write);
            unit.call(to, random, call, Vec::new());
        }
    }
}

/// The ends of each table, and every page of some, at the ends of the page and between.
fn every_place(to: &mut dyn PutJudged, random: &mut Random, unit: &mut Unit) {
    let ends = (0..TABLES).flat_map(|table| [(table, 0), (table, PAGES - 1)]);
    let any = 1 + random.below(30) as u32;
    let whole = [0, any, TABLES - 1].map(|table| (0..PAGES).map(move |page| (table, page)));
    let places: Vec<(u32, u32)> = ends.chain(whole.into_iter().flatten()).collect();
    for (table, page) in places {
        for offset in [0, 255, 1 + random.below(254) as u32] {
            let boots_first = random.one_in(2);
            unit.state = words::state(random, boots_first);
            unit.state.table_index = table;
            let call = any_map(random, (PAGES * page + offset) as u16);
            unit.call(to, random, call, Vec::new());
            unit.state.boot_mode = !boots_first;
            unit.call(to, random, call, Vec::new());
        }
    }
}
