//! Records between the boundaries: accesses and stores of all kinds, malformed and refused records,
//! but no setting that is accepted.

use super::scene::{self, HEAP_PAGES, PAGES, SEGMENTS};
use crate::random::Random;
use crate::traces::record::Record;
use crate::traces::script::{malformed, refused};
use reference::trace::Unit;

pub fn record(random: &mut Random, unit: &Unit) -> Record {
    match random.below(20) {
        0 => refused(random),
        1 => {
            let record = accepted(random, unit);
            malformed(random, record)
        }
        _ => accepted(random, unit),
    }
}

fn accepted(random: &mut Random, unit: &Unit) -> Record {
    match random.below(16) {
        0..=3 => scene::heap_store(&unit.words, random.below(HEAP_PAGES), random.bits(3)),
        4 => scene::linear(random.below(SEGMENTS as usize) as u32),
        _ => {
            let page = match random.below(12) {
                0 => scene::absent_page(),
                1 => scene::broken_page(),
                2 => scene::global_page(),
                3..=6 => scene::heap_page(random.below(HEAP_PAGES)),
                _ => scene::own_page(random.below(PAGES)),
            };
            let (user, write) = (!random.one_in(4), random.one_in(2));
            scene::access(page, user, write, random.bits(2))
        }
    }
}
