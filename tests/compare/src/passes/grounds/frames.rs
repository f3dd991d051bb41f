//! Frames of the pool that are mapped twice, or while they are free.

use super::Way;
use crate::cases::forest::{DIRECTORY_WORDS, PRESENT, TABLE_WORDS};
use crate::passes::plot::{any_id, leaf_at, Plot};
use crate::passes::words::{any_place, leaf};
use crate::pools::shapes;
use crate::random::Random;
use reference::collector::Unfit;
use reference::heap::PFNS;
use reference::GLOBAL_ROOT;

const LAST: usize = TABLE_WORDS - 1;

/// The two leaves: whether they stand in one table, and their places.
const PAIRS: [(bool, usize, usize, &str); 4] = [
    (true, 20, 21, "two leaves side by side"),
    (true, 0, LAST, "the first and the last leaf of a table"),
    (false, 0, 0, "the first leaves of two tables"),
    (false, 30, LAST, "leaves of two tables"),
];

const KINDS: [(bool, bool, &str); 4] = [
    (true, true, "both valid"),
    (true, false, "the first valid"),
    (false, true, "the second valid"),
    (false, false, "neither valid"),
];

const VALIDS: [(bool, &str); 2] = [(true, "valid"), (false, "not valid")];

#[derive(Clone, Copy)]
enum Frame {
    First,
    Last,
    Inner,
    BeforeFirst,
    PastLast,
}

const FRAMES: [(Frame, &str); 3] = [
    (Frame::First, "the first frame"),
    (Frame::Last, "the last frame"),
    (Frame::Inner, "an inner frame"),
];
const OUTSIDE: [(Frame, &str); 2] = [
    (Frame::BeforeFirst, "the frame before the pool"),
    (Frame::PastLast, "the frame behind the pool"),
];

impl Frame {
    /// Its pfn, where the pool has or leaves such a frame.
    fn pfn(self, random: &mut Random, plot: &Plot) -> Option<u32> {
        let (first, size) = (plot.pool.first, plot.pool.size);
        match self {
            Frame::First if size > 1 => Some(first),
            Frame::Last => Some(first + size - 1),
            Frame::Inner if size > 2 => Some(first + 1 + random.below(size as usize - 2) as u32),
            Frame::BeforeFirst => first.checked_sub(1),
            Frame::PastLast => Some(first + size).filter(|&pfn| pfn < PFNS),
            _ => None,
        }
    }
}

pub fn ways() -> Vec<Way> {
    let mut ways = Vec::new();
    for pair in PAIRS {
        for (first, second, kind) in KINDS {
            for (frame, which) in FRAMES {
                let name = format!("{which} is mapped by {}, {kind}", pair.3);
                let both = move |random: &mut Random| {
                    mapped_twice(random, pair, (first, second), frame, PRESENT)
                };
                let ground = Unfit::FrameMappedTwice;
                ways.push(Way::refused(ground, name.clone(), both));
                let but = format!("{name}, but for the second, which is absent");
                ways.push(Way::accepted(but, move |random| {
                    mapped_twice(random, pair, (first, second), frame, 0)
                }));
            }
            for (frame, which) in OUTSIDE {
                let name = format!("{which} is mapped by {}, {kind}", pair.3);
                ways.push(Way::accepted(name, move |random| {
                    mapped_twice(random, pair, (first, second), frame, PRESENT)
                }));
            }
        }
    }
    for (valid, kind) in VALIDS {
        for (frame, which) in FRAMES {
            let name = format!("{which} is mapped while free, {kind}");
            let free = move |random: &mut Random| mapped_free(random, valid, frame, PRESENT);
            ways.push(Way::refused(Unfit::FrameNotHeld, name.clone(), free));
            let but = format!("{name}, but for the leaf, which is absent");
            ways.push(Way::accepted(but, move |random| {
                mapped_free(random, valid, frame, 0)
            }));
        }
        for (frame, which) in OUTSIDE {
            let name = format!("{which} is mapped, its bit or none clear, {kind}");
            ways.push(Way::accepted(name, move |random| {
                mapped_free(random, valid, frame, PRESENT)
            }));
        }
        for (held, is) in [(true, "held"), (false, "free")] {
            let name = format!("a {is} frame is mapped by another identification, {kind}");
            ways.push(Way::accepted(name, move |random| {
                mapped_by_another(random, valid, held)
            }));
        }
    }
    ways
}

/// A plot of whose leaves none maps a frame of the pool yet; every frame of it is held.
pub fn unmapped(random: &mut Random) -> Plot {
    let id = any_id(random);
    let mut plot = Plot::alone(random, id);
    for (_, table) in plot.tree().tables.clone() {
        plot.clear(random, TABLE_WORDS * table, TABLE_WORDS);
    }
    for place in 0..plot.pool.size {
        shapes::set(&mut plot.pool, place, true);
    }
    plot
}

/// Two leaves of one frame, the second with this present bit, and in some other leaves beside them
/// and between.
fn mapped_twice(
    random: &mut Random,
    (in_one, first, second, _): (bool, usize, usize, &str),
    (first_valid, second_valid): (bool, bool),
    frame: Frame,
    present: u32,
) -> Option<Plot> {
    let mut plot = unmapped(random);
    let pfn = frame.pfn(random, &plot)?;
    let tables = &plot.tree().tables;
    let (_, lower) = tables[0];
    let (_, upper) = *tables.get(usize::from(!in_one))?;
    plot.words[leaf_at(lower, first)] = leaf(random, first_valid, pfn);
    plot.words[leaf_at(upper, second)] = leaf(random, second_valid, pfn) & !PRESENT | present;
    if plot.pool.place_of(pfn).is_some() {
        plot.hold(pfn);
    }
    for _ in 0..random.below(6) {
        let table = plot.table(random);
        plot.plant(random, table);
    }
    Some(plot)
}

/// One leaf of a frame that is free, with this present bit.
fn mapped_free(random: &mut Random, valid: bool, frame: Frame, present: u32) -> Option<Plot> {
    let mut plot = unmapped(random);
    let pfn = frame.pfn(random, &plot)?;
    let place = pfn.wrapping_sub(plot.pool.first);
    if (place as usize) < 64 * plot.pool.bits.len() {
        shapes::set(&mut plot.pool, place, false);
    }
    let index = leaf_at(plot.table(random), any_place(random, TABLE_WORDS));
    plot.words[index] = leaf(random, valid, pfn) & !PRESENT | present;
    Some(plot)
}

/// A leaf of another tree maps a frame that one of the own tree maps too, or one that is free.
fn mapped_by_another(random: &mut Random, valid: bool, held: bool) -> Option<Plot> {
    let mut plot = unmapped(random);
    let pfn = Frame::Last.pfn(random, &plot)?;
    let root = random.pick(&[0, 5, 62, GLOBAL_ROOT]);
    let [directory, table] = [plot.room.directory(random)?, plot.room.table(random)?];
    if root == plot.id as usize {
        return None;
    }
    plot.words[root] = PRESENT | directory as u32;
    plot.clear(random, DIRECTORY_WORDS * directory, DIRECTORY_WORDS);
    let place = any_place(random, DIRECTORY_WORDS);
    plot.words[DIRECTORY_WORDS * directory + place] = PRESENT | table as u32;
    plot.clear(random, TABLE_WORDS * table, TABLE_WORDS);
    for place in [0, LAST] {
        plot.words[leaf_at(table, place)] = leaf(random, valid, pfn);
    }
    if held {
        let index = leaf_at(plot.table(random), 7);
        plot.words[index] = leaf(random, valid, pfn);
    } else {
        let place = pfn - plot.pool.first;
        shapes::set(&mut plot.pool, place, false);
    }
    Some(plot)
}
