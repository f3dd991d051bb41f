//! Pages of the own tree that the global tree has too: they are visited and counted all the same.

use super::frames::unmapped;
use super::Way;
use crate::cases::forest::{DIRECTORY_WORDS, PRESENT, TABLE_WORDS};
use crate::passes::plot::{leaf_at, Plot};
use crate::passes::slots;
use crate::passes::words::{any_leaf, any_place, broken, leaf};
use crate::pools::shapes;
use crate::random::Random;
use reference::collector::Unfit;
use reference::heap::PFNS;
use reference::GLOBAL_ROOT;

const VALIDS: [(bool, &str); 2] = [(true, "valid"), (false, "not valid")];

/// Which frame the global leaf maps.
#[derive(Clone, Copy)]
enum Over {
    Same,
    FreeOne,
    Outside,
}

const OVER: [(Over, &str); 3] = [
    (Over::Same, "the same frame"),
    (Over::FreeOne, "a free frame of the pool"),
    (Over::Outside, "a frame outside the pool"),
];

pub fn ways() -> Vec<Way> {
    let mut ways = Vec::new();
    for (valid, kind) in VALIDS {
        for (over, which) in OVER {
            let name = format!("a page under a global leaf of {which}, {kind}");
            ways.push(Way::accepted(name, move |random| {
                visited(random, valid, over)
            }));
        }
        let free = format!("a free frame is mapped by a leaf under a global one, {kind}");
        ways.push(Way::refused(Unfit::FrameNotHeld, free, move |random| {
            let (mut plot, pfn) = hidden(random, valid)?;
            let place = pfn - plot.pool.first;
            shapes::set(&mut plot.pool, place, false);
            Some(plot)
        }));
        let twice = format!("a frame is mapped by two leaves, one under a global one, {kind}");
        ways.push(Way::refused(
            Unfit::FrameMappedTwice,
            twice,
            move |random| {
                let (mut plot, pfn) = hidden(random, valid)?;
                let index = leaf_at(plot.table(random), any_place(random, TABLE_WORDS));
                plot.words[index] = leaf(random, valid, pfn);
                Some(plot)
            },
        ));
    }
    let word = "a broken directory word, every page of it under a global leaf";
    ways.push(Way::refused(Unfit::DirectoryWord, word, |random| {
        let (mut plot, _) = hidden(random, true)?;
        let place = plot.tree().tables[0].0;
        let global = global_table(random, &mut plot, place)?;
        for n in 0..TABLE_WORDS {
            let pfn = random.bits(19);
            plot.words[leaf_at(global, n)] = any_leaf(random, pfn);
        }
        let index = plot.tree().word(place);
        plot.words[index] = broken(random, plot.words.len());
        Some(plot)
    }));
    ways
}

/// A page of the own tree and its frame, under a global leaf of this frame.
fn visited(random: &mut Random, valid: bool, over: Over) -> Option<Plot> {
    let (mut plot, pfn) = hidden(random, valid)?;
    let over = match over {
        Over::Same => pfn,
        Over::FreeOne => {
            let place = random.below(plot.pool.size as usize) as u32;
            let free = Some(plot.pool.first + place).filter(|&free| free != pfn)?;
            shapes::set(&mut plot.pool, place, false);
            free
        }
        Over::Outside => Some(random.bits(19)).filter(|&any| plot.pool.place_of(any).is_none())?,
    };
    let global = plot.words[GLOBAL_ROOT] & 0xFFFF;
    let words = DIRECTORY_WORDS * global as usize;
    let named = (0..DIRECTORY_WORDS).find(|place| plot.words[words + place] >= PRESENT)?;
    let table = (plot.words[words + named] & 0xFFFF) as usize;
    for n in 0..TABLE_WORDS {
        let index = leaf_at(table, n);
        if plot.words[index] >= PRESENT {
            plot.words[index] = any_leaf(random, over);
        }
    }
    plot.buffer = slots::any(random, &plot);
    Some(plot)
}

/// A plot in which one leaf maps a frame of the pool, under a global leaf of any frame; that frame.
fn hidden(random: &mut Random, valid: bool) -> Option<(Plot, u32)> {
    let mut plot = unmapped(random);
    let pfn = plot.unmapped(random)?;
    let (place, table) = plot.tree().tables[0];
    let n = any_place(random, TABLE_WORDS);
    plot.words[leaf_at(table, n)] = leaf(random, valid, pfn);
    let global = global_table(random, &mut plot, place)?;
    let any = random.below(PFNS as usize) as u32;
    plot.words[leaf_at(global, n)] = any_leaf(random, any);
    Some((plot, pfn))
}

/// The global tree's table for this place in its directory, which it is given where it has none.
fn global_table(random: &mut Random, plot: &mut Plot, place: usize) -> Option<usize> {
    if plot.words[GLOBAL_ROOT] < PRESENT {
        let directory = plot.room.directory(random)?;
        plot.words[GLOBAL_ROOT] = PRESENT | directory as u32;
        plot.clear(random, DIRECTORY_WORDS * directory, DIRECTORY_WORDS);
    }
    let directory = (plot.words[GLOBAL_ROOT] & 0xFFFF) as usize;
    let index = DIRECTORY_WORDS * directory + place;
    if plot.words[index] < PRESENT {
        let table = plot.room.table(random)?;
        plot.words[index] = PRESENT | table as u32;
        plot.clear(random, TABLE_WORDS * table, TABLE_WORDS);
    }
    Some((plot.words[index] & 0xFFFF) as usize)
}
