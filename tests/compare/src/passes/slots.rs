//! Buffers for a pass: entries that agree with the leaves, that will agree once they are aged, that
//! never do, and entries that have nothing to do with the pass.

use super::plot::Plot;
use super::words::VALID;
use crate::cases::forest::PRESENT;
use crate::cases::scene::entry_of;
use crate::cases::state;
use crate::random::Random;
use reference::*;

pub fn any(random: &mut Random, plot: &Plot) -> Vec<u64> {
    let mut buffer = state::empty_slots();
    match random.below(8) {
        0 => return state::buffer(random, SLOTS),
        1 => return buffer,
        _ => {}
    }
    let grown = plot.own.iter().chain(&plot.others);
    for tree in grown {
        for (page, index) in tree.pages() {
            if plot.words[index] < PRESENT {
                continue;
            }
            let entry = match random.below(4) {
                0 => continue,
                1 => aged(tree.root as u32, page, plot.words[index]),
                _ => agreeing(&plot.words, tree.root as u32, page),
            };
            for _ in 0..random.pick(&[1, 1, 1, 3]) {
                let set = random.below(SETS);
                buffer[slot(set, location(page))] = entry.pack() | state::high_bits(random);
            }
        }
    }
    for _ in 0..random.pick(&[0, 0, 1, 4]) {
        let slot = random.below(SLOTS);
        buffer[slot] = odd(random, buffer[slot]);
    }
    buffer
}

/// What a load of the page stores under this identification; the page has a leaf.
pub fn agreeing(words: &[u32], id: u32, page: u32) -> Entry {
    let leaf = Leaf::of_walk(walk(words, id, page));
    entry_of(id, page, leaf.unwrap_or(NO_LEAF))
}

/// Of a page that a broken word hides.
const NO_LEAF: Leaf = Leaf {
    global: false,
    valid: true,
    kernel: false,
    we: false,
    pfn: 0,
};

/// What the own leaf's entry will be once it is aged.
pub fn aged(id: u32, page: u32, leaf: u32) -> Entry {
    let decided = Decided {
        tree: Tree::Own,
        level: Level::Leaf,
        index: 0,
        word: leaf & !VALID,
    };
    entry_of(id, page, Leaf::from_word(decided))
}

/// The number with one bit turned over, or one that is not swept as it looks.
fn odd(random: &mut Random, number: u64) -> u64 {
    match random.below(6) {
        0 => number ^ 1 << random.below(44),
        1 => number | 63 << 23,
        2 => Entry::empty(random.below(SETS)).pack(),
        3 => 0,
        4 => random.bits64(),
        _ => number | 1 << (44 + random.below(20)),
    }
}
