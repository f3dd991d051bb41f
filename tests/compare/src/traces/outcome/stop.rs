//! Outcomes of the walks that accesses of a trace begin: where they stop, and why.

use crate::outcome::walk as walk_outcome;
use reference::trace::TABLE_WORDS;
use reference::*;

/// The reserved bits of a root or directory word.
const RESERVED: std::ops::Range<u32> = 16..31;
const LAST_DIRECTORY: usize = TABLE_WORDS / 512 - 1;
const LAST_TABLE: usize = TABLE_WORDS / 1024 - 1;

pub fn all() -> Vec<String> {
    let mut all = Vec::new();
    for level in [Level::Root, Level::Directory] {
        for tree in [Tree::Global, Tree::Own] {
            all.extend(
                [
                    WhyBroken::ReservedBits,
                    WhyBroken::NumberZero,
                    WhyBroken::WhollyOutside,
                ]
                .map(|why| broken(level, tree, why)),
            );
        }
        all.extend(RESERVED.map(|bit| reserved(level, bit)));
        all.push(first_outside(level));
    }
    all.extend([last(Level::Directory), last(Level::Leaf)]);
    all
}

/// The word at which the walk of the page ends.
pub fn of(words: &[u32], page_id: u32, page: u32) -> Vec<String> {
    match walk(words, page_id, page) {
        Walk::Leaf(word) | Walk::Absent(word) => of_place(word),
        Walk::Broken(word, why) => {
            let mut outcomes = vec![broken(word.level, word.tree, why)];
            outcomes.extend(of_bits(word));
            outcomes.extend(of_place(word));
            outcomes
        }
    }
}

fn of_place(word: Decided) -> Vec<String> {
    let is_last = match word.level {
        Level::Root => false,
        Level::Directory => word.index / 512 == LAST_DIRECTORY,
        Level::Leaf => word.index / 1024 == LAST_TABLE,
    };
    match is_last {
        true => vec![last(word.level)],
        false => Vec::new(),
    }
}

fn of_bits(word: Decided) -> Option<String> {
    let reserved_bits = word.word >> 16 & 0x7FFF;
    let outside = match word.level {
        Level::Root => LAST_DIRECTORY + 1,
        _ => LAST_TABLE + 1,
    };
    match reserved_bits {
        0 if (word.word & 0xFFFF) as usize == outside => Some(first_outside(word.level)),
        bits if bits.is_power_of_two() => Some(reserved(word.level, 16 + bits.ilog2())),
        _ => None,
    }
}

fn broken(level: Level, tree: Tree, why: WhyBroken) -> String {
    format!("trace, {}", walk_outcome::broken(tree, level, why))
}

fn reserved(level: Level, bit: u32) -> String {
    format!("trace, {}", walk_outcome::single_bit(level, bit))
}

fn first_outside(level: Level) -> String {
    format!("trace, {}", walk_outcome::begins_at_end(level))
}

fn last(level: Level) -> String {
    format!("trace, {}", walk_outcome::ends_at_end(level))
}
