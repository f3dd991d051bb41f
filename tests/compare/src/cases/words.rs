//! Table words to store, and where to store them.

use super::forest::{broken_word, number_inside, CAUSES, DIRECTORY_WORDS, PRESENT, TABLE_WORDS};
use crate::random::Random;
use reference::*;

/// A word's index and what it is to the walk that reaches it.
#[derive(Clone, Copy)]
pub struct Place {
    pub index: usize,
    pub tree: Tree,
    pub level: Level,
}

/// A word on the way of the page's walk, in the own tree or in the global one; mostly its leaf.
pub fn place(random: &mut Random, words: &[u32], page_id: u32, page: u32) -> Place {
    let tree = match random.one_in(4) {
        true => Tree::Global,
        false => Tree::Own,
    };
    let level = match random.below(8) {
        0 => Level::Root,
        1 | 2 => Level::Directory,
        _ => Level::Leaf,
    };
    on_the_way(words, tree, page_id, page, level)
}

/// The word at this level, or the last one that the walk reaches.
fn on_the_way(words: &[u32], tree: Tree, page_id: u32, page: u32, level: Level) -> Place {
    let root = match tree {
        Tree::Global => GLOBAL_ROOT,
        Tree::Own => page_id as usize,
    };
    let reached = match walk_tree(words, tree, page_id, page) {
        Walk::Leaf(word) | Walk::Absent(word) | Walk::Broken(word, _) => word,
    };
    let directory = DIRECTORY_WORDS * (words[root] & 0xFFFF) as usize + (page / 1024) as usize;
    let (index, level) = match (level, reached.level) {
        (Level::Root, _) => (root, Level::Root),
        (Level::Directory, Level::Leaf) => (directory, Level::Directory),
        (_, level) => (reached.index, level),
    };
    Place { index, tree, level }
}

/// The numbers of the directories and tables that good words name.
pub struct Numbers {
    pub directories: Vec<usize>,
    pub tables: Vec<usize>,
}

impl Numbers {
    /// Any that lie inside a run of this length.
    pub fn inside(random: &mut Random, length: usize) -> Numbers {
        let mut some = |stretch| {
            (0..3)
                .map(|_| number_inside(random, length, stretch))
                .collect()
        };
        Numbers {
            directories: some(DIRECTORY_WORDS),
            tables: some(TABLE_WORDS),
        }
    }

    /// A word that lets the walk go on; of a leaf that is there, one field is changed.
    fn good(&self, random: &mut Random, old: u32, level: Level) -> u32 {
        match level {
            Level::Root => PRESENT | random.pick(&self.directories) as u32,
            Level::Directory => PRESENT | random.pick(&self.tables) as u32,
            Level::Leaf if old >= PRESENT => old ^ field_bit(random),
            Level::Leaf => PRESENT | random.bits(31),
        }
    }

    fn is_good(&self, word: u32, level: Level) -> bool {
        let names = |numbers: &[usize]| numbers.contains(&((word ^ PRESENT) as usize));
        match level {
            Level::Root => names(&self.directories),
            Level::Directory => names(&self.tables),
            Level::Leaf => word >= PRESENT,
        }
    }
}

/// A value for the word: the same again, a good one, one turned absent or present, a broken one.
/// A word that stops walks is soon made good, but the global tree is left open half of the time.
pub fn value(random: &mut Random, words: &[u32], place: Place, numbers: &Numbers) -> u32 {
    let old = words[place.index];
    if place.tree == Tree::Global && random.one_in(2) {
        return old & !PRESENT;
    }
    if !numbers.is_good(old, place.level) && !random.one_in(4) {
        return numbers.good(random, old, place.level);
    }
    match random.below(16) {
        0 => old,
        1..=3 => old ^ PRESENT,
        4 => random.bits(31),
        5 => random.bits(32),
        6 if place.level == Level::Root => broken(random, words, DIRECTORY_WORDS),
        6 if place.level == Level::Directory => broken(random, words, TABLE_WORDS),
        _ => numbers.good(random, old, place.level),
    }
}

fn broken(random: &mut Random, words: &[u32], stretch: usize) -> u32 {
    let why = random.pick(&CAUSES);
    broken_word(random, words.len(), why, stretch)
}

/// One bit of a leaf's valid, kernel, we, software or pfn, valid most often.
fn field_bit(random: &mut Random) -> u32 {
    match random.below(6) {
        0 | 1 => 1 << 30,
        2 => 1 << 29,
        3 => 1 << 28,
        4 => 1 << (19 + random.below(9)),
        _ => 1 << random.below(19),
    }
}
