//! The page-table walk.

use crate::run::Run;

/// "Word 63 is the global root."
pub const GLOBAL_ROOT: usize = 63;

pub const DIRECTORY_WORDS: usize = 512;
pub const TABLE_WORDS: usize = 1024;

#[derive(Clone, Copy, Debug, PartialEq, Eq)]
pub enum Tree {
    Global,
    Own,
}

#[derive(Clone, Copy, Debug, PartialEq, Eq)]
pub enum Level {
    Root,
    Directory,
    Leaf,
}

impl Level {
    pub fn number(self) -> u32 {
        match self {
            Level::Root => 1,
            Level::Directory => 2,
            Level::Leaf => 3,
        }
    }
}

/// The first ground, in this order, on which a present root or directory word is broken.
#[derive(Clone, Copy, Debug, PartialEq, Eq)]
pub enum WhyBroken {
    ReservedBits,
    NumberZero,
    /// The stretch begins at or past the run's end.
    WhollyOutside,
    /// The stretch begins inside the run and ends outside.
    PartlyOutside,
}

/// The word that decided, and where it stands.
#[derive(Clone, Copy, Debug, PartialEq, Eq)]
pub struct Decided {
    pub tree: Tree,
    pub level: Level,
    pub index: usize,
    pub word: u32,
}

#[derive(Clone, Copy, Debug, PartialEq, Eq)]
pub enum Walk {
    Leaf(Decided),
    Absent(Decided),
    Broken(Decided, WhyBroken),
}

/// "The global tree is walked first"; absent there means walk the own tree, and a leaf or a
/// broken word there ends the walk. The run has at least 64 words.
pub fn walk(words: &(impl Run<u32> + ?Sized), page_id: u32, vpn: u32) -> Walk {
    match walk_tree(words, Tree::Global, page_id, vpn) {
        Walk::Absent(_) => walk_tree(words, Tree::Own, page_id, vpn),
        decided => decided,
    }
}

/// One tree's walk: root, the directory at vpn div 1024, the table at vpn mod 1024.
pub fn walk_tree(words: &(impl Run<u32> + ?Sized), tree: Tree, page_id: u32, vpn: u32) -> Walk {
    let root = match tree {
        Tree::Global => GLOBAL_ROOT,
        Tree::Own => page_id as usize,
    };
    let at = |level, index: usize| Decided {
        tree,
        level,
        index,
        word: words.at(index),
    };

    let root = at(Level::Root, root);
    if !present(root.word) {
        return Walk::Absent(root);
    }
    let directory = match stretch_begin(words.length(), root.word, DIRECTORY_WORDS) {
        Ok(begin) => at(Level::Directory, begin + (vpn / 1024) as usize),
        Err(why) => return Walk::Broken(root, why),
    };
    if !present(directory.word) {
        return Walk::Absent(directory);
    }
    let leaf = match stretch_begin(words.length(), directory.word, TABLE_WORDS) {
        Ok(begin) => at(Level::Leaf, begin + (vpn % 1024) as usize),
        Err(why) => return Walk::Broken(directory, why),
    };
    if !present(leaf.word) {
        return Walk::Absent(leaf);
    }
    Walk::Leaf(leaf)
}

/// Bit 31.
pub fn present(word: u32) -> bool {
    word >> 31 == 1
}

/// Where the stretch that a present root or directory word names begins, or why the word is
/// broken: reserved bits 30 to 16 set, number 0, or the stretch not wholly inside the run.
pub fn stretch_begin(run: usize, word: u32, length: usize) -> Result<usize, WhyBroken> {
    let reserved = (word >> 16) % (1 << 15);
    let number = (word % (1 << 16)) as usize;
    if reserved != 0 {
        return Err(WhyBroken::ReservedBits);
    }
    if number == 0 {
        return Err(WhyBroken::NumberZero);
    }
    let begin = length * number;
    if begin >= run {
        return Err(WhyBroken::WhollyOutside);
    }
    if begin + length > run {
        return Err(WhyBroken::PartlyOutside);
    }
    Ok(begin)
}
