//! The present leaf words, counted by the definition: every page is walked from every root.

use super::leaf_words::{LeafWords, ROOTS};
use crate::walk::{walk_tree, Level, Tree, Walk};

const PAGES: u32 = 1 << 19;

/// The pages that one directory word decides on.
const PAGES_OF_A_TABLE: u32 = 1024;

/// "A present word counts if the walk of some page from a root 0 to 63 ends at it as its leaf."
pub fn leaf_words(words: &[u32]) -> usize {
    let mut is_leaf = vec![false; words.len()];
    for root in 0..ROOTS {
        // The walks from a root with the same word as a lower one end where those end.
        if !words[..root].contains(&words[root]) {
            mark_leaves(words, root as u32, &mut is_leaf);
        }
    }
    is_leaf.into_iter().filter(|&is_leaf| is_leaf).count()
}

/// Marks where the walks of all pages from this root end. It is one tree's walk: whether the global
/// tree has a leaf for the page does not matter.
fn mark_leaves(words: &[u32], root: u32, is_leaf: &mut [bool]) {
    let mut page = 0;
    while page < PAGES {
        page += match walk_tree(words, Tree::Own, root, page) {
            Walk::Leaf(leaf) => {
                is_leaf[leaf.index] = true;
                1
            }
            Walk::Absent(word) | Walk::Broken(word, _) => pages_stopped_at(word.level),
        };
    }
}

/// How many pages, from the first on that a word of this level stops, are stopped by it.
fn pages_stopped_at(level: Level) -> u32 {
    match level {
        Level::Root => PAGES,
        Level::Directory => PAGES_OF_A_TABLE,
        Level::Leaf => 1,
    }
}

/// Counts anew after each store.
#[derive(Clone, Debug)]
pub struct ByWalks {
    count: usize,
}

impl LeafWords for ByWalks {
    fn begin(length: usize) -> ByWalks {
        ByWalks {
            count: leaf_words(&vec![0; length]),
        }
    }

    fn stored(&mut self, words: &[u32], _index: usize, _old: u32) {
        self.count = leaf_words(words);
    }

    fn count(&self) -> usize {
        self.count
    }
}
