//! The present leaves of one identification's own tree, lowest page first.

use crate::walk::{walk_tree, Decided, Tree, Walk};

/// A vpn has 19 bits.
pub const PAGES: u32 = 1 << 19;

/// Each page's walk of the own tree, whatever the global tree answers first.
pub fn by_pages(words: &[u32], id: u32) -> Vec<Decided> {
    (0..PAGES)
        .filter_map(|page| leaf_of_page(words, id, page))
        .collect()
}

/// The leaf at which the page's walk of the own tree ends.
pub fn leaf_of_page(words: &[u32], id: u32, page: u32) -> Option<Decided> {
    match walk_tree(words, Tree::Own, id, page) {
        Walk::Leaf(leaf) => Some(leaf),
        Walk::Absent(_) | Walk::Broken(..) => None,
    }
}

/// Bits 18 to 0.
pub fn pfn_of(word: u32) -> u32 {
    word % (1 << 19)
}
