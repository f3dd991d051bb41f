//! The grounds of number 12: trees that a pass can't be made over.

use super::frames;
use super::stretches::Stretches;
use super::word_set::WordSet;
use crate::heap::Pool;
use crate::walk::{Decided, GLOBAL_ROOT};
use std::collections::BTreeSet;

#[derive(Clone, Copy, Debug, PartialEq, Eq)]
pub enum Unfit {
    /// "Its root … is broken".
    Root,
    /// "A directory word is broken".
    DirectoryWord,
    /// "Two present directory words of this tree name one table".
    TableNamedTwice,
    /// "Its directory and tables overlap".
    DirectoryInTable,
    /// "A word of them lies in a stretch another root reaches". The global root is one of them; a
    /// broken word of another tree reaches nothing.
    MetByAnotherRoot,
    /// "A pool frame is mapped by two of its leaves".
    FrameMappedTwice,
    /// "Or by one while not held".
    FrameNotHeld,
}

/// Each ground that is given, asked by itself, for a run of at least 64 words. The leaves are those
/// of the identification's own tree.
pub fn grounds(words: &[u32], pool: &Pool, id: u32, leaves: &[Decided]) -> Vec<Unfit> {
    let tree = Stretches::of(words, id as usize);
    let frames = frames::look_at(leaves, pool);
    let asked = [
        (Unfit::Root, tree.root_is_broken()),
        (Unfit::DirectoryWord, tree.a_directory_word_is_broken()),
        (Unfit::TableNamedTwice, names_a_table_twice(&tree)),
        (Unfit::DirectoryInTable, overlaps_itself(words.len(), &tree)),
        (Unfit::MetByAnotherRoot, is_met(words, &tree, id)),
        (Unfit::FrameMappedTwice, frames.mapped_twice),
        (Unfit::FrameNotHeld, frames.not_held),
    ];
    asked
        .into_iter()
        .filter_map(|(ground, is_given)| is_given.then_some(ground))
        .collect()
}

fn names_a_table_twice(tree: &Stretches) -> bool {
    let mut begins = BTreeSet::new();
    tree.tables().any(|table| !begins.insert(table.start))
}

fn overlaps_itself(length: usize, tree: &Stretches) -> bool {
    let directory = WordSet::of(length, tree.directory());
    directory.meets(&WordSet::of(length, tree.tables()))
}

/// Whether a word of the tree's stretches is one of another root's.
fn is_met(words: &[u32], tree: &Stretches, id: u32) -> bool {
    let own = WordSet::of(words.len(), tree.all());
    (0..=GLOBAL_ROOT)
        .filter(|&root| root != id as usize)
        .map(|root| Stretches::of(words, root))
        .filter(|other| other.directory().is_some())
        .any(|other| own.meets(&WordSet::of(words.len(), other.all())))
}
