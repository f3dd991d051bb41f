//! The pass on a pool that is lent, from table to table: pages that no directory word has a table
//! for are passed over.

use super::leaves::pfn_of;
use super::pass::{aged_or_gone, check, check_tree, done, refused, Pass};
use super::stretches::Stretches;
use crate::heap::{by_words, Pool};
use crate::registers::Registers;
use crate::store::store;
use crate::walk::{present, Decided, Level, Tree};

pub fn collect(
    registers: Registers,
    buffer: &mut [u64],
    words: &mut [u32],
    pool: &mut Pool,
    id: u32,
) -> Pass {
    if let Err(refusal) = check(registers, buffer, words, pool, id) {
        return refused(refusal, registers);
    }
    let leaves = leaves(words, id);
    if let Err(refusal) = check_tree(words, pool, id, &leaves) {
        return refused(refusal, registers);
    }
    let (mut emptied, mut given) = (0, 0);
    for leaf in leaves {
        let pfn = pfn_of(leaf.word);
        if pool.place_of(pfn).is_none() {
            continue;
        }
        let word = aged_or_gone(leaf.word);
        emptied += store(buffer, words, leaf.index as u32, word);
        if !present(word) {
            by_words::give(pool, pfn).expect("the frame is held");
            given += 1;
        }
    }
    done(emptied, given, registers)
}

/// The present leaves of the own tree, lowest page first.
pub fn leaves(words: &[u32], id: u32) -> Vec<Decided> {
    Stretches::of(words, id as usize)
        .tables()
        .flatten()
        .filter(|&index| present(words[index]))
        .map(|index| Decided {
            tree: Tree::Own,
            level: Level::Leaf,
            index,
            word: words[index],
        })
        .collect()
}
