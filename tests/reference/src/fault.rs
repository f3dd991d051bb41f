//! The value of a served fault.
//!
//! Bits 0 to 7 are its kind: the sum of the exceptions, 8 for a miss, 16 absent, 32 broken. "Served
//! faults 16 and 32 carry the level in bits 8 to 11, and the global tree's part in bit 12, set when
//! the deciding word stood there." All other bits are 0.

use crate::walk::{Decided, Tree};

const KINDS: u32 = 1 << 8;
const ABSENT: u32 = 16;
const BROKEN: u32 = 32;
const LEVEL: u32 = 8;
const GLOBAL: u32 = 12;

/// The fault of a walk that this word ended as absent. It stands in the own tree.
pub fn absent(word: Decided) -> u32 {
    ABSENT | place(word)
}

/// The fault of a walk that this word ended as broken, in either tree.
pub fn broken(word: Decided) -> u32 {
    BROKEN | place(word)
}

pub fn kind(value: u32) -> u32 {
    value % KINDS
}

fn place(word: Decided) -> u32 {
    let is_global = u32::from(word.tree == Tree::Global);
    word.level.number() << LEVEL | is_global << GLOBAL
}
