//! Table words for a pass.

use crate::cases::forest::{DIRECTORY_WORDS, PRESENT};
use crate::cases::state;
use crate::random::Random;

pub const VALID: u32 = 1 << 30;

/// The kernel, we and software bits of a leaf.
const BETWEEN: u32 = 11;

/// A place in a stretch, often the first or the last.
pub fn any_place(random: &mut Random, length: usize) -> usize {
    match random.below(6) {
        0 => 0,
        1 => length - 1,
        _ => random.below(length),
    }
}

/// A present leaf with any bits between, in some all or none.
pub fn leaf(random: &mut Random, valid: bool, pfn: u32) -> u32 {
    let between = match random.below(5) {
        0 => 0,
        1 => state::largest(BETWEEN),
        2 => 1 << random.below(BETWEEN as usize),
        _ => random.bits(BETWEEN),
    };
    PRESENT | u32::from(valid) << 30 | between << 19 | pfn
}

/// A present leaf, valid or not.
pub fn any_leaf(random: &mut Random, pfn: u32) -> u32 {
    let valid = random.one_in(2);
    leaf(random, valid, pfn)
}

/// A word that is not present; its other bits are of no account.
pub fn absent(random: &mut Random) -> u32 {
    match random.one_in(3) {
        true => 0,
        false => random.bits(31),
    }
}

/// A present word that is broken as a root and as a directory word.
pub fn broken(random: &mut Random, length: usize) -> u32 {
    let outside = (length / DIRECTORY_WORDS) as u32;
    match random.below(4) {
        0 => PRESENT,
        1 => PRESENT | outside,
        2 => PRESENT | 0xFFFF,
        _ => PRESENT | 1 << (16 + random.below(15)) | (1 + random.bits(2)),
    }
}
