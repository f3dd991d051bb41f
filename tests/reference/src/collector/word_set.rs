//! Sets of word indices.

use std::ops::Range;

/// Which words of a run belong to it.
pub struct WordSet(Vec<bool>);

impl WordSet {
    /// All words of the stretches, in a run of this length.
    pub fn of(length: usize, stretches: impl IntoIterator<Item = Range<usize>>) -> WordSet {
        let mut has = vec![false; length];
        for stretch in stretches {
            has[stretch].fill(true);
        }
        WordSet(has)
    }

    /// Whether some word belongs to both.
    pub fn meets(&self, other: &WordSet) -> bool {
        self.0.iter().zip(&other.0).any(|(a, b)| *a && *b)
    }
}
