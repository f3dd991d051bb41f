//! How many present leaf words the tables have.

/// "From a root 0 to 63": the identifications' and the global one.
pub const ROOTS: usize = 64;

/// A count of the present leaf words, told of every store.
pub trait LeafWords {
    /// The count of tables of so many words, all zero.
    fn begin(length: usize) -> Self;

    /// A store has put the word that stands at the index in the place of the old one.
    fn stored(&mut self, words: &[u32], index: usize, old: u32);

    fn count(&self) -> usize;
}
