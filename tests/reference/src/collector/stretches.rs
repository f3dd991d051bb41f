//! The stretches of words that one tree is made of.

use crate::walk::{present, stretch_begin, WhyBroken, DIRECTORY_WORDS, TABLE_WORDS};
use std::ops::Range;

/// What a root or directory word names.
#[derive(Clone, Debug, PartialEq, Eq)]
pub enum Names {
    /// It is absent.
    Nothing,
    Stretch(Range<usize>),
    Broken(WhyBroken),
}

impl Names {
    fn of(words: &[u32], index: usize, length: usize) -> Names {
        let word = words[index];
        if !present(word) {
            return Names::Nothing;
        }
        match stretch_begin(words.len(), word, length) {
            Ok(begin) => Names::Stretch(begin..begin + length),
            Err(why) => Names::Broken(why),
        }
    }

    pub fn stretch(&self) -> Option<Range<usize>> {
        match self {
            Names::Stretch(stretch) => Some(stretch.clone()),
            Names::Nothing | Names::Broken(_) => None,
        }
    }

    fn is_broken(&self) -> bool {
        matches!(self, Names::Broken(_))
    }
}

/// The tree of one root.
pub struct Stretches {
    root: Names,
    /// By their places in the directory; none where there is no directory.
    directory_words: Vec<Names>,
}

impl Stretches {
    pub fn of(words: &[u32], root: usize) -> Stretches {
        let root = Names::of(words, root, DIRECTORY_WORDS);
        let directory = root.stretch().unwrap_or_default();
        Stretches {
            root,
            directory_words: directory
                .map(|index| Names::of(words, index, TABLE_WORDS))
                .collect(),
        }
    }

    pub fn root_is_broken(&self) -> bool {
        self.root.is_broken()
    }

    pub fn a_directory_word_is_broken(&self) -> bool {
        self.directory_words.iter().any(Names::is_broken)
    }

    pub fn directory(&self) -> Option<Range<usize>> {
        self.root.stretch()
    }

    /// A table for each good directory word, in their order.
    pub fn tables(&self) -> impl Iterator<Item = Range<usize>> + '_ {
        self.directory_words.iter().filter_map(Names::stretch)
    }

    /// The directory and the tables.
    pub fn all(&self) -> impl Iterator<Item = Range<usize>> + '_ {
        self.directory().into_iter().chain(self.tables())
    }
}
