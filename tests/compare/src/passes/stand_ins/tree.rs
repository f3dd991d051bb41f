//! A stand-in's number 12.

use super::fault::Fault;
use crate::cases::forest::{DIRECTORY_WORDS, PRESENT, TABLE_WORDS};
use reference::heap::{Pool, PFNS};
use reference::{walk_tree, Walk};
use std::ops::Range;

/// One more than a pool has bits for.
pub const MOST_PLACES: u32 = 4097;

pub const LAST_WORD: usize = DIRECTORY_WORDS - 1;

/// What a word names.
pub enum Named {
    Nothing,
    Broken,
    Stretch(Range<usize>),
}

pub struct Tree<'a> {
    pub fault: Fault,
    pub words: &'a [u32],
    pub id: usize,
    is_broken: bool,
    pub directory: Option<Range<usize>>,
    /// Places in the directory and what their words name.
    pub tables: Vec<(usize, Range<usize>)>,
}

impl Tree<'_> {
    pub fn of(fault: Fault, words: &[u32], id: u32) -> Tree<'_> {
        let mut tree = Tree {
            fault,
            words,
            id: id as usize,
            is_broken: false,
            directory: None,
            tables: Vec::new(),
        };
        match tree.root_names() {
            Named::Nothing => {}
            Named::Broken => tree.is_broken = true,
            Named::Stretch(directory) => {
                tree.directory = Some(directory.clone());
                for (place, index) in directory.enumerate() {
                    match tree.word_names(place, words[index]) {
                        Named::Nothing => {}
                        Named::Broken => tree.is_broken = true,
                        Named::Stretch(table) => tree.tables.push((place, table)),
                    }
                }
            }
        }
        tree
    }

    /// Each page that has a leaf word, with its index.
    pub fn leaf_words(&self) -> impl Iterator<Item = (u32, usize)> + '_ {
        self.tables.iter().flat_map(|(place, table)| {
            let pages = TABLE_WORDS * place..;
            pages.map(|page| page as u32).zip(table.clone())
        })
    }

    pub fn is_refused(&self, pool: &Pool) -> bool {
        let in_pool = |(_, word): &(usize, u32)| pool.place_of(word % PFNS).is_some();
        if self.fault == Fault::JudgedWithVisitsOnly && !self.leaves().iter().any(in_pool) {
            return false;
        }
        self.is_broken
            || self.names_twice()
            || self.overlaps()
            || self.is_met()
            || self.frames_refused(pool)
    }

    fn root_names(&self) -> Named {
        let word = self.words[self.id];
        match self.fault {
            Fault::AbsentRootRefused if word < PRESENT => return Named::Broken,
            Fault::AbsentRootJudged if word < PRESENT && word != 0 => {
                return match named(self.words, word | PRESENT, DIRECTORY_WORDS) {
                    Named::Broken => Named::Broken,
                    _ => Named::Nothing,
                };
            }
            _ => {}
        }
        let faults = [
            Fault::RootReservedBitsPass,
            Fault::RootOfNumberZeroPasses,
            Fault::RootOutsidePasses,
            Fault::RootOfLastInsideRefused,
        ];
        self.named(word, DIRECTORY_WORDS, faults)
    }

    fn word_names(&self, place: usize, word: u32) -> Named {
        let is_left_out = match self.fault {
            Fault::FirstWordNotJudged => place == 0,
            Fault::LastWordNotJudged => place == LAST_WORD,
            Fault::HiddenBrokenWordPasses => {
                let page = (TABLE_WORDS * place) as u32;
                self.is_hidden(page) && self.is_hidden(page + 1)
            }
            _ => false,
        };
        if self.fault == Fault::AbsentWordsJudged && word < PRESENT && word != 0 {
            return match named(self.words, word | PRESENT, TABLE_WORDS) {
                Named::Broken => Named::Broken,
                _ => Named::Nothing,
            };
        }
        let faults = [
            Fault::WordReservedBitsPass,
            Fault::WordOfNumberZeroPasses,
            Fault::WordOutsidePasses,
            Fault::WordOfLastInsideRefused,
        ];
        match self.named(word, TABLE_WORDS, faults) {
            Named::Broken if is_left_out => Named::Nothing,
            named => named,
        }
    }

    /// What the word names, with the faults of its level.
    fn named(&self, word: u32, length: usize, level: [Fault; 4]) -> Named {
        let [reserved, zero, outside, last_inside] = level;
        let number = (word & 0xFFFF) as usize;
        let kept = match self.fault {
            fault if fault == reserved => word & 0x8000_FFFF,
            Fault::LowestReservedBitPasses => word & !(1 << 16),
            Fault::HighestReservedBitPasses => word & !(1 << 30),
            _ => word,
        };
        match named(self.words, kept, length) {
            Named::Broken if self.fault == zero && word == PRESENT => Named::Nothing,
            Named::Broken if self.fault == outside && word == PRESENT | number as u32 => {
                match number {
                    0 => Named::Broken,
                    _ => Named::Nothing,
                }
            }
            Named::Stretch(stretch)
                if self.fault == last_inside && stretch.end == self.words.len() =>
            {
                Named::Broken
            }
            named => named,
        }
    }

    pub fn has_leaf(&self, table: Range<usize>) -> bool {
        self.words[table].iter().any(|&word| word >= PRESENT)
    }

    /// Whether the global tree has a leaf for the page.
    pub fn is_hidden(&self, page: u32) -> bool {
        matches!(
            walk_tree(self.words, reference::Tree::Global, 0, page),
            Walk::Leaf(_)
        )
    }
}

/// What a word names, without a fault.
pub fn named(words: &[u32], word: u32, length: usize) -> Named {
    let number = (word & 0xFFFF) as usize;
    let end = length * (number + 1);
    match (word >= PRESENT, word & 0x7FFF_0000, number) {
        (false, _, _) => Named::Nothing,
        (true, 0, 1..) if end <= words.len() => Named::Stretch(end - length..end),
        _ => Named::Broken,
    }
}

pub fn meet(a: &Range<usize>, b: &Range<usize>) -> bool {
    a.start < b.end && b.start < a.end
}
