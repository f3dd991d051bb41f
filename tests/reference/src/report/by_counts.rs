//! The present leaf words, counted from store to store.
//!
//! Directories are stretches of 512 words that do not overlap each other, and so are the tables of
//! 1,024. So a word stands in one directory and in one table at the most, and the leaf words are the
//! present words of the tables that some directory names which some root names. Kept are how many
//! roots name a directory, how many words of a directory name a table, how many words of the named
//! directories name a table, and how many words of a table are present. What makes a word good is
//! said here once more.

use super::leaf_words::{LeafWords, ROOTS};

const DIRECTORY_WORDS: usize = 512;
const TABLE_WORDS: usize = 1024;
const PRESENT: u32 = 1 << 31;

/// All lists are by the numbers of directories and tables; number 0 is nobody's.
#[derive(Clone, Debug)]
pub struct ByCounts {
    /// How many roots name the directory.
    roots: Vec<u32>,
    /// How many of the directory's words name each table, whether or not a root names it.
    names: Vec<Vec<u32>>,
    /// How many words of the directories that a root names name the table.
    named: Vec<u32>,
    /// How many of the table's words are present, whether or not a directory names it.
    present: Vec<usize>,
    count: usize,
}

impl ByCounts {
    pub fn of(words: &[u32]) -> ByCounts {
        let mut counts = ByCounts::begin(words.len());
        for (index, &word) in words.iter().enumerate() {
            counts.replace(index, 0, word);
        }
        counts
    }

    /// How many roots name the directory.
    pub fn roots_of(&self, directory: usize) -> u32 {
        self.roots[directory]
    }

    /// How many words name the table in directories that some root names.
    pub fn words_of(&self, table: usize) -> u32 {
        self.named[table]
    }

    fn replace(&mut self, index: usize, old: u32, new: u32) {
        if old == new {
            return;
        }
        if index < ROOTS {
            self.replace_root(old, new);
        }
        if index >= DIRECTORY_WORDS {
            self.replace_directory_word(index / DIRECTORY_WORDS, old, new);
        }
        if index >= TABLE_WORDS {
            self.replace_leaf(index / TABLE_WORDS, old, new);
        }
    }

    fn replace_root(&mut self, old: u32, new: u32) {
        let directories = self.roots.len();
        if let Some(directory) = named_by(new, directories) {
            self.roots[directory] += 1;
            if self.roots[directory] == 1 {
                self.take_directory(directory);
            }
        }
        if let Some(directory) = named_by(old, directories) {
            self.roots[directory] -= 1;
            if self.roots[directory] == 0 {
                self.leave_directory(directory);
            }
        }
    }

    fn replace_directory_word(&mut self, directory: usize, old: u32, new: u32) {
        let tables = self.named.len();
        if let Some(table) = named_by(new, tables) {
            self.names[directory][table] += 1;
            if self.roots[directory] > 0 {
                self.take_table(table, 1);
            }
        }
        if let Some(table) = named_by(old, tables) {
            self.names[directory][table] -= 1;
            if self.roots[directory] > 0 {
                self.leave_table(table, 1);
            }
        }
    }

    fn replace_leaf(&mut self, table: usize, old: u32, new: u32) {
        let (was, is) = (usize::from(old >= PRESENT), usize::from(new >= PRESENT));
        self.present[table] = self.present[table] + is - was;
        if self.named[table] > 0 {
            self.count = self.count + is - was;
        }
    }

    fn take_directory(&mut self, directory: usize) {
        for table in 1..self.named.len() {
            self.take_table(table, self.names[directory][table]);
        }
    }

    fn leave_directory(&mut self, directory: usize) {
        for table in 1..self.named.len() {
            self.leave_table(table, self.names[directory][table]);
        }
    }

    /// So many words more name the table.
    fn take_table(&mut self, table: usize, words: u32) {
        if words > 0 && self.named[table] == 0 {
            self.count += self.present[table];
        }
        self.named[table] += words;
    }

    /// So many words fewer name the table.
    fn leave_table(&mut self, table: usize, words: u32) {
        self.named[table] -= words;
        if words > 0 && self.named[table] == 0 {
            self.count -= self.present[table];
        }
    }
}

impl LeafWords for ByCounts {
    fn begin(length: usize) -> ByCounts {
        let (directories, tables) = (length / DIRECTORY_WORDS, length / TABLE_WORDS);
        ByCounts {
            roots: vec![0; directories],
            names: vec![vec![0; tables]; directories],
            named: vec![0; tables],
            present: vec![0; tables],
            count: 0,
        }
    }

    fn stored(&mut self, words: &[u32], index: usize, old: u32) {
        self.replace(index, old, words[index]);
    }

    fn count(&self) -> usize {
        self.count
    }
}

/// The number that a root or directory word names: present, no reserved bit, and a number from 1 on
/// of so many, which all lie inside the run.
fn named_by(word: u32, numbers: usize) -> Option<usize> {
    let number = word.checked_sub(PRESENT)? as usize;
    (1..numbers).contains(&number).then_some(number)
}
