//! The stretches of a table run that no tree has yet.

use crate::cases::forest::{DIRECTORY_WORDS, TABLE_WORDS};
use crate::random::Random;

/// Directories to a table's words.
const HALVES: usize = TABLE_WORDS / DIRECTORY_WORDS;

#[derive(Clone)]
pub struct Room {
    /// Numbers of free tables.
    tables: Vec<usize>,
    /// Numbers of free directories that lie in no free table.
    directories: Vec<usize>,
}

impl Room {
    /// All of a run of so many words. The roots lie in table 0, in whose upper half a directory has
    /// room.
    pub fn of(length: usize) -> Room {
        Room {
            tables: (1..length / TABLE_WORDS).collect(),
            directories: vec![1],
        }
    }

    pub fn table(&mut self, random: &mut Random) -> Option<usize> {
        match self.tables.len() {
            0 => None,
            free => Some(self.tables.swap_remove(random.below(free))),
        }
    }

    /// Half of the time one half of a free table, where there is one.
    pub fn directory(&mut self, random: &mut Random) -> Option<usize> {
        if self.directories.is_empty() || random.one_in(2) {
            if let Some(table) = self.table(random) {
                let halves = HALVES * table..HALVES * (table + 1);
                self.directories.extend(halves);
            }
        }
        match self.directories.len() {
            0 => None,
            free => Some(self.directories.swap_remove(random.below(free))),
        }
    }
}
