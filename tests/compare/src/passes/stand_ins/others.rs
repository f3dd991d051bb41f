//! What a stand-in asks of other trees.

use super::fault::Fault;
use super::tree::{meet, named, Named, Tree};
use crate::cases::forest::{DIRECTORY_WORDS, PRESENT, TABLE_WORDS};
use std::ops::Range;

impl Tree<'_> {
    pub fn is_met(&self) -> bool {
        let mut reached: Vec<(bool, Range<usize>)> = Vec::new();
        for root in 0..64 {
            let is_own = root == self.id && self.fault != Fault::OwnRootAsked;
            if is_own || !self.asks(root) {
                continue;
            }
            match named(self.words, self.other(self.words[root]), DIRECTORY_WORDS) {
                Named::Nothing if self.fault == Fault::OthersEndAtAbsentRoot => break,
                Named::Broken if self.fault == Fault::OthersEndAtBrokenRoot => break,
                Named::Broken if self.fault == Fault::OtherBrokenRootRefused => return true,
                Named::Nothing | Named::Broken => {}
                Named::Stretch(directory) => {
                    let Some(tables) = self.tables_of(directory.clone()) else {
                        return true;
                    };
                    let own = (true, directory);
                    let all = tables.into_iter().map(|table| (false, table));
                    let all: Vec<(bool, Range<usize>)> = all.chain([own]).collect();
                    if self.fault == Fault::OthersMeetingRefused && meet_any(&reached, &all) {
                        return true;
                    }
                    reached.extend(all);
                }
            }
        }
        reached.iter().any(|other| self.meets(other))
    }

    /// The tables of another directory; none where the fault refuses.
    fn tables_of(&self, directory: Range<usize>) -> Option<Vec<Range<usize>>> {
        let mut tables = Vec::new();
        for index in directory {
            match named(self.words, self.other(self.words[index]), TABLE_WORDS) {
                Named::Stretch(table)
                    if self.fault == Fault::OtherOfLastInsideIgnored
                        && table.end == self.words.len() => {}
                Named::Stretch(table) => tables.push(table),
                Named::Broken if self.fault == Fault::OtherBrokenWordRefused => return None,
                Named::Broken if self.fault == Fault::OtherEndsAtBrokenWord => break,
                Named::Nothing if self.fault == Fault::OtherEndsAtAbsentWord => break,
                Named::Nothing | Named::Broken => {}
            }
        }
        let first_begins = match self.fault {
            Fault::MetByLastTableOnly => tables.len().saturating_sub(1),
            _ => 0,
        };
        tables.drain(..first_begins);
        if self.fault == Fault::MetByFirstTableOnly {
            tables.truncate(1);
        }
        Some(tables)
    }

    /// A word of another tree as the fault sees it.
    fn other(&self, word: u32) -> u32 {
        match self.fault {
            Fault::OtherReservedBitsIgnored => word & 0x8000_FFFF,
            Fault::OtherAbsentReaches => word | PRESENT,
            Fault::OtherOfNumber1Ignored if word == PRESENT | 1 => 0,
            _ => word,
        }
    }

    fn asks(&self, root: usize) -> bool {
        match self.fault {
            Fault::MetPasses => false,
            Fault::Root0NotAsked => root != 0,
            Fault::LowerRootsNotAsked => root > self.id,
            Fault::HigherRootsNotAsked => root < self.id || root == 63,
            Fault::NextLowerNotAsked => root + 1 != self.id,
            Fault::NextHigherNotAsked => root != self.id + 1,
            Fault::Root62NotAsked => root != 62,
            Fault::GlobalRootNotAsked => root != 63,
            _ => true,
        }
    }

    /// Whether another tree's directory or table meets an own stretch.
    fn meets(&self, (is_directory, other): &(bool, Range<usize>)) -> bool {
        let by_directory = self.directory.iter().any(|own| meet(own, other));
        let tables = match (self.fault, &self.tables[..]) {
            (Fault::MetOfFirstTableOnly, [first, ..]) => std::slice::from_ref(first),
            (Fault::MetOfLastTableOnly, [.., last]) => std::slice::from_ref(last),
            (_, all) => all,
        };
        let by_table = tables.iter().any(|(_, own)| {
            let counts = self.fault != Fault::MetEmptyTablePasses || self.has_leaf(own.clone());
            counts && meet(own, other)
        });
        match (self.fault, is_directory) {
            (Fault::MetDirectoriesPass, true) => by_table,
            (Fault::MetOwnTableOverDirectoryPasses, true) => by_directory,
            (Fault::MetOwnDirectoryInTablePasses, false) => by_table,
            (Fault::MetTablesPass, false) => by_directory,
            _ => by_directory || by_table,
        }
    }
}

fn meet_any(a: &[(bool, Range<usize>)], b: &[(bool, Range<usize>)]) -> bool {
    a.iter().any(|(_, a)| b.iter().any(|(_, b)| meet(a, b)))
}
