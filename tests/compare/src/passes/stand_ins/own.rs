//! What a stand-in asks of a tree's own stretches.

use super::fault::Fault;
use super::tree::{meet, named, Named, Tree, LAST_WORD};
use crate::cases::forest::{PRESENT, TABLE_WORDS};

impl Tree<'_> {
    pub fn names_twice(&self) -> bool {
        let mut all: Vec<(usize, usize)> = Vec::new();
        for (place, table) in &self.tables {
            all.push((*place, table.start));
        }
        if let (Fault::TwiceThoughAbsent, Some(directory)) = (self.fault, &self.directory) {
            for (place, index) in directory.clone().enumerate() {
                let word = self.words[index];
                if let (true, Named::Stretch(table)) = (
                    word < PRESENT,
                    named(self.words, word | PRESENT, TABLE_WORDS),
                ) {
                    all.push((place, table.start));
                }
            }
        }
        let is_pair = |a: &(usize, usize), b: &(usize, usize)| {
            let counts = match self.fault {
                Fault::TwicePasses => false,
                Fault::TwiceSideBySideOnly => a.0.abs_diff(b.0) == 1,
                Fault::TwiceNotWithFirstWord => a.0 != 0 && b.0 != 0,
                Fault::TwiceNotWithLastWord => a.0 != LAST_WORD && b.0 != LAST_WORD,
                Fault::TwiceWithPreviousOnly => {
                    let between = |other: &(usize, usize)| a.0 < other.0 && other.0 < b.0;
                    a.0 < b.0 && !all.iter().any(between)
                }
                Fault::TwiceOfEmptyTablePasses => self.has_leaf(a.1..a.1 + TABLE_WORDS),
                _ => true,
            };
            counts && a.0 != b.0 && a.1 == b.1
        };
        all.iter().any(|a| all.iter().any(|b| is_pair(a, b)))
    }

    pub fn overlaps(&self) -> bool {
        let Some(directory) = &self.directory else {
            return false;
        };
        let first = self.tables.first().map(|(place, _)| place);
        let last = self.tables.last().map(|(place, _)| place);
        self.tables.iter().any(|(place, table)| {
            let meets = meet(directory, table);
            match self.fault {
                Fault::OverlapPasses => false,
                Fault::OverlapOfUpperHalfPasses => meets && directory.start == table.start,
                Fault::OverlapOfLowerHalfPasses => meets && directory.start != table.start,
                Fault::OverlapByFirstWordPasses => meets && *place != 0,
                Fault::OverlapByLastWordPasses => meets && *place != LAST_WORD,
                Fault::OverlapOfNeighboursRefused => {
                    meets || directory.end == table.start || table.end == directory.start
                }
                Fault::OverlapOfFirstTableOnly => meets && Some(place) == first,
                Fault::OverlapOfLastTableOnly => meets && Some(place) == last,
                _ => meets,
            }
        })
    }
}
