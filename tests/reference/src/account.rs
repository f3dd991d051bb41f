//! An account of the 64 slots, kept from what the reader sees.
//!
//! "Each slot's 44 bits are those that document 01's loads and sweeps at these calls, begun with
//! every slot empty, leave there." The account holds fields and knows no 64-bit number. Shared with
//! the load and the sweep of the buffer are the walk, the fields of a leaf and of an entry, the empty
//! entry, and how an address gives vpn, vpn15, location and slot. Which entry stands for a page,
//! which set is loaded, what is stored there and what a store keeps are said here once more, by
//! themselves.

use crate::address::{location, slot, vpn, vpn15, LOCATIONS, SETS};
use crate::entry::Entry;
use crate::leaf::Leaf;
use crate::raw::Access;
use crate::reader::Reader;
use crate::walk::{walk, Walk};

#[derive(Clone, Debug, PartialEq, Eq)]
pub struct Account {
    sets: [[Entry; LOCATIONS]; SETS],
}

impl Account {
    pub fn begin() -> Account {
        Account {
            sets: [0, 1, 2, 3].map(|set| [Entry::empty(set); LOCATIONS]),
        }
    }

    pub fn slot(&self, slot: usize) -> Entry {
        self.sets[slot / LOCATIONS][slot % LOCATIONS]
    }

    /// Whether the first try of an accepted access misses; with enable off it "never counts as a
    /// miss", and a linear one asks no slot.
    pub fn first_try_misses(&self, reader: &Reader, access: Access) -> bool {
        reader.is_enabled()
            && reader.linear_base(access).is_none()
            && !self.column(access).iter().any(|&entry| {
                stands_for(entry, reader, access) && (entry.valid || reader.inv_exc())
            })
    }

    /// The slot that an accepted access loads. It "loaded and counted one entry exactly when its
    /// first try missed and the reader's walk found a leaf, else none".
    pub fn access(&mut self, reader: &Reader, access: Access) -> Option<usize> {
        if !self.first_try_misses(reader, access) {
            return None;
        }
        let Walk::Leaf(decided) = reader.walk(access) else {
            return None;
        };
        let leaf = Leaf::from_word(decided);
        let set = self.set_to_load(reader, access);
        let location = location(vpn(access.address));
        self.sets[set][location] = Entry {
            vpn15: vpn15(vpn(access.address)),
            page_id: reader.context(),
            global: leaf.global,
            valid: leaf.valid,
            kernel: leaf.kernel,
            we: leaf.we,
            pfn: leaf.pfn,
        };
        Some(slot(set, location))
    }

    /// How many slots an accepted store empties, once the reader has written its word.
    pub fn store(&mut self, reader: &Reader) -> u32 {
        let mut emptied = 0;
        for set in 0..SETS {
            for location in 0..LOCATIONS {
                if !self.agrees(reader.words(), set, location) {
                    self.sets[set][location] = Entry::empty(set);
                    emptied += 1;
                }
            }
        }
        emptied
    }

    /// The four entries of the access's location, by set.
    fn column(&self, access: Access) -> [Entry; SETS] {
        self.sets.map(|set| set[location(vpn(access.address))])
    }

    /// The lowest set whose entry stands for the page, "whatever its valid bit", else the draw's.
    fn set_to_load(&self, reader: &Reader, access: Access) -> usize {
        self.column(access)
            .iter()
            .position(|&entry| stands_for(entry, reader, access))
            .unwrap_or(access.draw as usize)
    }

    /// Whether the tables still say of the slot's page what the slot says.
    fn agrees(&self, words: &[u32], set: usize, location: usize) -> bool {
        let entry = self.sets[set][location];
        if entry == Entry::empty(set) {
            return true;
        }
        let page = entry.vpn15 * LOCATIONS as u32 + location as u32;
        let held = Leaf {
            global: entry.global,
            valid: entry.valid,
            kernel: entry.kernel,
            we: entry.we,
            pfn: entry.pfn,
        };
        entry.page_id != 63 && Leaf::of_walk(walk(words, entry.page_id, page)) == Some(held)
    }
}

/// Whether an entry at the access's location has its vpn15 and is global or carries the page_id.
fn stands_for(entry: Entry, reader: &Reader, access: Access) -> bool {
    entry.vpn15 == access.address >> 17 && (entry.global || entry.page_id == reader.context())
}
