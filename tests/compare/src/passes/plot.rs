//! States for a pass: the tree of an identification, other trees apart from it, and a pool whose
//! frames the tree's leaves map. Nothing in them refuses the pass.

use super::room::Room;
use super::slots;
use super::words::{absent, any_leaf, any_place, broken};
use crate::cases::forest::{DIRECTORY_WORDS, PRESENT, TABLE_WORDS};
use crate::cases::state;
use crate::pools::shapes;
use crate::protocol::{PoolCall, Request};
use crate::random::Random;
use reference::collector::{by_tables, grounds, Unfit};
use reference::heap::{Pool, MOST_FRAMES, PFNS};
use reference::*;
use std::collections::BTreeSet;

/// Identifications: both ends and some between.
const IDS: [u32; 4] = [0, 5, 61, 62];

#[derive(Clone)]
pub struct Grown {
    pub root: usize,
    pub directory: usize,
    /// Places in the directory, each with the table that its word names.
    pub tables: Vec<(usize, usize)>,
}

impl Grown {
    /// The index of a directory word.
    pub fn word(&self, place: usize) -> usize {
        DIRECTORY_WORDS * self.directory + place
    }

    /// Each page that has a leaf word, with that word's index.
    pub fn pages(&self) -> Vec<(u32, usize)> {
        let pages = |(place, table): (usize, usize)| {
            (0..TABLE_WORDS).map(move |n| ((TABLE_WORDS * place + n) as u32, leaf_at(table, n)))
        };
        self.tables.iter().copied().flat_map(pages).collect()
    }
}

/// The index of a leaf word.
pub fn leaf_at(table: usize, place: usize) -> usize {
    TABLE_WORDS * table + place
}

#[derive(Clone)]
pub struct Plot {
    pub registers: Registers,
    pub buffer: Vec<u64>,
    pub words: Vec<u32>,
    pub pool: Pool,
    pub id: u32,
    /// None where the run has no room for a directory, or the root is absent.
    pub own: Option<Grown>,
    pub others: Vec<Grown>,
    pub room: Room,
    /// The frames that the own tree maps.
    mapped: BTreeSet<u32>,
}

impl Plot {
    /// A run of any length, some too small for a table, with up to three other trees.
    pub fn any(random: &mut Random) -> Plot {
        let length = 1024 * random.pick(&[1, 2, 2, 3, 4, 4, 6, 8, 16]);
        let id = any_id(random);
        let mut plot = Plot::bare(random, length, id);
        if !random.one_in(16) {
            let tables = random.pick(&[0, 1, 1, 2, 2, 3, 4]);
            plot.grow_own(random, tables);
        }
        for _ in 0..random.below(4) {
            plot.grow_other(random);
        }
        if random.one_in(3) {
            plot.break_unused_roots(random);
        }
        plot.buffer = slots::any(random, &plot);
        plot
    }

    /// The tree of this identification alone, with two or three tables and room for more.
    pub fn alone(random: &mut Random, id: u32) -> Plot {
        let length = 1024 * random.pick(&[8, 9, 12, 16]);
        let mut plot = Plot::bare(random, length, id);
        let tables = 2 + random.below(2);
        plot.grow_own(random, tables);
        plot.buffer = slots::any(random, &plot);
        plot
    }

    /// No trees yet; what no walk reaches is of no account, and there may be anything.
    pub fn bare(random: &mut Random, length: usize, id: u32) -> Plot {
        let mut words = match random.below(3) {
            0 => vec![0; length],
            1 => vec![random.bits(32); length],
            _ => (0..length).map(|_| random.bits(32)).collect(),
        };
        words[..=GLOBAL_ROOT].fill_with(|| absent(random));
        let size = pool_size(random);
        let held = (0..size).map(|_| random.one_in(2)).collect();
        Plot {
            registers: state::registers(random),
            buffer: state::empty_slots(),
            words,
            pool: shapes::with_held(random, size, held),
            id,
            own: None,
            others: Vec::new(),
            room: Room::of(length),
            mapped: BTreeSet::new(),
        }
    }

    pub fn request(&self) -> Request {
        let call = PoolCall::Collect { id: self.id };
        Request {
            tables: self.words.clone(),
            ..Request::on_pool(call, self.registers, self.pool, self.buffer.clone())
        }
    }

    /// On which grounds of number 12 the pass is refused.
    pub fn grounds(&self) -> Vec<Unfit> {
        let leaves = by_tables::leaves(&self.words, self.id);
        grounds(&self.words, &self.pool, self.id, &leaves)
    }

    /// The own tree of a plot that has one.
    pub fn tree(&self) -> &Grown {
        self.own.as_ref().expect("the plot has a tree")
    }

    /// The number of one of the own tables.
    pub fn table(&self, random: &mut Random) -> usize {
        random.pick(&self.tree().tables).1
    }

    /// Gives the identification a tree with so many tables, as far as there is room, and leaves.
    pub fn grow_own(&mut self, random: &mut Random, tables: usize) {
        self.own = self.grow(random, self.id as usize, tables);
        let tables = self.own.iter().flat_map(|own| own.tables.clone());
        for (_, table) in tables.collect::<Vec<(usize, usize)>>() {
            for _ in 0..random.below(9) {
                self.plant(random, table);
            }
        }
    }

    /// Gives a root that has none a tree, whose leaves map frames of the pool too.
    pub fn grow_other(&mut self, random: &mut Random) {
        let root = match random.below(3) {
            0 => GLOBAL_ROOT,
            _ => random.below(GLOBAL_ROOT),
        };
        let is_grown = |other: &Grown| other.root == root;
        if root == self.id as usize || self.others.iter().any(is_grown) {
            return;
        }
        let tables = random.below(3);
        let Some(other) = self.grow(random, root, tables) else {
            return;
        };
        for &(_, table) in &other.tables {
            for _ in 0..random.below(6) {
                let pfn = self.pool.first + random.below(self.pool.size as usize) as u32;
                let any = random.bits(19);
                let pfn = random.pick(&[pfn, any]);
                let index = leaf_at(table, any_place(random, TABLE_WORDS));
                self.words[index] = any_leaf(random, pfn);
            }
        }
        if random.one_in(3) {
            let word = other.word(any_place(random, DIRECTORY_WORDS));
            if self.words[word] < PRESENT {
                self.words[word] = broken(random, self.words.len());
            }
        }
        self.others.push(other);
    }

    pub fn grow(&mut self, random: &mut Random, root: usize, tables: usize) -> Option<Grown> {
        let directory = self.room.directory(random)?;
        let mut grown = Grown {
            root,
            directory,
            tables: Vec::new(),
        };
        self.words[root] = PRESENT | directory as u32;
        self.clear(random, grown.word(0), DIRECTORY_WORDS);
        for _ in 0..tables {
            let place = any_place(random, DIRECTORY_WORDS);
            if grown.tables.iter().any(|&(other, _)| other == place) {
                continue;
            }
            let Some(table) = self.room.table(random) else {
                break;
            };
            self.words[grown.word(place)] = PRESENT | table as u32;
            self.clear(random, leaf_at(table, 0), TABLE_WORDS);
            grown.tables.push((place, table));
        }
        grown.tables.sort_unstable();
        Some(grown)
    }

    /// So many words from this one on become absent.
    pub fn clear(&mut self, random: &mut Random, begin: usize, length: usize) {
        let is_zero = random.one_in(2);
        self.words[begin..begin + length].fill_with(|| match is_zero {
            true => 0,
            false => absent(random),
        });
    }

    /// The own directory with these words alone.
    pub fn name_alone(&mut self, random: &mut Random, named: &[(usize, usize)]) {
        let begin = self.tree().word(0);
        self.clear(random, begin, DIRECTORY_WORDS);
        for &(place, table) in named {
            self.words[begin + place] = PRESENT | table as u32;
        }
        if let Some(own) = &mut self.own {
            own.tables = named.to_vec();
        }
    }

    /// A leaf in a table, mostly of a frame that no other leaf of the tree maps.
    pub fn plant(&mut self, random: &mut Random, table: usize) {
        let index = leaf_at(table, any_place(random, TABLE_WORDS));
        if self.words[index] >= PRESENT {
            return;
        }
        let inside = match random.one_in(4) {
            true => None,
            false => self.unmapped(random),
        };
        let pfn = match inside {
            Some(pfn) => self.hold(pfn),
            None => match self.outside(random) {
                Some(pfn) => pfn,
                None => return,
            },
        };
        self.words[index] = any_leaf(random, pfn);
    }

    /// The frame is held and mapped.
    pub fn hold(&mut self, pfn: u32) -> u32 {
        let place = pfn - self.pool.first;
        shapes::set(&mut self.pool, place, true);
        self.mapped.insert(pfn);
        pfn
    }

    /// A frame of the pool that the own tree does not map, often the first or the last.
    pub fn unmapped(&self, random: &mut Random) -> Option<u32> {
        let Pool { first, size, .. } = self.pool;
        let begin = match random.below(4) {
            0 => 0,
            1 => size - 1,
            _ => random.below(size as usize) as u32,
        };
        (0..size)
            .map(|n| first + (begin + n) % size)
            .find(|pfn| !self.mapped.contains(pfn))
    }

    /// A pfn outside the pool, often next to it.
    fn outside(&self, random: &mut Random) -> Option<u32> {
        let Pool { first, size, .. } = self.pool;
        let pfn = match random.below(3) {
            0 => first.checked_sub(1)?,
            1 => first + size,
            _ => random.bits(19),
        };
        (pfn < PFNS && self.pool.place_of(pfn).is_none()).then_some(pfn)
    }

    fn break_unused_roots(&mut self, random: &mut Random) {
        let length = self.words.len();
        for root in 0..=GLOBAL_ROOT {
            let is_used = self.words[root] >= PRESENT || root == self.id as usize;
            if !is_used && random.one_in(2) {
                self.words[root] = broken(random, length);
            }
        }
    }
}

pub fn any_id(random: &mut Random) -> u32 {
    match random.one_in(2) {
        true => random.pick(&IDS),
        false => random.below(63) as u32,
    }
}

/// Mostly small ones, so that the pool's ends are near the frames that are mapped.
fn pool_size(random: &mut Random) -> u32 {
    match random.below(8) {
        0 => 1,
        1 => random.pick(&[MOST_FRAMES, MOST_FRAMES - 1]),
        2 => random.pick(&[63, 64, 65, 128]),
        3 => shapes::size(random),
        _ => 2 + random.below(40) as u32,
    }
}

#[cfg(test)]
mod tests {
    use super::*;

    #[test]
    fn nothing_in_a_plot_refuses_the_pass() {
        let mut random = Random::new(206);
        for _ in 0..2000 {
            let any = Plot::any(&mut random);
            assert_eq!(any.grounds(), []);
            let id = any_id(&mut random);
            let alone = Plot::alone(&mut random, id);
            assert_eq!(alone.grounds(), []);
            assert!(!alone.tree().tables.is_empty());
        }
    }
}
