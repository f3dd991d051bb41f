//! The tables, pages and identifications of one sequence, few enough to collide.

use super::forest::{Forest, DIRECTORY_WORDS, PRESENT, TABLE_WORDS};
use super::state;
use super::words::{self, Numbers, Place};
use crate::random::Random;
use reference::*;

pub struct World {
    ids: Vec<u32>,
    pages: Vec<u32>,
    numbers: Numbers,
}

impl World {
    /// A world, and the table run that it begins with.
    pub fn new(random: &mut Random) -> (World, Vec<u32>) {
        let length = 1024 * random.pick(&[1, 2, 3, 4, 4, 4, 4, 4, 8, 16]);
        let size = size(random);
        let world = World::of(random, length, size);
        let mut forest = Forest::new(random, length);
        if random.one_in(2) {
            forest.words.fill(0);
        }
        world.plant(random, &mut forest.words);
        (world, forest.words)
    }

    /// So many pages at so many locations, with directories and tables inside a run of this length.
    pub fn of(random: &mut Random, length: usize, (pages, locations): (usize, usize)) -> World {
        let locations: Vec<u32> = (0..locations).map(|_| random.bits(4)).collect();
        let tops = [random.bits(9), random.bits(9)];
        World {
            ids: vec![0, 62, random.below(63) as u32, random.below(63) as u32],
            pages: (0..pages)
                .map(|_| {
                    let low = 16 * random.bits(6) + random.pick(&locations);
                    1024 * random.pick(&tops) + low
                })
                .collect(),
            numbers: match length >= 4096 && !random.one_in(3) {
                true => apart(),
                false => Numbers::inside(random, length),
            },
        }
    }

    /// Roots that share two directories, which share tables. The global tree has some of the
    /// pages, mostly through a directory of its own.
    pub fn plant(&self, random: &mut Random, words: &mut [u32]) {
        let Numbers {
            directories,
            tables,
        } = &self.numbers;
        for &id in &self.ids {
            words[id as usize] = PRESENT | random.pick(&directories[..2]) as u32;
        }
        words[GLOBAL_ROOT] = match random.below(4) {
            0 => 0,
            1 => PRESENT | random.pick(directories) as u32,
            _ => PRESENT | directories[2] as u32,
        };
        for &page in &self.pages {
            for &directory in directories {
                let index = DIRECTORY_WORDS * directory + (page / 1024) as usize;
                let table = match directory == directories[2] {
                    true => tables[2],
                    false => random.pick(tables),
                };
                words[index] = PRESENT | table as u32;
            }
            for &table in tables {
                let index = TABLE_WORDS * table + (page % 1024) as usize;
                let is_there = random.one_in(3) || table != tables[2];
                if is_there && index < words.len() {
                    words[index] = PRESENT | random.bits(31);
                }
            }
        }
    }

    pub fn id(&self, random: &mut Random) -> u32 {
        match random.one_in(32) {
            true => random.below(63) as u32,
            false => random.pick(&self.ids),
        }
    }

    pub fn page(&self, random: &mut Random) -> u32 {
        match random.one_in(32) {
            true => state::page(random),
            false => random.pick(&self.pages),
        }
    }

    /// A word to store and its value.
    pub fn store(&self, random: &mut Random, words: &[u32]) -> (u32, u32) {
        let (id, page) = (self.id(random), self.page(random));
        let place = match random.below(16) {
            0 => Place {
                index: random.below(words.len()),
                tree: Tree::Own,
                level: Level::Leaf,
            },
            1 => Place {
                index: GLOBAL_ROOT,
                tree: Tree::Global,
                level: Level::Root,
            },
            _ => words::place(random, words, id, page),
        };
        let value = words::value(random, words, place, &self.numbers);
        (place.index as u32, value)
    }
}

/// Pages and locations: few that collide, or many that a store takes away together.
pub fn size(random: &mut Random) -> (usize, usize) {
    match random.one_in(3) {
        true => (48, 16),
        false => (10, 2),
    }
}

/// Directories and tables that do not overlap; two of the three tables are one.
fn apart() -> Numbers {
    Numbers {
        directories: vec![1, 2, 3],
        tables: vec![2, 2, 3],
    }
}
