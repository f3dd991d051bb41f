//! Traces rich in stores that change what the roots lead to, under all identifications.

use crate::cases::forest::{DIRECTORY_WORDS, PRESENT, TABLE_WORDS};
use crate::cases::state;
use crate::cases::words::{value, Numbers, Place};
use crate::protocol::Call;
use crate::random::Random;
use crate::traces::record::Record;
use crate::traces::script::{malformed, refused};
use crate::traces::written::Written;
use reference::*;

/// A trace of so many records, and a last piece of so many bytes.
pub fn trace(random: &mut Random, records: usize, piece: usize) -> Vec<u8> {
    let mut script = Script::begin(random);
    for _ in 0..records {
        let record = script.next_record(random);
        script.written.add(record);
    }
    let last = script.next_record(random);
    script.written.end(records, last, piece)
}

struct Script {
    written: Written,
    /// Few, so that a store to one of them loses a directory, or all.
    roots: Vec<usize>,
    /// Directories and tables, few enough to be named by several words.
    numbers: Numbers,
    /// Places in a directory and in a table. Half of the scripts have the directory's in the table
    /// too: where the two overlap, the word is a directory word and a leaf.
    tops: Vec<usize>,
    lows: Vec<usize>,
}

impl Script {
    fn begin(random: &mut Random) -> Script {
        let tops: Vec<usize> = (0..3).map(|_| place_in(random, DIRECTORY_WORDS)).collect();
        let mut lows: Vec<usize> = (0..4).map(|_| place_in(random, TABLE_WORDS)).collect();
        if random.one_in(2) {
            lows.extend(
                tops.iter()
                    .map(|top| top + DIRECTORY_WORDS * random.below(2)),
            );
        }
        Script {
            written: Written::begin(),
            roots: match random.one_in(3) {
                true => (0..=GLOBAL_ROOT).collect(),
                false => vec![random.below(63), random.below(63), GLOBAL_ROOT],
            },
            numbers: numbers(random),
            tops,
            lows,
        }
    }

    /// Half of the records are stores; each fifth sets CONTEXT.
    fn next_record(&mut self, random: &mut Random) -> Record {
        if self.written.unit.registers.enable == 0 && random.one_in(8) {
            return setting(2, 1);
        }
        match random.below(40) {
            0 => refused(random),
            1 => {
                let record = self.accepted(random);
                malformed(random, record)
            }
            _ => self.accepted(random),
        }
    }

    fn accepted(&mut self, random: &mut Random) -> Record {
        match random.below(40) {
            0..=19 => self.store(random),
            20..=29 => self.access(random),
            30..=37 => setting(5, random.below(63) as u32),
            38 => setting(1, random.bits(3)),
            _ => match random.below(8) {
                0 => setting(2, 0),
                1 => setting(0, random.bits(16)),
                _ => setting(0, 0),
            },
        }
    }

    fn store(&mut self, random: &mut Random) -> Record {
        let place = self.place(random);
        let words = &self.written.unit.words;
        let value = match random.below(6) {
            0 => words[place.index] ^ PRESENT,
            1 if place.level != Level::Root => self.own_table(place.index),
            _ => value(random, words, place, &self.numbers),
        };
        Record::of(Call::Store {
            index: place.index as u32,
            value,
        })
    }

    /// A root, a directory word or a leaf; leaves are no rarer than the words that lead to them.
    fn place(&self, random: &mut Random) -> Place {
        let (index, level) = match random.below(8) {
            0..=2 => (self.root(random), Level::Root),
            3 | 4 => {
                let directory = random.pick(&self.numbers.directories);
                let index = DIRECTORY_WORDS * directory + random.pick(&self.tops);
                (index, Level::Directory)
            }
            _ => {
                let table = random.pick(&self.numbers.tables);
                let index = TABLE_WORDS * table + random.pick(&self.lows);
                (index, Level::Leaf)
            }
        };
        Place {
            index,
            tree: Tree::Own,
            level,
        }
    }

    /// At times a word behind the roots, which leads nowhere.
    fn root(&self, random: &mut Random) -> usize {
        match random.below(32) {
            0 => GLOBAL_ROOT + 1,
            1 => random.below(DIRECTORY_WORDS),
            _ => random.pick(&self.roots),
        }
    }

    /// A word that names the table in which it stands.
    fn own_table(&self, index: usize) -> u32 {
        PRESENT | (index / TABLE_WORDS) as u32
    }

    fn access(&mut self, random: &mut Random) -> Record {
        let page = 1024 * random.pick(&self.tops) + random.pick(&self.lows);
        Record::of(Call::Served(Access {
            address: state::address_on(random, page as u32),
            user: random.one_in(2),
            write: random.one_in(2),
            draw: random.bits(2),
        }))
    }
}

/// A place in a stretch of so many words, often the first or the last.
fn place_in(random: &mut Random, length: usize) -> usize {
    match random.below(6) {
        0 => 0,
        1 => length - 1,
        _ => random.below(length),
    }
}

/// Directories and tables that lie apart, close together, or anywhere.
fn numbers(random: &mut Random) -> Numbers {
    match random.below(4) {
        0 => Numbers {
            directories: vec![1, 2, 3],
            tables: vec![2, 3, 4],
        },
        1 => Numbers::inside(random, 2048),
        2 => Numbers::inside(random, 4096),
        _ => Numbers::inside(random, reference::trace::TABLE_WORDS),
    }
}

fn setting(number: u32, value: u32) -> Record {
    Record::of(Call::Setting { number, value })
}
