//! Table runs and buffers that have to do with each other.

use super::forest::{endings, Ending, Forest};
use super::{spoil, state};
use crate::random::Random;
use reference::*;

/// How many calls find the same run, unless it is one that most calls refuse.
const CALLS_FOR_A_RUN: usize = 40;

/// What stands in the table run that the program keeps.
#[derive(Default)]
pub struct Scene {
    planted: Vec<(u32, u32)>,
    left: usize,
}

impl Scene {
    /// The run to hand over with the next call, empty where the kept one serves.
    pub fn next_run(&mut self, random: &mut Random) -> Vec<u32> {
        if self.left > 0 {
            self.left -= 1;
            return Vec::new();
        }
        self.planted = pages(random);
        if random.one_in(5) {
            self.left = 15;
            return spoil::wrong_run(random);
        }
        self.left = CALLS_FOR_A_RUN;
        let length = 1024 * random.pick(&[1, 1, 2, 3, 4, 4, 6, 8, 16]);
        run(random, length, &self.planted)
    }

    /// One of the pages that were planted, with its identification.
    pub fn pick(&self, random: &mut Random) -> (u32, u32) {
        random.pick(&self.planted)
    }

    pub fn buffer(&self, random: &mut Random, words: &[u32]) -> Vec<u64> {
        match check_tables(words.len()) {
            Ok(()) => buffer(random, words, &self.planted),
            Err(_) => state::buffer(random, SLOTS),
        }
    }
}

/// The words that a call finds that hands over this run, or none where one is kept.
pub fn words_found<'a>(kept: &'a [u32], handed: &'a [u32]) -> &'a [u32] {
    match handed {
        [] => kept,
        handed => handed,
    }
}

/// Pages of a few identifications, many of them the same page and many at one location.
fn pages(random: &mut Random) -> Vec<(u32, u32)> {
    let ids = [0, 62, random.below(63) as u32, random.below(63) as u32];
    let base = random.bits(19);
    (0..24)
        .map(|_| {
            let page = match random.below(4) {
                0 => random.bits(19),
                1 => base ^ (16 * random.bits(3)),
                2 => (base & !0x3FF) | random.bits(10),
                _ => base,
            };
            (random.pick(&ids), page)
        })
        .collect()
}

/// A run in which these pages end in all ways, most of them at a leaf.
fn run(random: &mut Random, length: usize, planted: &[(u32, u32)]) -> Vec<u32> {
    let endings = endings();
    let mut forest = Forest::new(random, length);
    let global = match random.below(4) {
        0 => random.pick(&endings),
        1 => Ending::Leaf,
        2 => random.pick(&[Ending::AbsentDirectory, Ending::AbsentLeaf]),
        _ => Ending::AbsentRoot,
    };
    forest.plant(random, GLOBAL_ROOT, planted[0].1, global);
    for &(page_id, page) in planted {
        let ending = match random.one_in(3) {
            true => random.pick(&endings),
            false => Ending::Leaf,
        };
        forest.plant(random, page_id as usize, page, ending);
    }
    forest.words
}

/// Entries that agree with the tables, in some buffers with a few that do not, in some with many.
fn buffer(random: &mut Random, words: &[u32], planted: &[(u32, u32)]) -> Vec<u64> {
    let mut buffer = state::empty_slots();
    for &(page_id, page) in planted {
        let slot = slot(random.below(SETS), location(page));
        if let Some(leaf) = Leaf::of_walk(walk(words, page_id, page)) {
            buffer[slot] = entry_of(page_id, page, leaf).pack();
        }
    }
    let odd = random.pick(&[0, 1, 1, 4, 16, 64]);
    for _ in 0..odd {
        let slot = random.below(SLOTS);
        buffer[slot] = odd_number(random, buffer[slot], planted);
    }
    if random.one_in(64) {
        buffer.fill_with(|| random.bits64());
    }
    for number in &mut buffer {
        *number |= state::high_bits(random);
    }
    buffer
}

/// The entry that a load of the leaf stores.
pub fn entry_of(page_id: u32, page: u32, leaf: Leaf) -> Entry {
    Entry {
        vpn15: vpn15(page),
        page_id,
        global: leaf.global,
        valid: leaf.valid,
        kernel: leaf.kernel,
        we: leaf.we,
        pfn: leaf.pfn,
    }
}

/// The number with one field changed, or another number altogether.
fn odd_number(random: &mut Random, number: u64, planted: &[(u32, u32)]) -> u64 {
    let bit = match random.below(14) {
        0 => 22,
        1 => 21,
        2 => 20,
        3 => 19,
        4 => random.below(19),
        5 => 23 + random.below(6),
        6 => 29 + random.below(15),
        7 => return number | 63 << 23,
        8 => return Entry::empty(random.below(SETS)).pack(),
        9 => return random.bits64(),
        10 => return 0,
        11 => return Entry::empty(random.below(SETS)).pack() ^ 1 << random.below(44),
        _ => {
            let (page_id, page) = random.pick(planted);
            let other = Entry::unpack(random.bits64());
            return entry_of(page_id, page, leaf_of(other)).pack();
        }
    };
    number ^ 1 << bit
}
