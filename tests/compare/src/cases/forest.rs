//! Table runs in which walks end in chosen ways.

use crate::random::Random;
use reference::{WhyBroken, GLOBAL_ROOT};

/// How the walk of one tree is to end.
#[derive(Clone, Copy, Debug)]
pub enum Ending {
    AbsentRoot,
    BrokenRoot(WhyBroken),
    AbsentDirectory,
    BrokenDirectory(WhyBroken),
    AbsentLeaf,
    Leaf,
}

pub const CAUSES: [WhyBroken; 4] = [
    WhyBroken::ReservedBits,
    WhyBroken::NumberZero,
    WhyBroken::WhollyOutside,
    WhyBroken::PartlyOutside,
];

pub fn endings() -> Vec<Ending> {
    let mut endings = vec![
        Ending::AbsentRoot,
        Ending::AbsentDirectory,
        Ending::AbsentLeaf,
        Ending::Leaf,
    ];
    endings.extend(CAUSES.map(Ending::BrokenRoot));
    endings.extend(CAUSES.map(Ending::BrokenDirectory));
    endings
}

/// Each ending of the global tree with each of the own tree, but for those that find a leaf.
pub fn stops() -> Vec<(Ending, Ending)> {
    let mut stops = Vec::new();
    for global in endings() {
        stops.extend(endings().into_iter().map(|own| (global, own)));
    }
    stops.retain(|(global, own)| match global {
        Ending::Leaf => false,
        Ending::BrokenRoot(_) | Ending::BrokenDirectory(_) => true,
        _ => !matches!(own, Ending::Leaf),
    });
    stops
}

pub const PRESENT: u32 = 1 << 31;
pub const DIRECTORY_WORDS: usize = 512;
pub const TABLE_WORDS: usize = 1024;

pub struct Forest {
    pub words: Vec<u32>,
}

impl Forest {
    /// A run of zeros, or one of words that may be good, absent or broken at any level.
    pub fn new(random: &mut Random, length: usize) -> Forest {
        let words = match random.one_in(2) {
            true => vec![0; length],
            false => (0..length).map(|_| any_word(random, length)).collect(),
        };
        Forest { words }
    }

    /// A run of at least 4,096 words in which the page's walks of the global tree and of the
    /// context's end as asked. The two trees share no word, so that each does.
    pub fn of_stop(
        random: &mut Random,
        length: usize,
        (context, page): (u32, u32),
        (global, own): (Ending, Ending),
    ) -> Forest {
        let mut forest = Forest {
            words: vec![0; length],
        };
        forest.plant_through(random, (1, 2), GLOBAL_ROOT, page, global);
        forest.plant_through(random, (2, 3), context as usize, page, own);
        forest
    }

    /// Makes the walk of the page in the tree of this root end as asked, if the run has room.
    pub fn plant(&mut self, random: &mut Random, root: usize, page: u32, ending: Ending) {
        let directory = number_inside(random, self.words.len(), DIRECTORY_WORDS);
        let table = number_inside(random, self.words.len(), TABLE_WORDS);
        self.plant_through(random, (directory, table), root, page, ending);
    }

    /// The same through this directory and this table, as far as the walk goes.
    fn plant_through(
        &mut self,
        random: &mut Random,
        (directory, table): (usize, usize),
        root: usize,
        page: u32,
        ending: Ending,
    ) {
        let length = self.words.len();
        match ending {
            Ending::AbsentRoot => return self.set(root, absent_word(random)),
            Ending::BrokenRoot(why) => {
                return self.set(root, broken_word(random, length, why, DIRECTORY_WORDS));
            }
            _ => self.set(root, PRESENT | directory as u32),
        }
        let place = DIRECTORY_WORDS * directory + (page / 1024) as usize;
        match ending {
            Ending::AbsentDirectory => return self.set(place, absent_word(random)),
            Ending::BrokenDirectory(why) => {
                return self.set(place, broken_word(random, length, why, TABLE_WORDS));
            }
            _ => self.set(place, PRESENT | table as u32),
        }
        let leaf = match ending {
            Ending::AbsentLeaf => absent_word(random),
            _ => PRESENT | random.bits(31),
        };
        self.set(TABLE_WORDS * table + (page % 1024) as usize, leaf);
    }

    /// Turns over bits of the word that the walk of this root asks last before its leaf.
    pub fn spoil(&mut self, root: usize, page: Option<u32>, bits: u32) {
        let Some(page) = page else {
            self.words[root] ^= bits;
            return;
        };
        let directory = (self.words[root] & 0xFFFF) as usize;
        self.words[DIRECTORY_WORDS * directory + (page / 1024) as usize] ^= bits;
    }

    fn set(&mut self, index: usize, word: u32) {
        if let Some(place) = self.words.get_mut(index) {
            *place = word;
        }
    }
}

/// The number of a stretch wholly inside a run of this length, often the last one.
pub fn number_inside(random: &mut Random, length: usize, stretch: usize) -> usize {
    let last = (length / stretch).saturating_sub(1);
    match last {
        0 | 1 => 1,
        _ if random.one_in(3) => last,
        _ => 1 + random.below(last),
    }
}

/// A present root or directory word that is broken in a run of this length.
pub fn broken_word(random: &mut Random, length: usize, why: WhyBroken, stretch: usize) -> u32 {
    let first_outside = length.div_ceil(stretch);
    match why {
        WhyBroken::ReservedBits => {
            let number = number_inside(random, length, stretch) as u32;
            PRESENT | reserved_bits(random) | number
        }
        WhyBroken::NumberZero => PRESENT,
        WhyBroken::WhollyOutside => {
            let number = match random.below(4) {
                0 => first_outside,
                1 => first_outside + random.below(65536 - first_outside),
                2 => number_inside(random, length, stretch) | 1 << (5 + random.below(11)),
                _ => 65535,
            };
            PRESENT | number as u32
        }
        WhyBroken::PartlyOutside => PRESENT | (length / stretch) as u32,
    }
}

/// One reserved bit or several.
fn reserved_bits(random: &mut Random) -> u32 {
    match random.one_in(2) {
        true => 1 << (16 + random.below(15)),
        false => (1 + random.below(0x7FFF) as u32) << 16,
    }
}

fn absent_word(random: &mut Random) -> u32 {
    match random.one_in(3) {
        true => 0,
        false => random.bits(31),
    }
}

/// Good as a root or directory word in most cases, so that walks go deep.
fn any_word(random: &mut Random, length: usize) -> u32 {
    match random.below(8) {
        0 => absent_word(random),
        1 => random.bits(32),
        2 => PRESENT | reserved_bits(random) | 1,
        _ => PRESENT | random.below(length / 1024 + 2) as u32,
    }
}
