//! Walks of table runs.

use super::forest::{endings, Ending, Forest};
use super::state;
use crate::comparison::Comparison;
use crate::protocol::{Call, Request};
use crate::put::Put;
use crate::random::Random;
use reference::{Registers, GLOBAL_ROOT};

/// Run lengths at and around the ends of directories and tables.
const LENGTHS: [usize; 22] = [
    64, 65, 100, 511, 512, 513, 575, 1023, 1024, 1025, 1535, 1536, 1537, 2047, 2048, 2049, 2560,
    3072, 3100, 16000, 16383, 16384,
];

fn request(registers: Registers, page_id: u32, vpn: u32, tables: Vec<u32>) -> Request {
    Request {
        tables,
        ..Request::without_run(Call::Walk { page_id, vpn }, registers, Vec::new())
    }
}

/// The walk of a program that has not been given a run yet.
pub fn without_run(comparison: &mut Comparison) {
    for page_id in [0, 63, 64] {
        comparison.put(request(Registers::default(), page_id, 0, Vec::new()));
    }
}

pub fn edges(comparison: &mut Comparison, random: &mut Random) {
    pairs_of_endings(comparison, random);
    single_bits(comparison, random);
    lengths(comparison, random);
    arguments(comparison, random);
}

/// Each ending of the global tree with each of the own tree, in a run of whole tables and in
/// one that ends within a directory.
fn pairs_of_endings(comparison: &mut Comparison, random: &mut Random) {
    for global in endings() {
        for own in endings() {
            let odd = 512 * (6 + random.below(26)) - 1 - random.below(511);
            for length in [random.pick(&[4096, 8192, 16384]), odd] {
                let page_id = random.below(63) as u32;
                let page = random.bits(19);
                let mut forest = Forest::new(random, length);
                forest.plant(random, GLOBAL_ROOT, page, global);
                forest.plant(random, page_id as usize, page, own);
                let around = [
                    (page_id, page),
                    (63, page),
                    (random.bits(6), page),
                    (page_id, page ^ 1),
                    (page_id, page ^ 1024),
                    (page_id, random.bits(19)),
                ];
                walks(comparison, random, forest, &around);
            }
        }
    }
}

/// Each reserved bit and each high bit of the number alone, in a root and in a directory word
/// of either tree. Any of these bits makes a good word of a run this short a broken one.
fn single_bits(comparison: &mut Comparison, random: &mut Random) {
    for bit in 3..31 {
        for root in [GLOBAL_ROOT, random.below(63)] {
            for in_directory in [false, true] {
                let page = random.bits(19);
                let mut forest = Forest {
                    words: vec![0; 4096],
                };
                forest.plant(random, root, page, Ending::Leaf);
                forest.spoil(root, in_directory.then_some(page), 1 << bit);
                walks(comparison, random, forest, &[(root as u32, page)]);
            }
        }
    }
}

/// Runs of every edge length, with many endings planted in each.
fn lengths(comparison: &mut Comparison, random: &mut Random) {
    for length in LENGTHS {
        for _ in 0..4 {
            let (forest, planted) = planted(random, length);
            walks(comparison, random, forest, &planted);
        }
    }
}

/// Page_ids and pages too large, and runs too short, each alone and together.
fn arguments(comparison: &mut Comparison, random: &mut Random) {
    let mut all = Vec::new();
    for page_id in [0, 62, 63, 64, 127, 256, u32::MAX] {
        for page in [0, 524_287, 524_288, 0x8000_0000, u32::MAX] {
            all.push((page_id, page));
        }
    }
    for length in [1, 63, 64, 1024] {
        let forest = Forest::new(random, length);
        walks(comparison, random, forest, &all);
    }
}

/// Hands the run over with the first walk; the others find it kept.
fn walks(comparison: &mut Comparison, random: &mut Random, forest: Forest, all: &[(u32, u32)]) {
    let mut tables = forest.words;
    for &(page_id, page) in all {
        let registers = state::registers(random);
        let tables = std::mem::take(&mut tables);
        comparison.put(request(registers, page_id, page, tables));
    }
}

/// A run with random endings planted in the global tree and in some others.
fn planted(random: &mut Random, length: usize) -> (Forest, Vec<(u32, u32)>) {
    let endings = endings();
    let mut forest = Forest::new(random, length);
    let mut planted = Vec::new();
    let global = match random.below(8) {
        0 => random.pick(&endings),
        1..=3 => Ending::AbsentRoot,
        _ => random.pick(&[Ending::AbsentDirectory, Ending::AbsentLeaf, Ending::Leaf]),
    };
    let page = random.bits(19);
    forest.plant(random, GLOBAL_ROOT, page, global);
    for _ in 0..16 {
        let page_id = random.below(63) as u32;
        let page = match random.below(4) {
            0 => random.bits(19),
            1 => random.pick(&[0, 1023, 1024, 0x7FC00, 0x7FFFF]),
            _ => page,
        };
        let ending = random.pick(&endings);
        forest.plant(random, page_id as usize, page, ending);
        planted.extend([(page_id, page), (63, page)]);
    }
    (forest, planted)
}

/// Random walks, which change the run from time to time.
#[derive(Default)]
pub struct Walks {
    planted: Vec<(u32, u32)>,
    left: usize,
}

impl Walks {
    pub fn random(&mut self, random: &mut Random) -> Request {
        let mut tables = Vec::new();
        if self.left == 0 {
            let length = match random.below(3) {
                0 => random.pick(&LENGTHS),
                1 => 1024 * (1 + random.below(16)),
                _ => 64 + random.below(16384 - 63),
            };
            let (forest, planted) = planted(random, length);
            (tables, self.planted, self.left) = (forest.words, planted, 60);
        }
        self.left -= 1;
        let (page_id, page) = match random.below(64) {
            0 => (random.bits(32), random.bits(32)),
            1..=16 => (random.bits(6), random.bits(19)),
            _ => random.pick(&self.planted),
        };
        let mut request = request(state::registers(random), page_id, page, tables);
        if random.one_in(8) {
            let length = random.pick(&state::LENGTHS);
            request.buffer = state::buffer(random, length);
        }
        request
    }
}
