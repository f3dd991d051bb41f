//! Served accesses made on purpose.

use super::forest::{endings, stops, Ending, Forest};
use super::served::{put_not_valid, request};
use super::tables::ask_for_tables;
use super::{raw, spoil, state, TOO_LARGE};
use crate::protocol::Call;
use crate::put::Put;
use crate::random::Random;
use reference::*;

pub fn put(comparison: &mut dyn Put, random: &mut Random) {
    refusals(comparison, random);
    grounds_together(comparison, random);
    walks(comparison, random);
    walks_apart(comparison, random);
    leaves(comparison, random);
    matching_slots(comparison, random);
    several_hits(comparison, random);
    segments(comparison, random);
}

/// Accesses of a program that has not been given a run yet.
pub fn without_run(comparison: &mut dyn Put, random: &mut Random) {
    for draw in [0, 4] {
        for test in [0, 1] {
            let registers = Registers {
                test,
                ..enabled(random, 5)
            };
            let access = access(random, 0x21, draw);
            let buffer = state::empty_slots();
            comparison.put(request(registers, buffer, access, Vec::new()));
        }
    }
}

/// Registers that ask the buffer under the given context.
fn enabled(random: &mut Random, context: u32) -> Registers {
    Registers {
        kseg: 0,
        enable: 1,
        context,
        test: 0,
        ..state::registers(random)
    }
}

fn access(random: &mut Random, page: u32, draw: u32) -> Access {
    Access {
        address: state::address_on(random, page),
        user: random.one_in(2),
        write: random.one_in(2),
        draw,
    }
}

/// A run of 2,048 words with this leaf for the page under the root.
fn run_with_leaf(root: usize, page: u32, leaf: u32) -> Vec<u32> {
    let mut words = vec![0; 2048];
    words[root] = 0x8000_0001;
    words[512 + (page / 1024) as usize] = 0x8000_0001;
    words[1024 + (page % 1024) as usize] = leaf;
    words
}

/// Every register edge with every length and edges of the draw.
fn refusals(comparison: &mut dyn Put, random: &mut Random) {
    let mut tables = run_with_leaf(62, 0x21, 0xF000_0007);
    for edge in state::register_edges(random) {
        for length in state::LENGTHS {
            for draw in [0, 3, 4, random.pick(&TOO_LARGE)] {
                let registers = Registers {
                    test: if edge.test == 1 { 0 } else { edge.test },
                    context: if edge.context == 63 { 62 } else { edge.context },
                    ..edge
                };
                let buffer = state::buffer(random, length);
                let access = access(random, 0x21, draw);
                let tables = std::mem::take(&mut tables);
                comparison.put(request(registers, buffer, access, tables));
            }
        }
    }
    for draw in TOO_LARGE {
        let registers = enabled(random, 62);
        let access = access(random, 0x21, draw);
        comparison.put(request(registers, state::empty_slots(), access, Vec::new()));
    }
}

/// Every set of grounds, with table runs of every wrong length; then the run is asked for.
fn grounds_together(comparison: &mut dyn Put, random: &mut Random) {
    let all = spoil::grounds_of(Call::Served(access(random, 0, 0)));
    for choice in 1..1 << all.len() {
        let grounds: Vec<u32> = (0..all.len())
            .filter(|n| choice >> n & 1 == 1)
            .map(|n| all[n])
            .collect();
        for _ in 0..20 {
            let registers = enabled(random, 62);
            let access = access(random, 0x21, 1);
            let tables = run_with_leaf(62, 0x21, 0xF000_0007);
            let mut request = request(registers, state::empty_slots(), access, tables);
            spoil::spoil(random, &mut request, 2048, &grounds);
            comparison.put(request);
        }
        ask_for_tables(comparison);
    }
}

/// Each ending of the global tree with each of the own tree, in the smallest run and in a larger
/// one, on buffers with and without the page.
fn walks(comparison: &mut dyn Put, random: &mut Random) {
    for global in endings() {
        for own in endings() {
            for length in [1024, random.pick(&[3072, 4096, 8192, 16384])] {
                walks_ending(comparison, random, length, (global, own));
            }
        }
    }
}

/// Each way in which a walk stops, in trees that share no word.
fn walks_apart(comparison: &mut dyn Put, random: &mut Random) {
    for endings in stops() {
        let (context, page) = (random.pick(&[0, 62, 5, 31]), random.bits(19));
        let length = random.pick(&[4096, 5120, 16384]);
        let forest = Forest::of_stop(random, length, (context, page), endings);
        let registers = enabled(random, context);
        let draw = random.bits(2);
        let access = access(random, page, draw);
        let buffer = state::empty_slots();
        comparison.put(request(registers, buffer, access, forest.words));
    }
}

/// A few endings in a run of every length up to 16,384 words.
pub fn every_length(comparison: &mut dyn Put, random: &mut Random) {
    for length in (1024..=16384).step_by(1024) {
        for own in [Ending::Leaf, Ending::AbsentLeaf] {
            walks_ending(comparison, random, length, (Ending::AbsentRoot, own));
        }
    }
}

fn walks_ending(
    comparison: &mut dyn Put,
    random: &mut Random,
    length: usize,
    (global, own): (Ending, Ending),
) {
    let context = random.pick(&[0, 62, 5, 31]);
    let page = random.bits(19);
    let mut forest = Forest::new(random, length);
    forest.plant(random, GLOBAL_ROOT, page, global);
    forest.plant(random, context as usize, page, own);
    let mut tables = forest.words;
    for n in 0..8 {
        let registers = enabled(random, context);
        let mut buffer = state::empty_slots();
        match n {
            1 | 3 | 5 => put_not_valid(random, &mut buffer, registers, page),
            7 => raw::furnish(random, &mut buffer, registers, page),
            _ => {}
        }
        let access = access(random, page, n % 4);
        let tables = std::mem::take(&mut tables);
        comparison.put(request(registers, buffer, access, tables));
    }
    ask_for_tables(comparison);
}

/// Every setting of a leaf's three bits in either tree, with every CTRL and every mode.
fn leaves(comparison: &mut dyn Put, random: &mut Random) {
    for bits in 0..8 {
        for is_global in [false, true] {
            let page = random.bits(19);
            let context = random.pick(&[0, 62, 17]);
            let root = if is_global {
                GLOBAL_ROOT
            } else {
                context as usize
            };
            let leaf = 1 << 31 | bits << 28 | random.bits(28);
            let mut tables = run_with_leaf(root, page, leaf);
            for (ctrl, mode) in (0..8).flat_map(|ctrl| (0..4).map(move |mode| (ctrl, mode))) {
                for draw in 0..4 {
                    let registers = Registers {
                        ctrl,
                        ..enabled(random, context)
                    };
                    let access = Access {
                        user: mode & 1 != 0,
                        write: mode & 2 != 0,
                        ..access(random, page, draw)
                    };
                    let mut buffer = state::buffer(random, SLOTS);
                    if draw == 3 {
                        put_not_valid(random, &mut buffer, registers, page);
                    }
                    let tables = std::mem::take(&mut tables);
                    comparison.put(request(registers, buffer, access, tables));
                }
            }
        }
    }
}

/// Every choice of sets that hold the page not valid, with every draw, under either inv_exc.
fn matching_slots(comparison: &mut dyn Put, random: &mut Random) {
    for ending in [Ending::Leaf, Ending::AbsentLeaf] {
        let page = state::page(random);
        let mut forest = Forest {
            words: vec![0; 4096],
        };
        forest.plant(random, 5, page, ending);
        let mut tables = forest.words;
        for (sets, draw) in (0..16).flat_map(|sets| (0..4).map(move |draw| (sets, draw))) {
            for ctrl in [0, 4, 3, 7] {
                let registers = Registers {
                    ctrl,
                    ..enabled(random, 5)
                };
                let mut buffer = state::empty_slots();
                for set in (0..SETS).filter(|set| sets >> set & 1 == 1) {
                    let entry = Entry {
                        valid: false,
                        ..raw::matching(random, registers, page)
                    };
                    buffer[slot(set, location(page))] = entry.pack() | state::high_bits(random);
                }
                let access = access(random, page, draw);
                let tables = std::mem::take(&mut tables);
                comparison.put(request(registers, buffer, access, tables));
            }
        }
    }
}

/// Every choice of sets that hold a matching entry, valid or not, in every CTRL.
fn several_hits(comparison: &mut dyn Put, random: &mut Random) {
    let page = state::page(random);
    let mut tables = run_with_leaf(9, page, 0xF000_0001);
    for (sets, ctrl) in (0..16).flat_map(|sets| (0..8).map(move |ctrl| (sets, ctrl))) {
        for _ in 0..4 {
            let registers = Registers {
                ctrl,
                ..enabled(random, 9)
            };
            let mut buffer = state::buffer(random, SLOTS);
            for set in (0..SETS).filter(|set| sets >> set & 1 == 1) {
                let entry = raw::matching(random, registers, page);
                buffer[slot(set, location(page))] = entry.pack() | state::high_bits(random);
            }
            let draw = random.bits(2);
            let access = access(random, page, draw);
            let tables = std::mem::take(&mut tables);
            comparison.put(request(registers, buffer, access, tables));
        }
    }
}

/// Every segment, set and clear, enabled and not, in every mode.
fn segments(comparison: &mut dyn Put, random: &mut Random) {
    for segment in 0..16 {
        let page = (segment << 15) | random.bits(15);
        let mut tables = run_with_leaf(9, page, 0xF000_0000 | random.bits(19));
        for mode in 0..4 {
            for kseg in [0, 0xFFFF, 1 << segment, 0xFFFF ^ (1 << segment)] {
                for enable in [0, 1] {
                    let registers = Registers {
                        kseg,
                        enable,
                        ..enabled(random, 9)
                    };
                    let access = Access {
                        user: mode & 1 != 0,
                        write: mode & 2 != 0,
                        ..access(random, page, mode)
                    };
                    let buffer = state::buffer(random, SLOTS);
                    let tables = std::mem::take(&mut tables);
                    comparison.put(request(registers, buffer, access, tables));
                }
            }
        }
    }
}
