//! Table stores on arbitrary states.

use super::forest::{endings, Forest};
use super::scene::{entry_of, words_found, Scene};
use super::tables::ask_for_tables;
use super::words::{self, Numbers, Place};
use super::{spoil, state};
use crate::protocol::{Call, Request};
use crate::put::Put;
use crate::random::Random;
use reference::*;

fn request(registers: Registers, buffer: Vec<u64>, (index, value): (u32, u32)) -> Request {
    Request::without_run(Call::Store { index, value }, registers, buffer)
}

pub fn random(random: &mut Random, scene: &mut Scene, kept: &[u32]) -> Request {
    let tables = scene.next_run(random);
    let words = words_found(kept, &tables);
    let (page_id, page) = scene.pick(random);
    let place = match check_tables(words.len()) {
        Ok(()) if !random.one_in(8) => words::place(random, words, page_id, page),
        _ => Place {
            index: random.below(words.len().max(1)),
            tree: Tree::Own,
            level: Level::Leaf,
        },
    };
    let value = match words.get(place.index) {
        Some(_) => {
            let numbers = Numbers::inside(random, words.len());
            words::value(random, words, place, &numbers)
        }
        None => random.bits(32),
    };
    let registers = Registers {
        context: page_id,
        ..state::registers(random)
    };
    let buffer = scene.buffer(random, words);
    let kept = words.len();
    let mut request = Request {
        tables,
        ..request(registers, buffer, (place.index as u32, value))
    };
    if random.one_in(6) {
        let grounds = spoil::some(random, &[1, 2, 6]);
        spoil::spoil(random, &mut request, kept, &grounds);
    }
    request
}

/// Stores by a program that has not been given a run yet.
pub fn without_run(comparison: &mut dyn Put, random: &mut Random) {
    for index in [0, 63, u32::MAX] {
        let registers = state::registers(random);
        comparison.put(request(registers, state::empty_slots(), (index, 1)));
    }
    ask_for_tables(comparison);
}

pub fn edges(comparison: &mut dyn Put, random: &mut Random) {
    refusals(comparison, random);
    grounds_together(comparison, random);
    single_bits(comparison, random);
    empty_numbers(comparison, random);
    full_buffers(comparison, random);
    smallest_run(comparison, random);
}

/// A run of 4,096 words in which identification 5 has a leaf for every page below 1,024, and the
/// global tree for every page from 1,024 to 2,047.
fn full_run(random: &mut Random) -> Vec<u32> {
    let mut words = vec![0; 4096];
    words[5] = 0x8000_0001;
    words[512] = 0x8000_0002;
    words[GLOBAL_ROOT] = 0x8000_0002;
    words[1025] = 0x8000_0003;
    for word in &mut words[2048..] {
        *word = 1 << 31 | random.bits(31);
    }
    words
}

/// A word of the full run that no walk asks.
const UNUSED: u32 = 100;

/// Every register edge with every length and edges of the index, the run asked for in between.
fn refusals(comparison: &mut dyn Put, random: &mut Random) {
    let mut tables = full_run(random);
    for registers in state::register_edges(random) {
        for length in state::LENGTHS {
            for index in [UNUSED, 4095, 4096, u32::MAX] {
                let buffer = state::buffer(random, length);
                comparison.put(Request {
                    tables: std::mem::take(&mut tables),
                    ..request(registers, buffer, (index, random.bits(32)))
                });
            }
        }
        ask_for_tables(comparison);
    }
}

/// Every set of grounds, with table runs of every wrong length; then the run is asked for.
fn grounds_together(comparison: &mut dyn Put, random: &mut Random) {
    let all = spoil::grounds_of(Call::Store { index: 0, value: 0 });
    for choice in 1..1 << all.len() {
        let grounds: Vec<u32> = (0..all.len())
            .filter(|n| choice >> n & 1 == 1)
            .map(|n| all[n])
            .collect();
        for _ in 0..30 {
            let buffer = state::buffer(random, SLOTS);
            let index = random.below(4096) as u32;
            let mut request = Request {
                tables: full_run(random),
                ..request(state::registers(random), buffer, (index, random.bits(32)))
            };
            spoil::spoil(random, &mut request, 4096, &grounds);
            comparison.put(request);
            ask_for_tables(comparison);
        }
    }
}

/// An agreeing number of either tree with each of its 64 bits turned over, in every set.
fn single_bits(comparison: &mut dyn Put, random: &mut Random) {
    let words = full_run(random);
    let mut tables = words.clone();
    for (bit, set) in (0..64).flat_map(|bit| (0..SETS).map(move |set| (bit, set))) {
        for page in [random.bits(10), 1024 + random.bits(10)] {
            for context in [5, 6] {
                let leaf =
                    Leaf::of_walk(walk(&words[..], 5, page)).expect("a full run has the leaf");
                let registers = Registers {
                    context,
                    ..state::registers(random)
                };
                let mut buffer = state::empty_slots();
                buffer[slot(set, location(page))] = entry_of(5, page, leaf).pack() ^ 1 << bit;
                comparison.put(Request {
                    tables: std::mem::take(&mut tables),
                    ..request(registers, buffer, (UNUSED, random.bits(32)))
                });
            }
        }
    }
}

/// Each set's empty number at every slot, with and without junk, and with each bit turned over.
fn empty_numbers(comparison: &mut dyn Put, random: &mut Random) {
    let mut tables = full_run(random);
    let mut numbers = Vec::new();
    for slot in 0..SLOTS {
        for set in 0..SETS {
            let number = Entry::empty(set).pack();
            numbers.extend([(slot, number), (slot, number | state::high_bits(random))]);
        }
        let own = Entry::empty(slot / LOCATIONS).pack();
        numbers.extend([(slot, own ^ 1 << slot), (slot, 0)]);
    }
    for (slot, number) in numbers {
        let mut buffer = state::empty_slots();
        buffer[slot] = number;
        comparison.put(Request {
            tables: std::mem::take(&mut tables),
            ..request(state::registers(random), buffer, (UNUSED, random.bits(32)))
        });
    }
}

/// All 64 slots agree; then stores to every level take some, most or all of them away.
fn full_buffers(comparison: &mut dyn Put, random: &mut Random) {
    for _ in 0..20 {
        let words = full_run(random);
        let buffer: Vec<u64> = (0..SLOTS as u32)
            .map(|n| {
                let page = 16 * random.bits(7) + n % 16;
                let leaf =
                    Leaf::of_walk(walk(&words[..], 5, page)).expect("a full run has the leaf");
                entry_of(5, page, leaf).pack() | state::high_bits(random)
            })
            .collect();
        for index in [5, 512, 63, 1025, 2048 + random.bits(11), UNUSED] {
            let old = words[index as usize];
            for value in [
                old,
                old ^ 1 << 31,
                old ^ 1 << 16,
                old ^ 1 << 20,
                random.bits(32),
            ] {
                comparison.put(Request {
                    tables: words.clone(),
                    ..request(state::registers(random), buffer.clone(), (index, value))
                });
            }
        }
        ask_for_tables(comparison);
    }
}

/// Stores at the end of a run of every length up to 16,384 words, and past it.
pub fn every_length(comparison: &mut dyn Put, random: &mut Random) {
    for length in (1024..=16384).step_by(1024) {
        let mut tables = Forest::new(random, length).words;
        let length = length as u32;
        for index in [0, 63, length - 1, length, random.bits(10)] {
            let buffer = state::buffer(random, SLOTS);
            comparison.put(Request {
                tables: std::mem::take(&mut tables),
                ..request(state::registers(random), buffer, (index, random.bits(32)))
            });
        }
    }
}

/// Each ending of either tree in the smallest run, with stores at its end, past it and to the words
/// that the page's walk asks.
fn smallest_run(comparison: &mut dyn Put, random: &mut Random) {
    for (global, own) in endings()
        .into_iter()
        .flat_map(|global| endings().into_iter().map(move |own| (global, own)))
    {
        let page = random.bits(19);
        let mut forest = Forest::new(random, 1024);
        forest.plant(random, GLOBAL_ROOT, page, global);
        forest.plant(random, 5, page, own);
        let mut tables = forest.words;
        for index in [1023, 1024, 512 + page / 1024, 5, 63] {
            let leaf = leaf_of(Entry::unpack(random.bits64()));
            let mut buffer = state::empty_slots();
            buffer[slot(random.below(SETS), location(page))] = entry_of(5, page, leaf).pack();
            comparison.put(Request {
                tables: std::mem::take(&mut tables),
                ..request(state::registers(random), buffer, (index, random.bits(32)))
            });
        }
        ask_for_tables(comparison);
    }
}
