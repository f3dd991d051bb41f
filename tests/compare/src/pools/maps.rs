//! Maps on arbitrary states.

use super::comparison::Comparison;
use super::shapes;
use crate::cases::forest::PRESENT;
use crate::cases::scene::Scene;
use crate::cases::tables::ask_for_tables;
use crate::cases::{spoil, state, store};
use crate::protocol::{Call, PoolCall, Request};
use crate::put::Put;
use crate::random::Random;
use reference::heap::{Pool, MOST_FRAMES, PFNS};
use reference::SLOTS;

/// The grounds on which the store that a map makes is refused.
const OF_THE_STORE: [u32; 4] = [1, 2, 3, 6];

/// How many maps have each set of grounds.
const MAPS_OF_A_SET: usize = 12;

pub fn edges(comparison: &mut Comparison, random: &mut Random) {
    comparison.restart();
    without_run(comparison, random);
    let mut as_maps = AsMaps {
        comparison,
        random: Random::new(random.bits64()),
    };
    store::edges(&mut as_maps, random);
    comparison.restart();
    grounds_together(comparison, random);
    comparison.restart();
    register_edges(comparison, random);
    all_pools(comparison, random);
    leaf_bits(comparison, random);
    comparison.restart();
    ends_of_runs(comparison, random);
}

/// The stores of arbitrary states, each as a map, until the total is reached.
pub fn at_random(comparison: &mut Comparison, random: &mut Random, total: usize) {
    let mut scene = Scene::default();
    while comparison.wants_more(total) {
        if random.one_in(24) {
            ask_for_tables(comparison);
        }
        let store = store::random(random, &mut scene, comparison.tables());
        let request = as_map(random, store);
        if !request.tables.is_empty() {
            comparison.may_restart();
        }
        comparison.put(request);
    }
}

/// Puts a map where a store is put, and all else as it is.
struct AsMaps<'a> {
    comparison: &'a mut Comparison,
    random: Random,
}

impl Put for AsMaps<'_> {
    fn put(&mut self, request: Request) {
        let request = match request.call {
            Call::Store { .. } => as_map(&mut self.random, request),
            _ => request,
        };
        self.comparison.put(request);
    }

    fn tables(&self) -> &[u32] {
        self.comparison.tables()
    }
}

/// The store as a map of its value, on a pool of any kind; mostly its frame is the value's.
fn as_map(random: &mut Random, store: Request) -> Request {
    let Call::Store { value, .. } = store.call else {
        panic!("{:?} is no store", store.call);
    };
    let pool = match random.below(16) {
        0 => shapes::any(random),
        1 => {
            let size = shapes::size(random);
            shapes::full(random, size)
        }
        2..=4 => with_a_free_frame(random),
        5..=7 => shapes::fitting(random),
        _ => aimed_at(random, value % PFNS),
    };
    map_of(store, pool)
}

fn map_of(store: Request, pool: Pool) -> Request {
    let Call::Store { index, value } = store.call else {
        panic!("{:?} is no store", store.call);
    };
    Request {
        call: Call::OnPool(PoolCall::Map { index, leaf: value }),
        pool: Some(Box::new(pool)),
        ..store
    }
}

fn with_a_free_frame(random: &mut Random) -> Pool {
    let size = shapes::size(random);
    let place = random.below(size as usize) as u32;
    shapes::free_from(random, size, place)
}

/// A pool whose lowest free frame has this pfn.
fn aimed_at(random: &mut Random, pfn: u32) -> Pool {
    let farthest = pfn.min(MOST_FRAMES - 1) as usize;
    let place = match random.below(4) {
        0 => 0,
        1 => farthest.min(random.pick(&[63, 64, 65, 4095])),
        _ => random.below(farthest + 1),
    } as u32;
    let first = pfn - place;
    let room = (PFNS - first).min(MOST_FRAMES) - place;
    let size = place + 1 + random.below(room as usize) as u32;
    Pool {
        first,
        ..shapes::free_from(random, size, place)
    }
}

/// Maps by a program that has not been given a run yet.
fn without_run(comparison: &mut Comparison, random: &mut Random) {
    for index in [0, 63, u32::MAX] {
        let store = Call::Store { index, value: 1 };
        let free = with_a_free_frame(random);
        let full = shapes::full(random, free.size);
        for pool in [free, full] {
            let registers = state::registers(random);
            let request = Request::without_run(store, registers, state::empty_slots());
            comparison.put(map_of(request, pool));
        }
    }
    ask_for_tables(comparison);
}

/// Every set of grounds, the run asked for after each.
fn grounds_together(comparison: &mut Comparison, random: &mut Random) {
    for set in 1..1 << (OF_THE_STORE.len() + 2) {
        let has = |n: usize| set >> n & 1 == 1;
        let of_the_store: Vec<u32> = (0..OF_THE_STORE.len())
            .filter(|&n| has(n))
            .map(|n| OF_THE_STORE[n])
            .collect();
        for _ in 0..MAPS_OF_A_SET {
            let store = Call::Store {
                index: random.below(2048) as u32,
                value: random.bits(32),
            };
            let buffer = state::buffer(random, SLOTS);
            let mut request = Request {
                tables: vec![PRESENT | random.bits(31); 2048],
                ..Request::without_run(store, state::registers(random), buffer)
            };
            spoil::spoil(random, &mut request, 2048, &of_the_store);
            let size = shapes::size(random);
            let place = random.below(size as usize) as u32;
            let mut pool = match has(4) {
                true => shapes::full(random, size),
                false => shapes::free_from(random, size, place),
            };
            if has(5) {
                pool.first = PFNS - random.below(size as usize) as u32;
            }
            comparison.put(map_of(request, pool));
            ask_for_tables(comparison);
        }
    }
}

/// Every register edge with nothing else wrong.
fn register_edges(comparison: &mut Comparison, random: &mut Random) {
    let mut tables = vec![0; 1024];
    for registers in state::register_edges(random) {
        for _ in 0..4 {
            let store = Call::Store {
                index: random.below(1024) as u32,
                value: random.bits(32),
            };
            let request = Request {
                tables: std::mem::take(&mut tables),
                ..Request::without_run(store, registers, state::buffer(random, SLOTS))
            };
            let pool = with_a_free_frame(random);
            comparison.put(map_of(request, pool));
        }
    }
    ask_for_tables(comparison);
}

/// Every first pfn with every size and nothing else wrong, by the run that is kept.
fn all_pools(comparison: &mut Comparison, random: &mut Random) {
    for (first, size) in shapes::firsts_and_sizes() {
        let store = Call::Store {
            index: random.below(1024) as u32,
            value: random.bits(32),
        };
        let buffer = state::buffer(random, SLOTS);
        let request = Request::without_run(store, state::registers(random), buffer);
        let bits = with_a_free_frame(random).bits;
        comparison.put(map_of(request, Pool { first, size, bits }));
        if random.one_in(8) {
            ask_for_tables(comparison);
        }
    }
    ask_for_tables(comparison);
}

/// A map of a leaf at a word of these tables, or of those that the program keeps where they are
/// empty.
fn map_over(
    comparison: &mut Comparison,
    random: &mut Random,
    tables: Vec<u32>,
    (index, value): (u32, u32),
) {
    let buffer = state::buffer(random, SLOTS);
    let store = Call::Store { index, value };
    let request = Request {
        tables,
        ..Request::without_run(store, state::registers(random), buffer)
    };
    let pool = with_a_free_frame(random);
    comparison.put(map_of(request, pool));
    ask_for_tables(comparison);
}

/// Each of a leaf's 32 bits set alone and clear alone, the run asked for after each.
fn leaf_bits(comparison: &mut Comparison, random: &mut Random) {
    let mut tables = vec![0; 1024];
    let leaves = (0..32).flat_map(|bit| [1 << bit, !(1 << bit)]);
    for leaf in leaves.chain([0, u32::MAX, 0x0FF8_0000, 0xF007_FFFF]) {
        let index = random.below(1024) as u32;
        map_over(
            comparison,
            random,
            std::mem::take(&mut tables),
            (index, leaf),
        );
    }
}

/// Maps at the first and last words of runs of several lengths, and past them.
fn ends_of_runs(comparison: &mut Comparison, random: &mut Random) {
    for length in [1024, 2048, 3072, 16384] {
        let mut tables = vec![0; length];
        let length = length as u32;
        for index in [0, 63, length - 1, length, length + 1, u32::MAX] {
            let leaf = random.bits(32);
            map_over(
                comparison,
                random,
                std::mem::take(&mut tables),
                (index, leaf),
            );
        }
    }
}

#[cfg(test)]
mod tests {
    use super::*;
    use reference::check_pool;

    #[test]
    fn a_pool_is_aimed_at_any_pfn() {
        let mut random = Random::new(3);
        for pfn in [0, 1, 63, 64, 4095, 4096, 520_191, 520_192, 524_286, 524_287] {
            for _ in 0..200 {
                let pool = aimed_at(&mut random, pfn);
                assert_eq!(check_pool(&pool), Ok(()));
                assert_eq!(pool.lowest_free(), Some(pfn - pool.first));
            }
        }
    }
}
