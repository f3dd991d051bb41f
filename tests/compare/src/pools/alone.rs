//! New pools, takes, gives and held numbers, each by itself.

use super::comparison::Comparison;
use super::shapes::{self, SIZES};
use crate::cases::state;
use crate::protocol::{PoolCall, Request};
use crate::put::Put;
use crate::random::Random;
use reference::heap::{Pool, MOST_FRAMES, PFNS};
use reference::Registers;

/// The call, mostly with nothing beside the pool, sometimes with registers and a buffer, which have
/// to come back whatever they are.
fn request(random: &mut Random, call: PoolCall, pool: Pool) -> Request {
    if !random.one_in(16) {
        return Request::on_pool(call, Registers::default(), pool, Vec::new());
    }
    let good = state::registers(random);
    let spoilt = state::spoil(random, good);
    let registers = random.pick(&[good, spoilt]);
    let length = random.pick(&state::LENGTHS);
    Request::on_pool(call, registers, pool, state::buffer(random, length))
}

fn put(comparison: &mut Comparison, random: &mut Random, call: PoolCall, pool: Pool) {
    comparison.put(request(random, call, pool));
}

pub fn edges(comparison: &mut Comparison, random: &mut Random) {
    new_pools(comparison, random);
    on_a_refused_pool(comparison, random);
    misfits(comparison, random);
    comparison.restart();
    takes_of_every_place(comparison, random);
    takes_around_the_size(comparison, random);
    comparison.restart();
    gives_of_every_place(comparison, random);
    gives_outside(comparison, random);
    comparison.restart();
    single_bits(comparison, random);
}

/// Every first pfn with every size, beside any pool.
fn new_pools(comparison: &mut Comparison, random: &mut Random) {
    for (first, size) in shapes::firsts_and_sizes() {
        let beside = match random.below(3) {
            0 => Pool::ALL_ZERO,
            _ => shapes::any(random),
        };
        put(comparison, random, PoolCall::New { first, size }, beside);
    }
}

/// Every call on the pool, all 0, that a refused new pool is.
fn on_a_refused_pool(comparison: &mut Comparison, random: &mut Random) {
    for call in [PoolCall::Take, PoolCall::Held] {
        put(comparison, random, call, Pool::ALL_ZERO);
    }
    for pfn in [0, 1, u32::MAX] {
        put(comparison, random, PoolCall::Give { pfn }, Pool::ALL_ZERO);
    }
}

/// Every first pfn with every size, and pools that do not fit, handed to every call.
fn misfits(comparison: &mut Comparison, random: &mut Random) {
    for (first, size) in shapes::firsts_and_sizes() {
        let bits = shapes::fitting(random).bits;
        let pool = Pool { first, size, bits };
        let pfn = any_pfn(random, &pool);
        for call in [PoolCall::Take, PoolCall::Give { pfn }, PoolCall::Held] {
            put(comparison, random, call, pool);
        }
    }
    for _ in 0..1000 {
        let good = shapes::fitting(random);
        let pool = shapes::spoil(random, good);
        let call = any_call(random, &pool);
        put(comparison, random, call, pool);
    }
}

/// Every place of the largest pools is the lowest free one, and those of small pools too.
fn takes_of_every_place(comparison: &mut Comparison, random: &mut Random) {
    for size in [1, 2, 63, 64, 65, 127, 128, 129, 4095, 4096] {
        for place in 0..size {
            let pool = shapes::free_from(random, size, place);
            put(comparison, random, PoolCall::Take, pool);
        }
    }
}

/// Every frame held but the last, and every frame held, with every kind of bits past the size.
fn takes_around_the_size(comparison: &mut Comparison, random: &mut Random) {
    for size in SIZES {
        for _ in 0..12 {
            let full = shapes::full(random, size);
            let pools = [full, full.with_other_bit(size - 1)];
            for pool in pools {
                put(comparison, random, PoolCall::Take, pool);
                put(comparison, random, PoolCall::Held, pool);
            }
        }
    }
}

/// Every place of the largest pools, held or not, among any others.
fn gives_of_every_place(comparison: &mut Comparison, random: &mut Random) {
    for size in [1, 2, 63, 64, 65, 127, 128, 129, 4095, 4096] {
        for place in 0..size {
            let mut pool = match random.below(3) {
                0 => shapes::full(random, size),
                1 => shapes::with_held(random, size, vec![false; size as usize]),
                _ => shapes::free_from(random, size, place),
            };
            shapes::set(&mut pool, place, !random.one_in(8));
            let pfn = pool.first + place;
            put(comparison, random, PoolCall::Give { pfn }, pool);
        }
    }
}

/// Pfns around the pool's ends and far from it, of pools with every frame held and with any.
fn gives_outside(comparison: &mut Comparison, random: &mut Random) {
    for size in SIZES {
        for _ in 0..8 {
            let full = shapes::full(random, size);
            let any = shapes::fitting(random);
            for pool in [full, any] {
                for pfn in pfns_around(random, &pool) {
                    put(comparison, random, PoolCall::Give { pfn }, pool);
                }
            }
        }
    }
}

fn pfns_around(random: &mut Random, pool: &Pool) -> Vec<u32> {
    let (first, end) = (pool.first, pool.first + pool.size);
    let inside = first + random.below(pool.size as usize) as u32;
    let past = end.next_multiple_of(64);
    vec![
        first.wrapping_sub(1),
        first,
        end - 1,
        end,
        end + 1,
        past,
        first + MOST_FRAMES - 1,
        first + MOST_FRAMES,
        inside + MOST_FRAMES,
        inside.wrapping_sub(MOST_FRAMES),
        inside + PFNS,
        inside | 1 << 31,
        inside - first,
        PFNS - 1,
        PFNS,
        u32::MAX,
        random.bits(19),
        random.bits(32),
    ]
}

/// One bit set of the 4,096, within the size or past it, or one clear.
fn single_bits(comparison: &mut Comparison, random: &mut Random) {
    for place in 0..MOST_FRAMES {
        let near = [place, place + 1, place + 2, MOST_FRAMES];
        let size = match random.one_in(2) {
            true => random.pick(&near).clamp(1, MOST_FRAMES),
            false => shapes::size(random),
        };
        let mut pool = Pool {
            first: shapes::first(random, size),
            size,
            bits: [random.pick(&[0, u64::MAX]); 64],
        };
        pool = pool.with_other_bit(place);
        put(comparison, random, PoolCall::Held, pool);
        let call = random.pick(&[
            PoolCall::Take,
            PoolCall::Give {
                pfn: pool.first + place,
            },
        ]);
        put(comparison, random, call, pool);
    }
}

/// A take, a give or the held number.
fn any_call(random: &mut Random, pool: &Pool) -> PoolCall {
    match random.below(3) {
        0 => PoolCall::Take,
        1 => PoolCall::Give {
            pfn: any_pfn(random, pool),
        },
        _ => PoolCall::Held,
    }
}

/// Mostly that of a held frame, as far as the pool has some.
fn any_pfn(random: &mut Random, pool: &Pool) -> u32 {
    let frames = pool.size.clamp(1, MOST_FRAMES);
    let from = random.below(frames as usize) as u32;
    let held = (from..frames)
        .chain(0..from)
        .find(|&place| pool.is_held(place));
    let place = match random.below(8) {
        0 => from,
        1 => random.pick(&[u32::MAX, frames, frames + 1, from + MOST_FRAMES]),
        2 => return random.pick(&[from, from + PFNS, u32::MAX]),
        _ => held.unwrap_or(from),
    };
    pool.first.wrapping_add(place)
}

/// Any call on any pool, until the total is reached.
pub fn at_random(comparison: &mut Comparison, random: &mut Random, total: usize) {
    while comparison.wants_more(total) {
        comparison.may_restart();
        if random.one_in(32) {
            let size = shapes::size(random);
            let good = (shapes::first(random, size), size);
            let misfit = shapes::misfit(random);
            let (first, size) = random.pick(&[good, misfit]);
            let beside = shapes::any(random);
            put(comparison, random, PoolCall::New { first, size }, beside);
            continue;
        }
        let pool = shapes::any(random);
        let call = any_call(random, &pool);
        put(comparison, random, call, pool);
    }
}
