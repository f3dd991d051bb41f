//! Pools of all kinds: those that fit and those that do not, with any of their frames held.

use crate::random::Random;
use reference::heap::{Pool, BIT_NUMBERS, MOST_FRAMES, PFNS};

/// Sizes at and around whole numbers of bits, and both ends.
pub const SIZES: [u32; 19] = [
    1, 2, 3, 31, 32, 62, 63, 64, 65, 66, 127, 128, 129, 4031, 4032, 4033, 4094, 4095, 4096,
];

/// First pfns at and around the ends, some of them small once cut to fewer bits.
const FIRSTS: [u32; 17] = [
    0,
    1,
    64,
    520_191,
    520_192,
    520_193,
    524_223,
    524_224,
    524_225,
    524_286,
    524_287,
    524_288,
    524_289,
    1 << 20,
    1 << 31,
    0xFFFF_F000,
    u32::MAX,
];

/// Sizes that no pool has, some of them small once cut to fewer bits.
const MORE_SIZES: [u32; 9] = [
    0,
    4097,
    4098,
    4160,
    8192,
    65537,
    1 << 31,
    0xFFFF_F001,
    u32::MAX,
];

/// Every first pfn with every size, and with each size those at which the pool ends at the last
/// pfn, one before it and one past it.
pub fn firsts_and_sizes() -> Vec<(u32, u32)> {
    let mut all = Vec::new();
    for size in SIZES.into_iter().chain(MORE_SIZES) {
        let last = PFNS.wrapping_sub(size);
        let ends = [last.wrapping_sub(1), last, last.wrapping_add(1)];
        all.extend(FIRSTS.into_iter().chain(ends).map(|first| (first, size)));
    }
    all
}

/// A pool that fits, with any of its frames held.
pub fn fitting(random: &mut Random) -> Pool {
    let size = size(random);
    let held = any_held(random, size);
    with_held(random, size, held)
}

/// A pool that fits, of a size, with frames held by place. The bits past the size are as they come.
pub fn with_held(random: &mut Random, size: u32, held: Vec<bool>) -> Pool {
    let mut pool = Pool {
        first: first(random, size),
        size,
        bits: past(random),
    };
    for (place, held) in (0..).zip(held) {
        set(&mut pool, place, held);
    }
    pool
}

/// Every frame below the place held, that one free, any above it held.
pub fn free_from(random: &mut Random, size: u32, place: u32) -> Pool {
    let one_in = random.pick(&[1, 2, 2, 16]);
    let held = (0..size)
        .map(|other| other < place || other > place && random.one_in(one_in))
        .collect();
    with_held(random, size, held)
}

pub fn full(random: &mut Random, size: u32) -> Pool {
    with_held(random, size, vec![true; size as usize])
}

pub fn set(pool: &mut Pool, place: u32, held: bool) {
    if pool.is_held(place) != held {
        *pool = pool.with_other_bit(place);
    }
}

pub fn size(random: &mut Random) -> u32 {
    match random.below(8) {
        0 => 1 + random.bits(2),
        1..=3 => random.pick(&SIZES),
        4 => 64 * (1 + random.bits(6)),
        5 => 1 + random.bits(7),
        _ => 1 + random.bits(12),
    }
}

/// The first pfn of a pool of this size: 0, a low one, any, or so that it ends at the last pfn.
pub fn first(random: &mut Random, size: u32) -> u32 {
    let last = PFNS - size;
    match random.below(6) {
        0 => 0,
        1 => random.bits(4),
        2 => last,
        3 => last - random.bits(2),
        _ => random.below(last as usize + 1) as u32,
    }
}

/// Bits of which those past a size are left: none, all, or any.
fn past(random: &mut Random) -> [u64; BIT_NUMBERS] {
    match random.below(3) {
        0 => [0; BIT_NUMBERS],
        1 => [u64::MAX; BIT_NUMBERS],
        _ => std::array::from_fn(|_| random.bits64()),
    }
}

/// None, all, nearly none, nearly all, the lowest ones and some above them, or any.
fn any_held(random: &mut Random, size: u32) -> Vec<bool> {
    let frames = size as usize;
    let lowest = random.below(frames + 1);
    match random.below(8) {
        0 => vec![false; frames],
        1 => vec![true; frames],
        2 => with_others(random, vec![false; frames]),
        3 => with_others(random, vec![true; frames]),
        4 | 5 => {
            let one_in = random.pick(&[2, 16, frames]);
            (0..frames)
                .map(|place| place < lowest || random.one_in(one_in))
                .collect()
        }
        _ => (0..frames).map(|_| random.one_in(2)).collect(),
    }
}

/// A few of them turned over.
fn with_others(random: &mut Random, mut held: Vec<bool>) -> Vec<bool> {
    for _ in 0..=random.below(3) {
        let place = random.below(held.len());
        held[place] ^= true;
    }
    held
}

/// First pfns and sizes that do not fit together, some of which would once cut to fewer bits.
pub fn misfit(random: &mut Random) -> (u32, u32) {
    let size = size(random);
    let far = random.bits(32) | 1 << 31;
    match random.below(12) {
        0 => (first(random, size), 0),
        1 => (PFNS + random.bits(2), 0),
        2 => (first(random, MOST_FRAMES + 1), MOST_FRAMES + 1),
        3 => (
            random.bits(18),
            random.pick(&[4098, 8192, 8256, 65536 + size]),
        ),
        4 => (PFNS - size + 1, size),
        5 => (PFNS - random.below(size as usize) as u32, size),
        6 => (PFNS + random.bits(2), size),
        7 => (first(random, size) | 1 << (19 + random.below(13)), size),
        8 => (0u32.wrapping_sub(size), size),
        9 => (u32::MAX - random.bits(2), size),
        10 => (
            PFNS - 4096 + random.bits(12),
            random.pick(&[4097, far, u32::MAX]),
        ),
        _ => (far, random.pick(&[0, 4097, far, far.wrapping_neg()])),
    }
}

/// The pool with a first pfn and a size that do not fit.
pub fn spoil(random: &mut Random, pool: Pool) -> Pool {
    let (first, size) = misfit(random);
    let keeps_size = random.one_in(2) && pool.size > 0;
    match keeps_size {
        true => Pool {
            first: PFNS - random.below(pool.size as usize) as u32,
            ..pool
        },
        false => Pool {
            first,
            size,
            ..pool
        },
    }
}

/// A pool that fits or, seldom, one that does not.
pub fn any(random: &mut Random) -> Pool {
    let pool = fitting(random);
    match random.one_in(8) {
        true => spoil(random, pool),
        false => pool,
    }
}

#[cfg(test)]
mod tests {
    use super::*;
    use reference::check_pool;

    #[test]
    fn pools_fit_or_do_not_as_they_are_asked_for() {
        let mut random = Random::new(1);
        for _ in 0..20_000 {
            let pool = fitting(&mut random);
            assert_eq!(check_pool(&pool), Ok(()));
            assert!(check_pool(&spoil(&mut random, pool)).is_err());
            let (first, size) = misfit(&mut random);
            let pool = Pool {
                first,
                size,
                ..pool
            };
            assert!(check_pool(&pool).is_err(), "{first} {size}");
        }
    }

    #[test]
    fn the_chosen_frame_is_the_lowest_free_one() {
        let mut random = Random::new(2);
        for size in SIZES {
            for place in [0, size / 2, size - 1] {
                let pool = free_from(&mut random, size, place);
                assert_eq!(pool.lowest_free(), Some(place));
            }
            assert_eq!(full(&mut random, size).lowest_free(), None);
        }
    }
}
