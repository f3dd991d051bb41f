//! New pools, takes, gives and the held number, sentence by sentence.

use reference::heap::*;

const LAST_PFN: u32 = 524_287;

/// Sizes around whole numbers of bits, and the ends.
const SIZES: [u32; 8] = [1, 63, 64, 65, 127, 128, 4095, 4096];

fn new(first: u32, size: u32) -> Pool {
    let (done, pool) = new_pool(first, size);
    assert_eq!(done, Ok(()));
    pool
}

/// A pool with these bits, the others 0.
fn with_bits(first: u32, size: u32, bits: &[(usize, u64)]) -> Pool {
    let mut pool = Pool {
        first,
        size,
        bits: [0; 64],
    };
    for &(number, bits) in bits {
        pool.bits[number] = bits;
    }
    pool
}

/// A pool of which every frame is held, bits past its size clear.
fn full(first: u32, size: u32) -> Pool {
    let mut pool = with_bits(first, size, &[]);
    for place in 0..size {
        pool.bits[place as usize / 64] |= 1 << (place % 64);
    }
    pool
}

/// The pfn taken and the pool after it, or the refusal's number and the same pool.
fn taken(pool: Pool) -> Result<(u32, Pool), u32> {
    match take(pool) {
        (Ok(pfn), after) => Ok((pfn, after)),
        (Err(refusal), after) => {
            assert_eq!(after, pool);
            Err(refusal.number())
        }
    }
}

fn given(pool: Pool, pfn: u32) -> Result<Pool, u32> {
    match give(pool, pfn) {
        (Ok(()), after) => Ok(after),
        (Err(refusal), after) => {
            assert_eq!(after, pool);
            Err(refusal.number())
        }
    }
}

fn held_of(pool: &Pool) -> Result<u32, u32> {
    held(pool).map_err(|refusal| refusal.number())
}

#[test]
fn a_new_pool_is_all_free() {
    for (first, size) in [(0, 1), (0, 4096), (100, 65), (LAST_PFN, 1), (520_192, 4096)] {
        let pool = new(first, size);
        assert_eq!(pool, with_bits(first, size, &[]));
        assert_eq!(held_of(&pool), Ok(0));
    }
}

#[test]
fn a_refused_new_pool_is_all_0() {
    let refused = [
        (0, 0),
        (7, 0),
        (0, 4097),
        (7, 4097),
        (0, u32::MAX),
        (LAST_PFN, 2),
        (LAST_PFN + 1, 0),
        (LAST_PFN + 1, 1),
        (520_193, 4096),
        (u32::MAX, 1),
        (u32::MAX, u32::MAX),
        (u32::MAX - 4095, 4096),
    ];
    for (first, size) in refused {
        let (done, pool) = new_pool(first, size);
        assert_eq!(done.map_err(|refusal| refusal.number()), Err(1));
        assert_eq!(pool, Pool::ALL_ZERO, "{first} {size}");
    }
    let zero = Pool {
        first: 0,
        size: 0,
        bits: [0; 64],
    };
    assert_eq!(Pool::ALL_ZERO, zero);
}

#[test]
fn a_pool_that_does_not_fit_refuses_every_call_with_1() {
    for pool in [
        Pool::ALL_ZERO,
        with_bits(0, 4097, &[]),
        with_bits(0, u32::MAX, &[(0, 1)]),
        with_bits(LAST_PFN, 2, &[(0, 3)]),
        with_bits(LAST_PFN + 1, 1, &[(0, 1)]),
        with_bits(u32::MAX, 1, &[(0, 1)]),
        full(520_193, 4096),
    ] {
        assert_eq!(taken(pool), Err(1));
        assert_eq!(given(pool, pool.first), Err(1));
        assert_eq!(given(pool, 0), Err(1));
        assert_eq!(held_of(&pool), Err(1));
    }
}

#[test]
fn takes_go_from_the_first_frame_to_the_last_and_then_are_refused_with_10() {
    for size in SIZES {
        for first in [0, 1000, LAST_PFN + 1 - size] {
            let mut pool = new(first, size);
            for place in 0..size {
                assert_eq!(held_of(&pool), Ok(place));
                let (pfn, after) = taken(pool).unwrap();
                assert_eq!(pfn, first + place);
                pool = after;
            }
            assert_eq!(pool, full(first, size));
            assert_eq!(held_of(&pool), Ok(size));
            assert_eq!(taken(pool), Err(10));
        }
    }
}

#[test]
fn the_last_pfn_is_taken_and_given() {
    let pool = new(LAST_PFN, 1);
    let (pfn, pool) = taken(pool).unwrap();
    assert_eq!(pfn, LAST_PFN);
    assert_eq!(taken(pool), Err(10));
    assert_eq!(given(pool, LAST_PFN + 1), Err(11));
    assert_eq!(given(pool, LAST_PFN), Ok(new(LAST_PFN, 1)));
}

#[test]
fn the_lowest_free_frame_is_taken_wherever_it_lies() {
    for size in SIZES {
        for place in [0, 1, 62, 63, 64, 126, 127, 2000, 4094, 4095] {
            if place >= size {
                continue;
            }
            let held = full(500, size);
            let one_free = held.with_other_bit(place);
            assert_eq!(taken(one_free), Ok((500 + place, held)));
            let others = one_free.with_other_bit(size - 1);
            let lowest = match place == size - 1 {
                true => None,
                false => Some((500 + place, others.with_other_bit(place))),
            };
            assert_eq!(taken(others).ok(), lowest);
        }
    }
}

#[test]
fn a_take_told_by_hand() {
    let pool = with_bits(
        0x100,
        130,
        &[(0, u64::MAX), (1, 0x8000_0000_0000_00FF), (2, 3)],
    );
    let after = with_bits(
        0x100,
        130,
        &[(0, u64::MAX), (1, 0x8000_0000_0000_01FF), (2, 3)],
    );
    assert_eq!(taken(pool), Ok((0x100 + 72, after)));
    assert_eq!(held_of(&pool), Ok(64 + 9 + 2));
    let last = with_bits(0x100, 130, &[(0, u64::MAX), (1, u64::MAX), (2, 1)]);
    let after = with_bits(0x100, 130, &[(0, u64::MAX), (1, u64::MAX), (2, 3)]);
    assert_eq!(taken(last), Ok((0x100 + 129, after)));
    assert_eq!(taken(after), Err(10));
}

/// The bits at and past a size, all set.
fn all_past(size: u32) -> Pool {
    let mut pool = full(0, 4096);
    for place in 0..size {
        pool.bits[place as usize / 64] &= !(1 << (place % 64));
    }
    Pool { size, ..pool }
}

#[test]
fn bits_past_the_size_are_ignored_and_stay() {
    for size in SIZES {
        let junk = all_past(size);
        assert_eq!(held_of(&junk), Ok(0));
        let (pfn, one) = taken(junk).unwrap();
        assert_eq!(pfn, 0);
        let bit_0 = junk.with_other_bit(0);
        assert_eq!((one, held_of(&one)), (bit_0, Ok(1)));
        assert_eq!(given(one, 0), Ok(junk));
        assert_eq!(given(junk, size), Err(11));
        assert_eq!(given(junk, 4096), Err(11));
        let mut all = junk;
        for _ in 0..size {
            all = taken(all).unwrap().1;
        }
        assert_eq!(all.bits, [u64::MAX; 64]);
        assert_eq!((taken(all), held_of(&all)), (Err(10), Ok(size)));
        assert_eq!(taken(full(0, size)), Err(10));
    }
}

#[test]
fn a_give_clears_its_own_bit_alone() {
    for size in SIZES {
        for place in [0, 1, 31, 32, 62, 63, 64, 65, 127, 128, 4094, 4095] {
            if place >= size {
                continue;
            }
            let all = full(9, size);
            let rest = all.with_other_bit(place);
            assert_eq!(given(all, 9 + place), Ok(rest));
            assert_eq!(held_of(&rest), Ok(size - 1));
            assert_eq!(given(rest, 9 + place), Err(11));
            let alone = new(9, size).with_other_bit(place);
            assert_eq!(given(alone, 9 + place), Ok(new(9, size)));
        }
    }
}

#[test]
fn neighbours_are_given_by_themselves() {
    let pool = with_bits(40, 65, &[(0, 1 << 63 | 1 << 61), (1, 1)]);
    assert_eq!(given(pool, 40 + 62), Err(11));
    let (low, high) = ((0, 1 << 61), (0, 1 << 63));
    let middle = with_bits(40, 65, &[low, (1, 1)]);
    assert_eq!(given(pool, 40 + 63), Ok(middle));
    let without_last = with_bits(40, 65, &[(0, low.1 | high.1)]);
    assert_eq!(given(pool, 40 + 64), Ok(without_last));
    assert_eq!(given(without_last, 40 + 64), Err(11));
}

#[test]
fn a_frame_outside_the_pool_is_refused_with_11() {
    let pool = full(1000, 64);
    for pfn in [0, 999, 1064, 1000 + 4096, LAST_PFN, LAST_PFN + 1, u32::MAX] {
        assert_eq!(given(pool, pfn), Err(11), "{pfn}");
    }
    assert!(given(pool, 1000).is_ok());
    assert!(given(pool, 1063).is_ok());
}

#[test]
fn free_and_held_make_the_size_through_takes_and_gives() {
    let mut pool = new(77, 130);
    let mut live = Vec::new();
    for step in 0..2000 {
        if step % 5 < 3 {
            match taken(pool) {
                Ok((pfn, after)) => {
                    let lowest = (77..207).find(|pfn| !live.contains(pfn));
                    assert_eq!(Some(pfn), lowest);
                    live.push(pfn);
                    pool = after;
                }
                Err(number) => assert_eq!((number, live.len()), (10, 130)),
            }
        } else {
            let pfn = live.swap_remove(step * 31 % live.len());
            pool = given(pool, pfn).unwrap();
        }
        assert_eq!(held_of(&pool), Ok(live.len() as u32));
    }
    // The last takes filled the pool; two gives came after them.
    assert_eq!(live.len(), 128);
}
