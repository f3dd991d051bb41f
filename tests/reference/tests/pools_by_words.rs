//! The calls on a lent pool against those that go from frame to frame, on pools of all kinds.

mod common;

use common::numbers::Numbers;
use common::Unit;
use reference::heap::*;
use reference::*;

/// Sizes and firsts around every edge, some of which do not fit.
fn pool(numbers: &mut Numbers) -> Pool {
    let size = match numbers.below(8) {
        0 => [0, 1, 2, 4095, 4096, 4097, 1 << 31, u32::MAX][numbers.below(8) as usize],
        1..=3 => 64 * (1 + numbers.below(64)) + numbers.below(3) - 1,
        4 => 1 + numbers.below(130),
        _ => 1 + numbers.below(4096),
    };
    let first = match numbers.below(6) {
        0 => 0,
        1 => 524_288u32.wrapping_sub(size),
        2 => 524_289u32.wrapping_sub(size),
        3 => [u32::MAX, 524_287, 524_288, 0u32.wrapping_sub(size)][numbers.below(4) as usize],
        _ => numbers.below(520_000),
    };
    let mut pool = Pool {
        first,
        size,
        bits: [u64::MAX; 64],
    };
    match numbers.below(4) {
        0 => pool.bits = [0; 64],
        1 => pool.bits.fill_with(|| numbers.next()),
        2 => {}
        _ => {
            for _ in 0..=numbers.below(4) {
                pool.bits[numbers.below(64) as usize] &= !(1 << numbers.below(64));
            }
        }
    }
    if numbers.below(2) == 0 {
        let junk = numbers.next();
        for place in size.min(4096)..4096 {
            let number = &mut pool.bits[place as usize / 64];
            *number = *number & !(1 << (place % 64)) | junk & 1 << (place % 64);
        }
    }
    pool
}

/// A pfn in the pool, around its ends, or anywhere.
fn pfn(numbers: &mut Numbers, pool: &Pool) -> u32 {
    let inside = numbers.below(pool.size.max(1));
    let ends = [u32::MAX, 0, pool.size, pool.size.wrapping_add(1)];
    let place = match numbers.below(4) {
        0 => ends[numbers.below(4) as usize],
        1 => numbers.next() as u32,
        _ => inside,
    };
    pool.first.wrapping_add(place)
}

#[test]
fn both_ways_answer_and_leave_the_same() {
    let mut numbers = Numbers(203);
    let mut unit = Unit::new();
    for _ in 0..20_000 {
        let before = pool(&mut numbers);

        let (taken, after) = take(before);
        let mut lent = before;
        assert_eq!(by_words::take(&mut lent), taken);
        assert_eq!(lent, after);

        let pfn = pfn(&mut numbers, &before);
        let (given, after) = give(before, pfn);
        let mut lent = before;
        assert_eq!(by_words::give(&mut lent, pfn), given);
        assert_eq!(lent, after);

        assert_eq!(by_words::held(&before), held(&before));

        let (index, leaf) = (numbers.below(4100), numbers.next() as u32);
        let (mut buffer, mut words) = (unit.buffer.clone(), unit.words.clone());
        let registers = unit.registers;
        let (mapping, after) = map(registers, &mut buffer, &mut words, before, index, leaf);
        let mut lent = before;
        let Unit {
            buffer: other_buffer,
            words: other_words,
            ..
        } = &mut unit;
        let by_words = by_words::map(registers, other_buffer, other_words, &mut lent, index, leaf);
        assert_eq!((by_words, lent), (mapping, after));
        assert_eq!((&unit.buffer, &unit.words), (&buffer, &words));
    }
}

#[test]
fn every_place_of_every_size_near_a_whole_number_is_found() {
    for size in [
        1, 2, 63, 64, 65, 127, 128, 129, 4031, 4032, 4033, 4095, 4096,
    ] {
        for place in 0..4096 {
            let one_free = Pool {
                first: 10,
                size,
                bits: [u64::MAX; 64],
            }
            .with_other_bit(place);
            let mut lent = one_free;
            let (taken, after) = take(one_free);
            assert_eq!(by_words::take(&mut lent), taken, "{size} {place}");
            assert_eq!(lent, after);
            assert_eq!(by_words::held(&one_free), held(&one_free));
            let alone = Pool {
                bits: one_free.bits.map(|bits| !bits),
                ..one_free
            };
            assert_eq!(by_words::held(&alone), Ok(u32::from(place < size)));
            assert_eq!(held(&alone), Ok(u32::from(place < size)));
        }
    }
}

#[test]
fn a_refused_lent_pool_stays() {
    let mut pool = Pool {
        first: 0,
        size: 64,
        bits: [u64::MAX; 64],
    };
    let before = pool;
    assert_eq!(by_words::take(&mut pool), Err(Refusal::PoolFull));
    assert_eq!(by_words::give(&mut pool, 64), Err(Refusal::NotHeld));
    assert_eq!(pool, before);
}
