//! The mapping of a frame, sentence by sentence.

mod common;

use common::*;
use reference::heap::*;
use reference::*;

/// A word that no walk asks.
const UNUSED: usize = 100;

/// A pool whose lowest free frame is 0x150.
fn pool() -> Pool {
    let (_, mut pool) = new_pool(0x100, 200);
    pool.bits[0] = u64::MAX;
    pool.bits[1] = 0xFFFF;
    pool
}

/// The outcome and the pfn; the pool goes on.
fn map_at(unit: &mut Unit, pool: &mut Pool, index: usize, leaf: u32) -> (Outcome, u32) {
    let Unit {
        registers,
        buffer,
        words,
    } = unit;
    let (mapping, after) = map(*registers, buffer, words, *pool, index as u32, leaf);
    assert_eq!(
        (mapping.reply.loads, mapping.reply.registers),
        (0, *registers)
    );
    *pool = after;
    (mapping.reply.outcome, mapping.pfn)
}

#[test]
fn the_word_has_present_the_leafs_upper_bits_and_the_frame() {
    for (leaf, word) in [
        (0, 0x8000_0150),
        (0xFFFF_FFFF, 0xFFF8_0150),
        (0x7FFF_FFFF, 0xFFF8_0150),
        (0x0007_FFFF, 0x8000_0150),
        (0x0008_0000, 0x8008_0150),
        (0x4000_0000, 0xC000_0150),
        (0x2000_0000, 0xA000_0150),
        (0x1000_0000, 0x9000_0150),
        (0x0FF8_0007, 0x8FF8_0150),
        (0x8000_0000, 0x8000_0150),
        (0xD000_0123, 0xD000_0150),
    ] {
        let mut unit = Unit::new();
        let before = unit.words.clone();
        let mut pool = pool();
        let after = pool.with_other_bit(80);
        let outcome = map_at(&mut unit, &mut pool, UNUSED, leaf);
        assert_eq!(outcome, (Outcome::Done(0), 0x150));
        assert_eq!(unit.words[UNUSED], word, "{leaf:X}");
        unit.words[UNUSED] = before[UNUSED];
        assert_eq!((&unit.words, pool), (&before, after));
        assert_eq!(mapped_word(leaf, 0x150), word);
    }
    assert_eq!(mapped_word(0x0007_0000, 524_287), 0x8007_FFFF);
}

#[test]
fn a_mapped_page_answers_at_its_frame() {
    let mut unit = Unit::new();
    let mut pool = pool();
    let mapped = map_at(&mut unit, &mut pool, Unit::own(PAGE), VALID | WE);
    assert_eq!(mapped, (Outcome::Done(0), 0x150));
    assert_eq!(unit.access(read(PAGE, 2)), (Outcome::At(0x150 * 8192), 1));
    assert_eq!(unit.access(read(PAGE, 2)), (Outcome::At(0x150 * 8192), 0));
    let mapped = map_at(&mut unit, &mut pool, Unit::own(PAGE), VALID | WE);
    assert_eq!(mapped, (Outcome::Done(1), 0x151));
    assert_eq!(unit.access(read(PAGE, 3)), (Outcome::At(0x151 * 8192), 1));
}

#[test]
fn the_same_frame_mapped_again_keeps_the_slot() {
    let mut unit = Unit::new();
    let mut pool = pool();
    map_at(&mut unit, &mut pool, Unit::own(PAGE), VALID);
    unit.access(read(PAGE, 0));
    pool = give(pool, 0x150).1;
    let leaf = VALID | 0x1FF << 19;
    let again = map_at(&mut unit, &mut pool, Unit::own(PAGE), leaf);
    assert_eq!(again, (Outcome::Done(0), 0x150));
    assert_eq!(unit.access(read(PAGE, 0)), (Outcome::At(0x150 * 8192), 0));
    pool = give(pool, 0x150).1;
    let with_kernel = map_at(&mut unit, &mut pool, Unit::own(PAGE), VALID | KERNEL);
    assert_eq!(with_kernel, (Outcome::Done(1), 0x150));
}

#[test]
fn a_root_or_directory_word_may_be_mapped_over() {
    let mut unit = Unit::new();
    unit.words[Unit::own(PAGE)] = PRESENT | VALID | WE | 7;
    unit.buffer[slot(1, 1)] = entry(ID, false).pack();
    let mut pool = pool();
    assert_eq!(
        map_at(&mut unit, &mut pool, 512, 0),
        (Outcome::Done(1), 0x150)
    );
    assert_eq!(unit.words[512], 0x8000_0150);
    assert_eq!(unit.access(read(PAGE, 0)), (Outcome::Fault(0x220), 0));
    assert_eq!(
        map_at(&mut unit, &mut pool, ID as usize, 0),
        (Outcome::Done(0), 0x151)
    );
}

#[test]
fn the_last_word_and_the_last_pfn_are_mapped() {
    let mut unit = Unit::new();
    let (_, mut pool) = new_pool(524_287, 1);
    let last = unit.words.len() - 1;
    let mapped = map_at(&mut unit, &mut pool, last, 0);
    assert_eq!(mapped, (Outcome::Done(0), 524_287));
    assert_eq!(unit.words[last], 0x8007_FFFF);
    let (buffer, words) = (unit.buffer.clone(), unit.words.clone());
    let full = pool;
    let refused = map_at(&mut unit, &mut pool, last, 0xFFFF_FFFF);
    assert_eq!(refused, (Outcome::Refused(Refusal::PoolFull), 0));
    assert_eq!((unit.buffer, unit.words, pool), (buffer, words, full));
}

#[test]
fn a_mapping_is_taken_in_test_mode_and_under_context_63() {
    let mut unit = Unit::new();
    unit.registers.test = 1;
    unit.registers.context = 63;
    let mut pool = pool();
    assert_eq!(
        map_at(&mut unit, &mut pool, UNUSED, 0),
        (Outcome::Done(0), 0x150)
    );
}

/// The grounds that can come together, in their order: the registers, the pool, the buffer, the
/// tables, the index, and every frame held.
const NUMBERS: [u32; 6] = [1, 1, 2, 3, 6, 10];

#[test]
fn every_set_of_grounds_is_refused_with_the_first_and_touches_nothing() {
    for set in 1..1 << NUMBERS.len() {
        let has = |ground: usize| set >> ground & 1 == 1;
        let mut unit = Unit::new();
        let mut pool = pool();
        unit.buffer[slot(0, 1)] = entry(6, false).pack();
        if has(0) {
            unit.registers.kseg = 0x10000;
        }
        if has(1) {
            pool.first = 524_288 - 199;
        }
        if has(2) {
            unit.buffer.pop();
        }
        if has(3) {
            unit.words.push(0);
        }
        let index = match has(4) {
            true => unit.words.len(),
            false => UNUSED,
        };
        if has(5) {
            pool.bits = [u64::MAX; 64];
        }
        let before = (unit.buffer.clone(), unit.words.clone(), pool);
        let (outcome, pfn) = map_at(&mut unit, &mut pool, index, 0xFFFF_FFFF);
        let Outcome::Refused(refusal) = outcome else {
            panic!("{set:b} is accepted");
        };
        let first = (0..NUMBERS.len()).find(|&ground| has(ground)).unwrap();
        assert_eq!((refusal.number(), pfn), (NUMBERS[first], 0), "{set:b}");
        assert_eq!((unit.buffer, unit.words, pool), before, "{set:b}");
    }
}

#[test]
fn a_pool_of_no_frame_or_too_many_is_refused_with_1() {
    for size in [0, 4097, u32::MAX] {
        let mut unit = Unit::new();
        let mut pool = Pool {
            size,
            ..Pool::ALL_ZERO
        };
        assert_eq!(
            map_at(&mut unit, &mut pool, UNUSED, 0),
            (Outcome::Refused(Refusal::Pool), 0)
        );
    }
}
