//! A pass that is accepted, sentence by sentence.

mod common;

use common::*;
use reference::collector::*;
use reference::heap::*;
use reference::*;

const FIRST: u32 = 0x100;
const FRAMES: u32 = 200;

/// Every frame is held.
fn pool() -> Pool {
    let (_, mut pool) = new_pool(FIRST, FRAMES);
    pool.bits = [u64::MAX; 64];
    pool
}

/// The slots emptied and the frames given back; the pool goes on.
fn pass(unit: &mut Unit, pool: &mut Pool, id: u32) -> (Outcome, u32) {
    let Unit {
        registers,
        buffer,
        words,
    } = unit;
    let (pass, after) = collect(*registers, buffer, words, *pool, id);
    assert_eq!((pass.reply.loads, pass.reply.registers), (0, *registers));
    *pool = after;
    (pass.reply.outcome, pass.given)
}

#[test]
fn valid_1_becomes_0_and_valid_0_loses_its_present_bit() {
    for (before, aged, gone) in [
        (0xC000_0150, 0x8000_0150, 0x0000_0150),
        (0xFFF8_0150, 0xBFF8_0150, 0x3FF8_0150),
        (0xD000_0100, 0x9000_0100, 0x1000_0100),
        (0xE008_01C7, 0xA008_01C7, 0x2008_01C7),
    ] {
        let mut unit = Unit::new();
        let mut pool = pool();
        let place = before % (1 << 19) - FIRST;
        unit.words[Unit::own(PAGE)] = before;
        assert_eq!(pass(&mut unit, &mut pool, ID), (Outcome::Done(0), 0));
        assert_eq!(unit.words[Unit::own(PAGE)], aged);
        assert!(pool.is_held(place));
        assert_eq!(pass(&mut unit, &mut pool, ID), (Outcome::Done(0), 1));
        assert_eq!(unit.words[Unit::own(PAGE)], gone);
        assert!(!pool.is_held(place));
        let left = (unit.words.clone(), pool);
        assert_eq!(pass(&mut unit, &mut pool, ID), (Outcome::Done(0), 0));
        assert_eq!((unit.words, pool), left);
    }
}

#[test]
fn pages_outside_the_pool_stay() {
    let mut unit = Unit::new();
    let mut pool = pool();
    let leaves = [FIRST - 1, FIRST, FIRST + FRAMES - 1, FIRST + FRAMES];
    for (page, pfn) in (0..).zip(leaves) {
        unit.words[Unit::own(page)] = PRESENT | pfn;
    }
    assert_eq!(pass(&mut unit, &mut pool, ID), (Outcome::Done(0), 2));
    let stay = (0..4).map(|page| unit.words[Unit::own(page)] & PRESENT != 0);
    assert_eq!(stay.collect::<Vec<bool>>(), [true, false, false, true]);
}

#[test]
fn every_store_is_swept() {
    let mut unit = Unit::new();
    let mut pool = pool();
    for page in [PAGE, PAGE + 1] {
        unit.words[Unit::own(page)] = PRESENT | VALID | WE | (FIRST + page);
        unit.access(read(page, 0));
    }
    assert_eq!(pass(&mut unit, &mut pool, ID), (Outcome::Done(2), 0));
    for page in [PAGE, PAGE + 1] {
        assert_eq!(unit.access(read(page, 0)), (Outcome::Fault(8), 1));
    }
    assert_eq!(pass(&mut unit, &mut pool, ID), (Outcome::Done(2), 2));
    assert_eq!(unit.access(read(PAGE, 0)), (Outcome::Fault(0x310), 0));
}

/// An entry that says of a page what its aged leaf will say.
fn aged_entry(page: u32) -> u64 {
    let entry = Entry {
        vpn15: vpn15(page),
        valid: false,
        pfn: FIRST + page,
        ..entry(ID, false)
    };
    entry.pack()
}

#[test]
fn the_lowest_page_is_first() {
    let mut unit = Unit::new();
    let mut pool = pool();
    for page in [0x21, 0x35] {
        unit.words[Unit::own(page)] = PRESENT | VALID | WE | (FIRST + page);
    }
    let slots = [slot(2, 1), slot(1, 5)];
    unit.buffer[slots[0]] = aged_entry(0x21);
    unit.buffer[slots[1]] = aged_entry(0x35);
    assert_eq!(pass(&mut unit, &mut pool, ID), (Outcome::Done(1), 0));
    assert_eq!(unit.buffer[slots[0]], aged_entry(0x21));
    assert_eq!(unit.entry(slots[1]), Entry::empty(1));
}

#[test]
fn the_own_tree_is_visited_under_a_global_leaf() {
    let mut unit = Unit::new();
    let mut pool = pool();
    unit.words[Unit::own(PAGE)] = PRESENT | FIRST;
    let global = PRESENT | VALID | (FIRST + 1);
    unit.words[Unit::global(PAGE)] = global;
    assert_eq!(pass(&mut unit, &mut pool, ID), (Outcome::Done(0), 1));
    assert_eq!(unit.words[Unit::own(PAGE)], FIRST);
    assert_eq!(unit.words[Unit::global(PAGE)], global);
}

#[test]
fn an_absent_root_passes_with_no_sweep() {
    let mut unit = Unit::new();
    let mut pool = pool();
    unit.words[7] = 0x7FFF_FFFF;
    unit.buffer.fill(u64::MAX);
    let before = (unit.buffer.clone(), unit.words.clone(), pool);
    assert_eq!(pass(&mut unit, &mut pool, 7), (Outcome::Done(0), 0));
    assert_eq!((unit.buffer, unit.words, pool), before);
}

#[test]
fn context_and_test_mode_are_not_looked_at() {
    for (context, test) in [(0, 0), (63, 0), (6, 1), (63, 1)] {
        let mut unit = Unit::new();
        let mut pool = pool();
        unit.registers.context = context;
        unit.registers.test = test;
        unit.words[Unit::own(PAGE)] = PRESENT | FIRST;
        assert_eq!(pass(&mut unit, &mut pool, ID), (Outcome::Done(0), 1));
    }
}

#[test]
fn first_and_last_pages_and_frames_are_visited() {
    let mut unit = Unit::new();
    let (_, mut pool) = new_pool(524_286, 2);
    pool.bits[0] = 3;
    unit.words[512 + 511] = PRESENT | 3;
    unit.words[GLOBAL_ROOT] = 0;
    unit.words[1024] = PRESENT | 524_287;
    unit.words[4095] = PRESENT | 524_286;
    assert_eq!(pass(&mut unit, &mut pool, ID), (Outcome::Done(0), 2));
    assert_eq!((unit.words[1024], unit.words[4095]), (524_287, 524_286));
    assert_eq!(pool, new_pool(524_286, 2).1);
}
