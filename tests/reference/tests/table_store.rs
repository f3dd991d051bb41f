//! The table store and its sweep, sentence by sentence.

mod common;

use common::*;
use reference::*;

/// PAGE's own leaf as `entry(ID, false)` has it.
const LEAF: u32 = PRESENT | VALID | WE | 7;
/// A word that no walk asks.
const UNUSED: usize = 100;

/// A unit whose slot of the given set, at PAGE's location, holds the number.
fn unit_with(set: usize, number: u64) -> Unit {
    let mut unit = Unit::new();
    unit.words[Unit::own(PAGE)] = LEAF;
    unit.buffer[slot(set, 1)] = number;
    unit
}

fn is_emptied(set: usize, number: u64) -> bool {
    let mut unit = unit_with(set, number);
    let others = Unit::new().buffer;
    let outcome = unit.store(UNUSED, 1);
    let emptied = unit.buffer[slot(set, 1)] == others[slot(set, 1)] && unit.buffer == others;
    assert!(emptied || unit.buffer[slot(set, 1)] == number);
    match outcome {
        Outcome::Done(0) => false,
        Outcome::Done(1) if emptied => true,
        other => panic!("{other:?}"),
    }
}

#[test]
fn an_agreeing_slot_is_kept_with_its_high_bits() {
    assert!(!is_emptied(2, entry(ID, false).pack()));
    assert!(!is_emptied(2, entry(ID, false).pack() | 0xABC << 44));
}

#[test]
fn each_of_the_five_fields_counts() {
    for bit in [0, 18, 19, 20, 21, 22] {
        assert!(is_emptied(1, entry(ID, false).pack() ^ 1 << bit), "{bit}");
    }
}

#[test]
fn an_empty_number_is_empty_in_its_own_set_alone() {
    assert!(!is_emptied(2, Entry::empty(2).pack()));
    assert!(!is_emptied(2, Entry::empty(2).pack() | 1 << 44));
    assert!(is_emptied(2, Entry::empty(1).pack()));
    assert!(is_emptied(0, 0));
}

#[test]
fn page_id_63_is_emptied_even_where_its_walk_gives_the_leaf() {
    let mut unit = Unit::new();
    unit.words[Unit::global(PAGE)] = LEAF;
    unit.buffer[slot(0, 1)] = entry(63, true).pack();
    unit.buffer[slot(1, 1)] = entry(62, true).pack();
    assert_eq!(unit.store(UNUSED, 0), Outcome::Done(1));
    assert_eq!(unit.entry(slot(0, 1)), Entry::empty(0));
    assert_eq!(unit.entry(slot(1, 1)), entry(62, true));
}

#[test]
fn the_stored_page_id_decides_and_not_the_context() {
    let mut unit = unit_with(0, entry(ID, false).pack());
    unit.buffer[slot(1, 1)] = entry(6, false).pack();
    unit.registers.context = 6;
    assert_eq!(unit.store(UNUSED, 0), Outcome::Done(1));
    assert_eq!(unit.entry(slot(0, 1)), entry(ID, false));
    assert_eq!(unit.entry(slot(1, 1)), Entry::empty(1));
}

#[test]
fn the_page_is_told_by_vpn15_and_the_slots_location() {
    let mut unit = unit_with(0, entry(ID, false).pack());
    unit.buffer[slot(0, 2)] = entry(ID, false).pack();
    assert_eq!(unit.store(UNUSED, 0), Outcome::Done(1));
    assert_eq!(unit.entry(slot(0, 2)), Entry::empty(0));
}

#[test]
fn software_bits_do_not_matter() {
    let mut unit = unit_with(0, entry(ID, false).pack());
    assert_eq!(
        unit.store(Unit::own(PAGE), LEAF | 0x1FF << 19),
        Outcome::Done(0)
    );
    assert_eq!(unit.entry(slot(0, 1)), entry(ID, false));
}

#[test]
fn a_store_of_the_value_already_there_sweeps_too() {
    let mut unit = unit_with(0, entry(6, false).pack());
    assert_eq!(unit.store(Unit::own(PAGE), LEAF), Outcome::Done(1));
}

#[test]
fn a_shared_table_empties_the_slots_of_all_that_share_it() {
    let mut unit = unit_with(0, entry(ID, false).pack());
    unit.words[6] = unit.words[ID as usize];
    unit.buffer[slot(1, 1)] = entry(6, false).pack();
    assert_eq!(unit.store(Unit::own(PAGE), 0), Outcome::Done(2));
}

#[test]
fn a_store_is_taken_in_test_mode_and_under_context_63() {
    let mut unit = unit_with(0, entry(6, false).pack());
    unit.registers.test = 1;
    unit.registers.context = 63;
    assert_eq!(unit.store(UNUSED, 0), Outcome::Done(1));
}

#[test]
fn a_global_leaf_that_comes_empties_the_own_one() {
    let mut unit = unit_with(0, entry(ID, false).pack());
    assert_eq!(unit.store(Unit::global(PAGE), LEAF), Outcome::Done(1));
}

#[test]
fn a_refused_store_writes_nothing_and_the_order_is_the_tables() {
    let mut unit = unit_with(0, entry(6, false).pack());
    unit.registers.kseg = 0x10000;
    unit.buffer.push(0);
    unit.words.push(0);
    let mut seen = Vec::new();
    for step in 0..4 {
        let (buffer, words) = (unit.buffer.clone(), unit.words.clone());
        let length = unit.words.len();
        let Outcome::Refused(refusal) = unit.store(length, 1) else {
            panic!("accepted");
        };
        assert_eq!((&unit.buffer, &unit.words), (&buffer, &words));
        seen.push(refusal.number());
        match step {
            0 => unit.registers.kseg = 0xFFFF,
            1 => drop(unit.buffer.pop()),
            2 => drop(unit.words.pop()),
            _ => {}
        }
    }
    assert_eq!(seen, [1, 2, 3, 6]);
    let last = unit.words.len() - 1;
    assert_eq!(unit.store(last, 1), Outcome::Done(1));
    assert_eq!(unit.words[last], 1);
}
