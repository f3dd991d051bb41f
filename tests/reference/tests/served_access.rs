//! The served access and its load, sentence by sentence.

mod common;

use common::*;
use reference::*;

#[test]
fn a_good_second_try_leaves_the_first_trys_miss_and_selects_the_loaded_slot() {
    let mut unit = Unit::new();
    unit.words[Unit::own(PAGE)] = PRESENT | VALID | 7;
    unit.registers.cause = 9;
    let before = unit.registers;
    let write = Access {
        write: true,
        ..read(PAGE, 2)
    };
    assert_eq!(unit.access(write), (Outcome::At(7 * 8192), 1));
    let after = Registers {
        tlb_hi: PAGE * 64 + ID,
        cause: 8 * 2 + 1,
        select: slot(2, 1) as u32,
        ..before
    };
    assert_eq!(unit.registers, after);
    assert_eq!(unit.access(read(PAGE, 0)), (Outcome::At(7 * 8192), 0));
    assert_eq!(unit.registers, after);
}

#[test]
fn a_second_try_with_one_hit_leaves_its_own_exception() {
    let mut unit = Unit::new();
    unit.words[Unit::own(PAGE)] = PRESENT | KERNEL | 7;
    unit.registers.ctrl = 7;
    let access = Access {
        user: true,
        write: true,
        ..read(PAGE, 3)
    };
    assert_eq!(unit.access(access), (Outcome::Fault(7), 1));
    assert_eq!(unit.registers.cause, 7 * 2 + 1);
    assert_eq!(unit.registers.select, slot(3, 1) as u32);
}

#[test]
fn a_second_try_that_misses_selects_by_the_draw() {
    let mut unit = Unit::new();
    unit.words[Unit::own(PAGE)] = PRESENT | 7;
    assert_eq!(unit.access(read(PAGE, 1)), (Outcome::Fault(8), 1));
    assert_eq!(unit.access(read(PAGE, 2)), (Outcome::Fault(8), 1));
    assert_eq!(unit.registers.select, slot(2, 1) as u32);
    assert_eq!(unit.registers.cause, 16);
    assert_eq!(unit.entry(slot(1, 1)).pfn, 7);
    assert_eq!(unit.entry(slot(2, 1)), Entry::empty(2));
    unit.registers.ctrl = 4;
    assert_eq!(unit.access(read(PAGE, 0)), (Outcome::Fault(4), 0));
}

#[test]
fn absent_and_broken_leave_the_registers_of_the_first_try() {
    for (word, fault) in [(0x7FFF_FFFF, 0x210), (PRESENT, 0x220)] {
        let mut unit = Unit::new();
        unit.words[512] = word;
        let buffer = unit.buffer.clone();
        assert_eq!(unit.access(read(PAGE, 3)), (Outcome::Fault(fault), 0));
        assert_eq!(unit.registers.select, slot(3, 1) as u32);
        assert_eq!(unit.registers.cause, 16);
        assert_eq!(unit.buffer, buffer);
    }
}

#[test]
fn a_broken_global_tree_hides_an_own_leaf() {
    let mut unit = Unit::new();
    unit.words[Unit::own(PAGE)] = PRESENT | VALID | 7;
    unit.words[2048] = PRESENT | 4;
    assert_eq!(unit.access(read(PAGE, 0)), (Outcome::Fault(0x1220), 0));
}

#[test]
fn absent_at_any_level_of_the_global_tree_goes_to_the_own_tree() {
    for index in [GLOBAL_ROOT, 2048, Unit::global(PAGE)] {
        let mut unit = Unit::new();
        unit.words[Unit::own(PAGE)] = PRESENT | VALID | 7;
        unit.words[Unit::global(PAGE)] = PRESENT | VALID | 9;
        unit.words[index] &= !PRESENT;
        assert_eq!(unit.access(read(PAGE, 0)), (Outcome::At(7 * 8192), 1));
        assert!(!unit.entry(slot(0, 1)).global);
    }
}

#[test]
fn one_word_can_be_a_directory_word_and_a_leaf() {
    let mut unit = Unit::new();
    unit.words[ID as usize] = PRESENT | 2;
    unit.words[1024] = PRESENT | 1;
    assert_eq!(unit.access(read(0, 0)), (Outcome::Fault(8), 1));
    assert_eq!(unit.entry(slot(0, 0)).pfn, 1);
    unit.registers.ctrl = 4;
    assert_eq!(unit.access(read(0, 0)), (Outcome::Fault(4), 0));
}

#[test]
fn a_matching_global_entry_is_overwritten_whoever_loaded_it() {
    let mut unit = Unit::new();
    unit.words[Unit::global(PAGE)] = PRESENT | 9;
    unit.registers.context = 6;
    assert_eq!(unit.access(read(PAGE, 3)), (Outcome::Fault(8), 1));
    assert_eq!(unit.entry(slot(3, 1)).page_id, 6);
    unit.registers.context = ID;
    assert_eq!(unit.access(read(PAGE, 0)), (Outcome::Fault(8), 1));
    assert_eq!(unit.entry(slot(3, 1)).page_id, ID);
    assert!(unit.entry(slot(3, 1)).global);
    assert_eq!(unit.entry(slot(0, 1)), Entry::empty(0));
}

#[test]
fn the_lowest_matching_slot_is_loaded_and_its_high_bits_go() {
    let mut unit = Unit::new();
    unit.words[Unit::own(PAGE)] = PRESENT | VALID | 9;
    let old = Entry {
        valid: false,
        ..entry(ID, false)
    };
    unit.buffer[slot(1, 1)] = old.pack() | 1 << 50;
    unit.buffer[slot(2, 1)] = old.pack();
    assert_eq!(unit.access(read(PAGE, 3)), (Outcome::At(9 * 8192), 1));
    assert_eq!(unit.buffer[slot(1, 1)] >> 44, 0);
    assert_eq!(unit.entry(slot(1, 1)).pfn, 9);
    assert_eq!(unit.entry(slot(2, 1)), old);
    assert_eq!(unit.registers.select, slot(1, 1) as u32);
}

#[test]
fn software_bits_of_a_leaf_are_not_loaded() {
    let mut unit = Unit::new();
    unit.words[Unit::own(PAGE)] = PRESENT | VALID | 0x1FF << 19 | 7;
    unit.access(read(PAGE, 0));
    let expected = Entry {
        we: false,
        ..entry(ID, false)
    };
    assert_eq!(unit.entry(slot(0, 1)), expected);
}

#[test]
fn several_hits_fault_with_0_and_load_nothing() {
    let mut unit = Unit::new();
    unit.words[Unit::own(PAGE)] = PRESENT | VALID | 7;
    unit.buffer[slot(0, 1)] = entry(ID, false).pack();
    unit.buffer[slot(3, 1)] = entry(9, true).pack();
    unit.registers.select = 40;
    let buffer = unit.buffer.clone();
    assert_eq!(unit.access(read(PAGE, 1)), (Outcome::Fault(0), 0));
    assert_eq!((unit.registers.select, unit.registers.cause), (40, 0));
    assert_eq!(unit.buffer, buffer);
}

#[test]
fn enable_off_is_final_and_no_miss() {
    let mut unit = Unit::new();
    unit.words[Unit::own(PAGE)] = PRESENT | VALID | 7;
    unit.registers.enable = 0;
    let registers = unit.registers;
    assert_eq!(unit.access(read(PAGE, 1)), (Outcome::At(PAGE * 8192), 0));
    assert_eq!(unit.registers, registers);
}

#[test]
fn the_refusals_come_in_the_order_of_the_table() {
    let mut unit = Unit::new();
    unit.registers.cause = 32;
    unit.registers.test = 1;
    unit.buffer.pop();
    unit.words.pop();
    let mut access = read(PAGE, 4);
    let mut seen = Vec::new();
    for step in 0..5 {
        let (buffer, registers) = (unit.buffer.clone(), unit.registers);
        let (Outcome::Refused(refusal), 0) = unit.access(access) else {
            panic!("accepted");
        };
        assert_eq!((&unit.buffer, unit.registers), (&buffer, registers));
        seen.push(refusal.number());
        match step {
            0 => unit.registers.cause = 31,
            1 => unit.buffer.push(0),
            2 => unit.words.push(0),
            3 => access.draw = 3,
            _ => unit.registers.test = 0,
        }
    }
    assert_eq!(seen, [1, 2, 3, 4, 5]);
    assert!(!matches!(unit.access(access).0, Outcome::Refused(_)));
    unit.registers.context = 63;
    assert_eq!(
        unit.access(access).0,
        Outcome::Refused(Refusal::TestModeOrContext)
    );
}

#[test]
fn a_draw_above_3_is_refused_even_where_no_draw_is_used() {
    let mut unit = Unit::new();
    unit.registers.enable = 0;
    let outcome = unit.access(read(PAGE, 4)).0;
    assert_eq!(outcome, Outcome::Refused(Refusal::Draw));
}

#[test]
fn the_table_runs_length() {
    let refused = Err(Refusal::TableLength);
    for length in [0, 1, 512, 1023, 1025, 1536, 67_108_863, 67_109_888] {
        assert_eq!(check_tables(length), refused, "{length}");
    }
    for length in [1024, 2048, 16384, 67_108_864] {
        assert_eq!(check_tables(length), Ok(()), "{length}");
    }
}
