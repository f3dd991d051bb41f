//! The register read, sentence by sentence.

mod common;

use common::Unit;
use reference::*;

/// In hex: vpn15 1234, page_id 2A, global, kernel, frame 54321.
const NUMBER: u64 = 0x1234 << 29 | 0x2A << 23 | 1 << 22 | 1 << 20 | 0x54321;
const LOW: u32 = 1 << 22 | 1 << 20 | 0x54321;

/// A unit whose SELECT names a slot that holds the number.
fn unit_at(select: u32, number: u64) -> Unit {
    let mut unit = Unit::new();
    unit.registers.select = select;
    unit.buffer[select as usize] = number;
    unit
}

fn read(unit: &Unit, number: u32) -> u32 {
    read_register(unit.registers, &unit.buffer, number).unwrap()
}

fn write(unit: &mut Unit, number: u32, value: u32) {
    let (done, registers) = write_register(unit.registers, &mut unit.buffer, number, value);
    assert_eq!(done, Ok(()));
    unit.registers = registers;
}

#[test]
fn tlb_hi_and_tlb_lo_give_the_entry_at_select() {
    for select in 0..64 {
        let unit = unit_at(select, NUMBER);
        let vpn = 0x12340 + select % 16;
        assert_eq!(read(&unit, TLB_HI), vpn * 64 + 0x2A);
        assert_eq!(read(&unit, TLB_LO), LOW);
    }
}

#[test]
fn each_bit_of_a_slot_is_read_in_its_place() {
    for bit in 0..64 {
        let unit = unit_at(19, 1 << bit);
        let (high, low) = match bit {
            0..=22 => (0, 1 << bit),
            23..=28 => (1 << (bit - 23), 0),
            29..=43 => (1 << (bit - 29 + 10), 0),
            _ => (0, 0),
        };
        assert_eq!(read(&unit, TLB_HI), high + 3 * 64, "{bit}");
        assert_eq!(read(&unit, TLB_LO), low, "{bit}");
    }
}

#[test]
fn an_empty_slot_reads_as_its_set_and_page_id_63() {
    let mut unit = Unit::new();
    unit.registers.select = 63;
    assert_eq!(read(&unit, TLB_HI), (3 * 16 + 15) * 64 + 63);
    assert_eq!(read(&unit, TLB_LO), 0);
}

#[test]
fn every_other_number_gives_its_field() {
    let mut unit = unit_at(18, NUMBER);
    unit.registers = Registers {
        kseg: 0xFEDC,
        ctrl: 5,
        kbase_lo: 0x8765_4321,
        kbase_hi: u32::MAX,
        test: 1,
        cause: 31,
        ..unit.registers
    };
    let words = unit.registers.to_words();
    for number in [0, 1, 2, 3, 4, 5, 6, 9] {
        assert_eq!(read(&unit, number), words[number as usize]);
    }
}

#[test]
fn a_written_entry_is_read_back_with_selects_location() {
    let mut unit = Unit::new();
    write(&mut unit, SELECT, 18);
    write(&mut unit, TLB_HI, 0x12345 * 64 + 9);
    write(&mut unit, TLB_LO, LOW);
    assert_eq!(read(&unit, TLB_HI), 0x12342 * 64 + 9);
    assert_eq!(read(&unit, TLB_LO), LOW);
    write(&mut unit, SELECT, 19);
    assert_eq!(read(&unit, TLB_HI), (16 + 3) * 64 + 63);
    assert_eq!(read(&unit, TLB_LO), 0);
}

/// "After an exception the cause fields keep their own value, and a write to TLB_LO still uses
/// those."
#[test]
fn the_cause_keeps_its_own_vpn_and_feeds_a_write() {
    let mut unit = unit_at(0, NUMBER);
    let access = common::read(0x7654A, 2);
    let (answer, registers) = raw_access(unit.registers, &unit.buffer, access);
    assert_eq!(answer.unwrap().value, EXCEPTION_MISS);
    unit.registers = registers;
    write(&mut unit, SELECT, 0);
    assert_eq!(read(&unit, TLB_HI), 0x12340 * 64 + 0x2A);
    assert_eq!(unit.registers.shared_vpn(), 0x7654A);
    write(&mut unit, TLB_LO, 0);
    assert_eq!(read(&unit, TLB_HI), 0x76540 * 64 + common::ID);
    assert_eq!(unit.registers.shared_vpn(), 0x7654A);
}

#[test]
fn refusals_come_in_the_tables_order() {
    let mut unit = unit_at(5, NUMBER);
    unit.registers.cause = 32;
    unit.buffer.push(0);
    let refused = |unit: &Unit, number| {
        read_register(unit.registers, &unit.buffer, number).map_err(Refusal::number)
    };
    for number in (0..=10).chain([u32::MAX]) {
        assert_eq!(refused(&unit, number), Err(1));
    }
    unit.registers.cause = 31;
    for number in (0..=10).chain([u32::MAX]) {
        assert_eq!(refused(&unit, number), Err(2));
    }
    unit.buffer.truncate(SLOTS);
    for number in [10, u32::MAX] {
        assert_eq!(refused(&unit, number), Err(7));
    }
    unit.buffer.truncate(SLOTS - 1);
    assert_eq!(refused(&unit, 0), Err(2));
}
