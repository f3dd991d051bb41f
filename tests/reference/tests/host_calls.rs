//! The calls over bytes: where each thing stands in the answer, and that refused calls touch nothing.

mod common;

use common::*;
use reference::{host, Registers, SLOTS};

struct Bytes {
    registers: Vec<u8>,
    buffer: Vec<u8>,
    tables: Vec<u8>,
}

impl Bytes {
    fn of(unit: &Unit) -> Bytes {
        let words = |words: &[u32]| words.iter().flat_map(|word| word.to_be_bytes()).collect();
        Bytes {
            registers: words(&unit.registers.to_words()),
            buffer: unit.buffer.iter().flat_map(|n| n.to_be_bytes()).collect(),
            tables: words(&unit.words),
        }
    }

    fn raw(&mut self, address: u32, draw: u32) -> u64 {
        host::raw_access(&mut self.registers, &self.buffer, address, true, true, draw)
    }

    fn served(&mut self, address: u32, draw: u32) -> u64 {
        host::served_access(
            &mut self.registers,
            &mut self.buffer,
            &self.tables,
            address,
            true,
            true,
            draw,
        )
    }

    fn store(&mut self, index: u32, value: u32) -> u64 {
        host::table_store(
            &self.registers,
            &mut self.buffer,
            &mut self.tables,
            index,
            value,
        )
    }

    fn all(&self) -> Vec<u8> {
        [&self.registers[..], &self.buffer, &self.tables].concat()
    }

    fn field(&self, n: usize) -> u32 {
        u32::from_be_bytes(self.registers[4 * n..4 * n + 4].try_into().unwrap())
    }
}

/// A unit whose leaf of PAGE is valid, of frame 7.
fn unit() -> Unit {
    let mut unit = Unit::new();
    unit.words[Unit::own(PAGE)] = PRESENT | VALID | 7;
    unit
}

const ADDRESS: u32 = PAGE * 8192 + 5;
const PHYSICAL: u64 = 7 * 8192 + 5;

#[test]
fn a_miss_is_loaded_and_the_registers_and_the_slot_are_written() {
    let mut bytes = Bytes::of(&unit());
    assert_eq!(bytes.raw(ADDRESS, 2), 0x0060_0008_0000_0000);
    assert_eq!((bytes.field(6), bytes.field(10)), (33, 17));
    assert_eq!(bytes.field(7), PAGE * 64 + ID);
    assert_eq!(bytes.served(ADDRESS, 1), 0x0011_0000_0000_0000 | PHYSICAL);
    assert_eq!((bytes.field(6), bytes.field(10)), (17, 17));
    let slot = u64::from_be_bytes(bytes.buffer[8 * 17..8 * 18].try_into().unwrap());
    assert_eq!(slot, 2 << 29 | u64::from(ID) << 23 | 1 << 21 | 7);
    assert_eq!(bytes.raw(ADDRESS, 0), 0x0010_0000_0000_0000 | PHYSICAL);
    assert_eq!(bytes.store(Unit::own(PAGE) as u32, 0x0102_0304), 1);
    let word = 4 * Unit::own(PAGE);
    assert_eq!(bytes.tables[word..word + 4], [1, 2, 3, 4]);
    assert_eq!(bytes.served(ADDRESS, 1), 0x0040_0310_0000_0000);
}

#[test]
fn a_faulting_load_is_counted_and_several_hits_are_a_fault_of_value_0() {
    let mut unit = unit();
    unit.registers.ctrl = 1;
    let mut bytes = Bytes::of(&unit);
    assert_eq!(bytes.served(ADDRESS, 3), 0x0041_0001_0000_0000);
    unit.buffer[reference::slot(0, 1)] = entry(ID, false).pack();
    unit.buffer[reference::slot(3, 1)] = entry(ID, true).pack();
    let mut bytes = Bytes::of(&unit);
    assert_eq!(bytes.served(ADDRESS, 3), 0x0040_0000_0000_0000);
    assert_eq!(bytes.raw(ADDRESS, 3), 0x0060_0000_0000_0000);
    unit.registers.enable = 0;
    let mut bytes = Bytes::of(&unit);
    let virtual_address = 0x0010_0000_0000_0000 | u64::from(ADDRESS);
    assert_eq!(bytes.served(ADDRESS, 3), virtual_address);
}

#[test]
fn the_numbers_come_in_the_tables_order_and_a_refused_call_touches_nothing() {
    let mut unit = unit();
    unit.registers.test = 1;
    unit.registers.kseg = 0x1_0000;
    let mut bytes = Bytes::of(&unit);
    bytes.registers.push(0);
    bytes.buffer.pop();
    bytes.tables.push(0);
    let mut seen = Vec::new();
    for step in 0..6 {
        let draw = if step < 5 { 4 } else { 3 };
        let before = bytes.all();
        let answers = [
            bytes.raw(ADDRESS, 4),
            bytes.served(ADDRESS, draw),
            bytes.store(u32::MAX, 1),
        ];
        assert_eq!(bytes.all(), before);
        assert!(answers.iter().all(|answer| answer % (1 << 56) == 0));
        seen.push(answers.map(|answer| answer >> 56));
        match step {
            0 => drop(bytes.registers.pop()),
            1 => bytes.registers[..4].fill(0),
            2 => bytes.buffer.push(0),
            3 => drop(bytes.tables.pop()),
            _ => {}
        }
    }
    let expected = [
        [1, 1, 1],
        [1, 1, 1],
        [2, 2, 2],
        [4, 3, 3],
        [4, 4, 6],
        [4, 5, 6],
    ];
    assert_eq!(seen, expected);
}

#[test]
fn tables_are_taken_in_multiples_of_4096_up_to_65536() {
    let registers = [0; host::REGISTER_BYTES];
    for length in [0, 2048, 4095, 4096, 4097, 61440, 65536, 69632, 131072] {
        let mut buffer = vec![0; 8 * SLOTS];
        let accepted = (4096..=65536).contains(&length) && length % 4096 == 0;
        let answer = host::table_store(&registers, &mut buffer, &mut vec![0; length], 0, 0);
        let expected = if accepted { 64 } else { 3 << 56 };
        assert_eq!(answer, expected, "{length}");
        assert_eq!(buffer == vec![0; 8 * SLOTS], !accepted, "{length}");
    }
    assert_eq!(Registers::default().to_words().len() * 4, registers.len());
}
