//! Entries, addresses and states of the MUPS/16 unit.

use crate::random::Random;
use reference::mups16::{State, ENTRIES, TABLES};

/// The bits that an entry has; those above are junk.
pub const ENTRY_BITS: u32 = 19;
pub const JUNK_BITS: u32 = 32 - ENTRY_BITS;

/// The bits of a place; an entry address may have others above.
pub const PLACE_BITS: u32 = 13;

/// The numbers of status bits and of kinds of junk that a table of every entry has.
pub const STATUSES: u32 = 8;
const KINDS_OF_JUNK: u32 = JUNK_BITS + 3;

/// A table with every status beside every kind of junk takes so many entries.
pub const EVERY_KIND: u32 = STATUSES * KINDS_OF_JUNK;

/// Entry addresses at the edges.
pub const ADDRESSES: [u32; 5] = [0, 8191, 8192, 65535, u32::MAX];

/// Values for the table index at the edges.
pub const INDICES: [u32; 5] = [0, 31, 32, 33, u32::MAX];

/// Junk in bits 19 and up: none, all of them, each of them alone, or several.
pub fn junk_of_kind(random: &mut Random, kind: u32) -> u32 {
    let all = u32::MAX << ENTRY_BITS;
    match kind % KINDS_OF_JUNK {
        0 => 0,
        1 => all,
        2 => 5 << ENTRY_BITS | random.bits(32) & all,
        single => 1 << (ENTRY_BITS + single - 3),
    }
}

pub fn junk(random: &mut Random) -> u32 {
    let kind = match random.one_in(3) {
        true => random.below(3) as u32,
        false => random.below(KINDS_OF_JUNK as usize) as u32,
    };
    junk_of_kind(random, kind)
}

/// A physical page number whose two bytes differ, in some all ones or zeros.
fn page(random: &mut Random) -> u32 {
    match random.below(16) {
        0 => 0,
        1 => 0xFFFF,
        2 => 1 << random.below(16),
        _ => random.bits(16),
    }
}

pub fn entry(random: &mut Random) -> u32 {
    junk(random) | random.bits(3) << 16 | page(random)
}

/// The status and the kind of junk go by the number.
pub fn entry_of_kind(random: &mut Random, number: u32) -> u32 {
    let status = number % STATUSES;
    junk_of_kind(random, number / STATUSES) | status << 16 | page(random)
}

/// A run of any entries, or of one kind after another.
pub fn run(random: &mut Random, length: usize) -> Vec<u32> {
    match random.one_in(2) {
        true => kinds(random, length),
        false => (0..length).map(|_| entry(random)).collect(),
    }
}

/// A run in which entries of each kind follow one another.
pub fn run_of_every_kind(random: &mut Random) -> Vec<u32> {
    kinds(random, ENTRIES)
}

fn kinds(random: &mut Random, length: usize) -> Vec<u32> {
    let places = 0..length as u32;
    places.map(|place| entry_of_kind(random, place)).collect()
}

pub fn place(random: &mut Random) -> u32 {
    match random.below(8) {
        0 => 0,
        1 => ENTRIES as u32 - 1,
        _ => random.bits(PLACE_BITS),
    }
}

/// An entry address of the place, in most cases with bits above it.
pub fn address_of(random: &mut Random, place: u32) -> u32 {
    let above = 32 - PLACE_BITS;
    let high = match random.below(6) {
        0 | 1 => 0,
        2 | 3 => 1 << random.below(above as usize),
        4 => u32::MAX,
        _ => random.bits(above),
    };
    high << PLACE_BITS | place
}

/// Another entry address of the same place.
pub fn other_address_of(random: &mut Random, address: u32) -> u32 {
    let bit = PLACE_BITS as usize + random.below(32 - PLACE_BITS as usize);
    address ^ 1 << bit
}

/// The first, the last or any of 256.
fn byte(random: &mut Random) -> u16 {
    match random.below(6) {
        0 => 0,
        1 => 255,
        _ => random.bits(8) as u16,
    }
}

pub fn virtual_address(random: &mut Random) -> u16 {
    byte(random) << 8 | byte(random)
}

pub fn table_index(random: &mut Random) -> u32 {
    match random.below(6) {
        0 => 0,
        1 => TABLES - 1,
        _ => random.bits(5),
    }
}

/// What the table index may be set to, most of it above 31.
pub fn index_value(random: &mut Random) -> u32 {
    match random.below(6) {
        0 | 1 => table_index(random),
        2 => random.pick(&INDICES),
        3 => 1 << random.below(32),
        _ => random.bits(32),
    }
}

/// Any state, in half of the cases with a fault address of 0.
pub fn state(random: &mut Random, boot_mode: bool) -> State {
    State {
        table_index: table_index(random),
        boot_mode,
        fault_address: match random.one_in(2) {
            true => 0,
            false => virtual_address(random),
        },
    }
}

/// What an operation does not use.
pub fn unused(random: &mut Random) -> u32 {
    match random.below(3) {
        0 => 0,
        1 => u32::MAX,
        _ => random.bits(32),
    }
}
