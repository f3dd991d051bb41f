//! Raw accesses made on purpose.

use super::raw::{matching, request};
use super::{state, TOO_LARGE};
use crate::put::Put;
use crate::random::Random;
use reference::*;

const ROWS: [(u32, u32); 4] = [(0, 0), (0, 1), (1, 0), (1, 1)];

pub fn put(comparison: &mut dyn Put, random: &mut Random) {
    refusals(comparison, random);
    segments(comparison, random);
    one_entry(comparison, random);
    single_bits(comparison, random);
    several_entries(comparison, random);
    empty_slots(comparison, random);
    draws(comparison, random);
}

/// Random registers that ask the buffer, in the given row.
fn in_row(random: &mut Random, (enable, test): (u32, u32)) -> Registers {
    Registers {
        kseg: 0,
        enable,
        test,
        ..state::registers(random)
    }
}

/// An access to the page; the low bits of the mode are user and write.
fn access(random: &mut Random, page: u32, mode: u32) -> Access {
    Access {
        address: state::address_on(random, page),
        user: mode & 1 != 0,
        write: mode & 2 != 0,
        draw: random.bits(2),
    }
}

/// Every register edge with every length and every edge of the draw.
fn refusals(comparison: &mut dyn Put, random: &mut Random) {
    let draws = [&[0, 3, 4, 5, 7][..], &TOO_LARGE].concat();
    for registers in state::register_edges(random) {
        for length in state::LENGTHS {
            for &draw in &draws {
                let mode = random.bits(2);
                let page = state::page(random);
                let access = Access {
                    draw,
                    ..access(random, page, mode)
                };
                comparison.put(request(registers, state::buffer(random, length), access));
            }
        }
    }
}

/// Every segment, set and clear, in every row and every mode.
fn segments(comparison: &mut dyn Put, random: &mut Random) {
    for segment in 0..16 {
        for row in ROWS {
            for mode in 0..4 {
                for kseg in [0, 0xFFFF, 1 << segment, 0xFFFF ^ (1 << segment)] {
                    let registers = Registers {
                        kseg,
                        ..in_row(random, row)
                    };
                    let page = (segment << 15) | random.bits(15);
                    let access = access(random, page, mode);
                    comparison.put(request(registers, state::buffer(random, SLOTS), access));
                }
            }
        }
    }
}

/// One matching entry: every row, mode, CTRL and setting of its four bits.
fn one_entry(comparison: &mut dyn Put, random: &mut Random) {
    for row in ROWS {
        for mode in 0..4 {
            for (ctrl, bits) in (0..8).flat_map(|ctrl| (0..16).map(move |bits| (ctrl, bits))) {
                for context in [random.bits(6), 0, 62, 63] {
                    let registers = Registers {
                        ctrl,
                        context,
                        ..in_row(random, row)
                    };
                    let page = state::page(random);
                    let access = access(random, page, mode);
                    let buffer = buffer_with_one(random, registers, page, bits);
                    comparison.put(request(registers, buffer, access));
                }
            }
        }
    }
}

/// A start buffer with one entry for the page, its four bits as given.
fn buffer_with_one(random: &mut Random, registers: Registers, page: u32, bits: u32) -> Vec<u64> {
    let entry = Entry {
        global: bits & 1 != 0,
        valid: bits & 2 != 0,
        kernel: bits & 4 != 0,
        we: bits & 8 != 0,
        ..matching(random, registers, page)
    };
    let mut buffer = state::empty_slots();
    let slot = slot(random.below(SETS), location(page));
    buffer[slot] = entry.pack() | state::high_bits(random);
    buffer
}

/// A matching entry with one bit of its vpn15 or page_id turned over.
fn single_bits(comparison: &mut dyn Put, random: &mut Random) {
    for row in ROWS {
        for bit in 23..44 {
            for set in 0..SETS {
                let registers = in_row(random, row);
                let page = random.bits(19);
                let entry = Entry {
                    page_id: registers.context,
                    global: bit >= 29 && random.one_in(2),
                    ..matching(random, registers, page)
                };
                let mut buffer = state::empty_slots();
                buffer[slot(set, location(page))] = entry.pack() ^ (1 << bit);
                let access = access(random, page, bit % 4);
                comparison.put(request(registers, buffer, access));
            }
        }
    }
}

/// Every choice of sets that hold a matching entry, in every row, mode and CTRL.
fn several_entries(comparison: &mut dyn Put, random: &mut Random) {
    for row in ROWS {
        for (mode, ctrl) in (0..4).flat_map(|mode| (0..8).map(move |ctrl| (mode, ctrl))) {
            for sets in 0..1 << SETS {
                let registers = Registers {
                    ctrl,
                    ..in_row(random, row)
                };
                let page = state::page(random);
                let mut buffer = state::buffer(random, SLOTS);
                for set in (0..SETS).filter(|set| sets >> set & 1 == 1) {
                    let slot = slot(set, location(page));
                    buffer[slot] =
                        matching(random, registers, page).pack() | state::high_bits(random);
                    state::copy_to_next_location(&mut buffer, slot);
                }
                let access = access(random, page, mode);
                comparison.put(request(registers, buffer, access));
            }
        }
    }
}

/// The start buffer, with and without junk, on all low pages under the edge contexts.
fn empty_slots(comparison: &mut dyn Put, random: &mut Random) {
    for row in ROWS {
        for page in 0..80 {
            for context in [63, 63, 62, 0] {
                let registers = Registers {
                    context,
                    ..in_row(random, row)
                };
                let mut buffer = state::empty_slots();
                for number in &mut buffer {
                    *number |= state::high_bits(random);
                }
                let mode = random.bits(2);
                let access = access(random, page, mode);
                comparison.put(request(registers, buffer, access));
            }
        }
    }
}

/// A miss at every location with every draw in every row.
fn draws(comparison: &mut dyn Put, random: &mut Random) {
    for row in ROWS {
        for location in 0..16 {
            for draw in 0..4 {
                let registers = in_row(random, row);
                let page = 16 * (4 + random.bits(14)) + location;
                let access = Access {
                    draw,
                    ..access(random, page, draw)
                };
                comparison.put(request(registers, state::empty_slots(), access));
            }
        }
    }
}
