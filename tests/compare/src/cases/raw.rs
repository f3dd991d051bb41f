//! Raw accesses.

use super::{state, TOO_LARGE};
use crate::protocol::{Call, Request};
use crate::random::Random;
use reference::*;

pub fn request(registers: Registers, buffer: Vec<u64>, access: Access) -> Request {
    Request::without_run(Call::Raw(access), registers, buffer)
}

/// Random registers, with the page's four slots made so that hits and near misses abound.
pub fn random(random: &mut Random) -> Request {
    let mut registers = state::registers(random);
    let page = state::page(random);
    let mut access = Access {
        address: state::address_on(random, page),
        user: random.one_in(2),
        write: random.one_in(2),
        draw: random.bits(2),
    };
    let mut buffer = state::buffer(random, SLOTS);
    if !random.one_in(8) {
        furnish(random, &mut buffer, registers, page);
    }
    if random.one_in(8) && state::spoil_a_call(random, &mut registers, &mut buffer) {
        access.draw = too_large_draw(random);
    }
    request(registers, buffer, access)
}

pub fn too_large_draw(random: &mut Random) -> u32 {
    match random.below(4) {
        0 => 4,
        1 => random.pick(&TOO_LARGE),
        2 => 4 + random.bits(3),
        _ => random.bits(32) | 4,
    }
}

/// Fills the page's four slots: a wanted number of hits, the rest near misses.
pub fn furnish(random: &mut Random, buffer: &mut [u64], registers: Registers, page: u32) {
    let wanted = random.pick(&[0, 0, 0, 1, 1, 1, 1, 2, 3, 4]);
    let first = random.below(SETS);
    for n in 0..SETS {
        let slot = slot((first + n) % SETS, location(page));
        let entry = match n < wanted {
            true => matching(random, registers, page),
            false => near_miss(random, registers, page),
        };
        buffer[slot] = entry.pack() | state::high_bits(random);
        if random.one_in(4) {
            state::copy_to_next_location(buffer, slot);
        }
    }
}

/// An entry that hits: valid unless inv_exc lets it be otherwise, global or of the context.
pub fn matching(random: &mut Random, registers: Registers, page: u32) -> Entry {
    let entry = Entry {
        vpn15: vpn15(page),
        ..Entry::unpack(random.bits64())
    };
    let page_id = match entry.global && random.one_in(2) {
        true => entry.page_id,
        false => registers.context,
    };
    Entry {
        page_id,
        valid: entry.valid || !registers.inv_exc(),
        ..entry
    }
}

/// An entry that differs from a hit in one thing, or in nothing that matters to the unit.
fn near_miss(random: &mut Random, registers: Registers, page: u32) -> Entry {
    let entry = matching(random, registers, page);
    match random.below(6) {
        0 | 1 => Entry {
            vpn15: entry.vpn15 ^ (1 << random.below(15)),
            ..entry
        },
        2 | 3 => Entry {
            page_id: registers.context ^ (1 << random.below(6)),
            global: false,
            ..entry
        },
        4 => Entry {
            valid: false,
            ..entry
        },
        _ => Entry::empty(random.below(SETS)),
    }
}
