//! Served accesses of arbitrary states.

use super::scene::{words_found, Scene};
use super::{raw, spoil, state};
use crate::protocol::{Call, Request};
use crate::random::Random;
use reference::*;

pub fn request(
    registers: Registers,
    buffer: Vec<u64>,
    access: Access,
    tables: Vec<u32>,
) -> Request {
    Request {
        tables,
        ..Request::without_run(Call::Served(access), registers, buffer)
    }
}

pub fn random(random: &mut Random, scene: &mut Scene, kept: &[u32]) -> Request {
    let tables = scene.next_run(random);
    let words = words_found(kept, &tables);
    let (page_id, page) = scene.pick(random);
    let registers = Registers {
        kseg: random.pick(&[0, 0, 0, 0xFFFF]),
        enable: u32::from(!random.one_in(16)),
        context: page_id,
        test: 0,
        ..state::registers(random)
    };
    let access = Access {
        address: state::address_on(random, page),
        user: random.one_in(2),
        write: random.one_in(2),
        draw: random.bits(2),
    };
    let mut buffer = scene.buffer(random, words);
    match random.below(8) {
        0 | 1 => raw::furnish(random, &mut buffer, registers, page),
        2 => put_not_valid(random, &mut buffer, registers, page),
        _ => {}
    }
    let kept = words.len();
    let mut request = request(registers, buffer, access, tables);
    if random.one_in(6) {
        let grounds = spoil::some(random, &[1, 2, 4, 5]);
        spoil::spoil(random, &mut request, kept, &grounds);
    }
    request
}

/// The page in some of its slots, not valid there.
pub fn put_not_valid(random: &mut Random, buffer: &mut [u64], registers: Registers, page: u32) {
    for slot in slots_of(location(page)) {
        if random.one_in(2) {
            let entry = Entry {
                valid: false,
                ..raw::matching(random, registers, page)
            };
            buffer[slot] = entry.pack() | state::high_bits(random);
        }
    }
}
