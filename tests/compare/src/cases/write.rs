//! Register writes.

use super::{state, TOO_LARGE};
use crate::comparison::Comparison;
use crate::protocol::{Call, Request};
use crate::put::Put;
use crate::random::Random;
use reference::{Registers, FIELD_BITS, SLOTS};

fn request(registers: Registers, buffer: Vec<u64>, number: u32, value: u32) -> Request {
    Request::without_run(Call::Write { number, value }, registers, buffer)
}

pub fn edges(comparison: &mut Comparison, random: &mut Random) {
    refusals(comparison, random);
    values(comparison, random);
    selects(comparison, random);
}

/// Every register edge with every length, every number and a value that may be too large.
fn refusals(comparison: &mut Comparison, random: &mut Random) {
    for registers in state::register_edges(random) {
        for length in state::LENGTHS {
            for number in (0..10).chain(TOO_LARGE) {
                let value = value(random, number);
                let buffer = state::buffer(random, length);
                comparison.put(request(registers, buffer, number, value));
            }
        }
    }
}

/// Every number with values around its width.
fn values(comparison: &mut Comparison, random: &mut Random) {
    for (number, value) in state::register_values() {
        let registers = state::registers(random);
        let buffer = state::buffer(random, SLOTS);
        comparison.put(request(registers, buffer, number, value));
    }
}

/// TLB_LO at every SELECT, over whatever stands there.
fn selects(comparison: &mut Comparison, random: &mut Random) {
    for select in 0..64 {
        for _ in 0..8 {
            let registers = Registers {
                select,
                ..state::registers(random)
            };
            let mut buffer = state::buffer(random, SLOTS);
            buffer[select as usize] |= state::high_bits(random);
            let value = random.bits(23);
            comparison.put(request(registers, buffer, 8, value));
        }
    }
}

/// Mostly a value that fits, sometimes one at the edge or past it.
fn value(random: &mut Random, number: u32) -> u32 {
    let Some(&bits) = FIELD_BITS[..10].get(number as usize) else {
        return random.bits(32) >> random.below(32);
    };
    match random.below(8) {
        0 => state::largest(bits),
        1 => state::largest(bits).wrapping_add(1),
        2 => random.bits(32),
        _ => random.bits(bits),
    }
}

pub fn random(random: &mut Random) -> Request {
    let mut registers = state::registers(random);
    let mut buffer = state::buffer(random, SLOTS);
    let mut number = match random.below(3) {
        0 => random.pick(&[7, 8, 8, 8]),
        _ => random.below(10) as u32,
    };
    if random.one_in(4) && state::spoil_a_call(random, &mut registers, &mut buffer) {
        number = random.pick(&TOO_LARGE);
    }
    let value = value(random, number);
    request(registers, buffer, number, value)
}
