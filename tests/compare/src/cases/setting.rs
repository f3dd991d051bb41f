//! Guarded settings on arbitrary states.

use super::{spoil, state, TOO_LARGE};
use crate::protocol::{Call, Request};
use crate::put::Put;
use crate::random::Random;
use reference::{Registers, FIELD_BITS};

fn request(registers: Registers, buffer: Vec<u64>, number: u32, value: u32) -> Request {
    Request::without_run(Call::Setting { number, value }, registers, buffer)
}

pub fn edges(to: &mut dyn Put, random: &mut Random) {
    refusals(to, random);
    values(to, random);
}

/// Every register edge with every number; the buffer's length must not matter.
fn refusals(to: &mut dyn Put, random: &mut Random) {
    for registers in state::register_edges(random) {
        for number in (0..10).chain(TOO_LARGE) {
            for value in [0, random.bits(6), u32::MAX] {
                let length = random.pick(&state::LENGTHS);
                let buffer = state::buffer(random, length);
                to.put(request(registers, buffer, number, value));
            }
        }
    }
}

/// Every number with values around its width, and around 62 and 63.
fn values(to: &mut dyn Put, random: &mut Random) {
    for (number, value) in state::register_values() {
        let registers = state::registers(random);
        let length = random.pick(&[0, 64]);
        let buffer = state::buffer(random, length);
        to.put(request(registers, buffer, number, value));
    }
}

/// A number and a value that are accepted.
pub fn accepted(random: &mut Random) -> (u32, u32) {
    let number = random.below(6) as u32;
    let value = match number {
        5 => random.below(63) as u32,
        _ => random.bits(FIELD_BITS[number as usize]),
    };
    (number, value)
}

pub fn random(random: &mut Random, kept: usize) -> Request {
    let (number, value) = accepted(random);
    let registers = state::registers(random);
    let length = random.pick(&[0, 0, 64, 65]);
    let mut request = request(registers, state::buffer(random, length), number, value);
    if random.one_in(3) {
        let grounds = spoil::some(random, spoil::grounds_of(request.call));
        spoil::spoil(random, &mut request, kept, &grounds);
    }
    request
}
