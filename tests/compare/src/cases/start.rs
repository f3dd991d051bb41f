//! Starts.

use super::state;
use crate::protocol::{Call, Request};
use crate::put::Put;
use crate::random::Random;
use reference::{Registers, SLOTS};

fn request(registers: Registers, buffer: Vec<u64>) -> Request {
    Request::without_run(Call::Start, registers, buffer)
}

/// Every length with good registers and with spoilt ones, which a start never looks at.
pub fn edges(to: &mut dyn Put, random: &mut Random) {
    for length in 0..=80 {
        let good = state::registers(random);
        let spoilt = state::spoil(random, good);
        for registers in [good, spoilt] {
            to.put(request(registers, state::buffer(random, length)));
        }
    }
}

pub fn random(random: &mut Random) -> Request {
    let registers = state::registers(random);
    let buffer = match random.below(4) {
        0 => state::wrong_buffer(random),
        _ => state::buffer(random, 64),
    };
    request(registers, buffer)
}

/// An accepted start over any registers and slots.
pub fn over_anything(random: &mut Random) -> Request {
    let words = std::array::from_fn(|_| random.bits(32));
    let slots = (0..SLOTS).map(|_| random.bits64()).collect();
    request(Registers::from_words(words), slots)
}
