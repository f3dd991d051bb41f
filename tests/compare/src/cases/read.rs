//! Register reads.

use super::{state, TOO_LARGE};
use crate::comparison::Comparison;
use crate::protocol::{Call, Request};
use crate::put::Put;
use crate::random::Random;
use reference::{Registers, LOCATIONS, SLOTS, TLB_HI, TLB_LO};

fn request(registers: Registers, buffer: Vec<u64>, number: u32) -> Request {
    Request::without_run(Call::Read { number }, registers, buffer)
}

pub fn edges(comparison: &mut Comparison, random: &mut Random) {
    refusals(comparison, random);
    selects(comparison, random);
    single_bits(comparison, random);
}

/// Every register edge with every number, a buffer of any length and one of the right length.
fn refusals(comparison: &mut Comparison, random: &mut Random) {
    for registers in state::register_edges(random) {
        for number in (0..10).chain(TOO_LARGE) {
            for length in [random.pick(&state::LENGTHS), SLOTS] {
                let buffer = state::buffer(random, length);
                comparison.put(request(registers, buffer, number));
            }
        }
    }
}

/// TLB_HI and TLB_LO at every SELECT, with registers that may nearly be the slot's.
fn selects(comparison: &mut Comparison, random: &mut Random) {
    for select in 0..64 {
        for _ in 0..8 {
            let mut buffer = state::buffer(random, SLOTS);
            buffer[select as usize] |= state::high_bits(random);
            let registers = Registers {
                select,
                ..state::registers(random)
            };
            let registers = near_slot(random, registers, &buffer);
            for number in [TLB_HI, TLB_LO] {
                comparison.put(request(registers, buffer.clone(), number));
            }
        }
    }
}

/// A slot with one bit set, in a buffer of ones and the other way round.
fn single_bits(comparison: &mut Comparison, random: &mut Random) {
    for bit in 0..64 {
        for flip in [0, u64::MAX] {
            let registers = state::registers(random);
            let mut buffer = vec![!flip; SLOTS];
            buffer[registers.select as usize] = flip ^ (1 << bit);
            for number in [TLB_HI, TLB_LO] {
                comparison.put(request(registers, buffer.clone(), number));
            }
        }
    }
}

/// Registers whose shared fields and last written value are the slot's, or nearly so: with
/// another location, another page_id or another vpn15.
fn near_slot(random: &mut Random, registers: Registers, buffer: &[u64]) -> Registers {
    let number = buffer[registers.select as usize];
    let location = registers.select % LOCATIONS as u32;
    let of_slot = (number >> 29 << 10) as u32 | location << 6 | ((number >> 23) as u32 % 64);
    let other_bits = match random.below(6) {
        0 => return registers,
        1 => random.bits(4) << 6,
        2 => random.bits(6),
        3 => random.bits(15) << 10,
        _ => 0,
    };
    Registers {
        tlb_hi: (of_slot ^ other_bits) % (1 << 25),
        tlb_lo: (number % (1 << 23)) as u32 ^ random.pick(&[0, 0, 1, 1 << 22]),
        ..registers
    }
}

/// Mostly TLB_HI and TLB_LO.
pub fn random(random: &mut Random) -> Request {
    let mut registers = state::registers(random);
    let mut buffer = state::buffer(random, SLOTS);
    let mut number = match random.one_in(2) {
        true => random.pick(&[TLB_HI, TLB_LO]),
        false => random.below(10) as u32,
    };
    if random.one_in(2) {
        registers = near_slot(random, registers, &buffer);
    }
    if random.one_in(3) && state::spoil_a_call(random, &mut registers, &mut buffer) {
        number = random.pick(&TOO_LARGE);
    }
    request(registers, buffer, number)
}
