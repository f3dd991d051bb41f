//! Calls that are refused, on chosen grounds.

use super::{raw, state, TOO_LARGE};
use crate::protocol::{Call, Request};
use crate::random::Random;
use reference::Registers;

/// The numbers that a call can be refused with, in their order.
pub fn grounds_of(call: Call) -> &'static [u32] {
    match call {
        Call::Served(_) => &[1, 2, 3, 4, 5],
        Call::Store { .. } => &[1, 2, 3, 6],
        Call::Setting { .. } => &[1, 5, 7],
        _ => &[],
    }
}

/// Some of the grounds, at least one, every choice as likely as the others.
pub fn some(random: &mut Random, grounds: &[u32]) -> Vec<u32> {
    let choice = 1 + random.below((1 << grounds.len()) - 1);
    (0..grounds.len())
        .filter(|n| choice >> n & 1 == 1)
        .map(|n| grounds[n])
        .collect()
}

/// Gives the request each of these grounds; `kept` is the length of the run that is kept.
pub fn spoil(random: &mut Random, request: &mut Request, kept: usize, grounds: &[u32]) {
    let mut registers = Registers::from_words(request.registers);
    if grounds.contains(&1) {
        registers = state::spoil(random, registers);
    }
    if grounds.contains(&2) {
        request.buffer = state::wrong_buffer(random);
    }
    if grounds.contains(&3) {
        request.tables = wrong_run(random);
    }
    let run = match request.tables.len() {
        0 => kept,
        handed => handed,
    };
    match &mut request.call {
        Call::Served(access) => {
            if grounds.contains(&4) {
                access.draw = raw::too_large_draw(random);
            }
            if grounds.contains(&5) {
                registers = in_test_mode_or_63(random, registers);
            }
        }
        Call::Store { index, .. } => {
            *index = match grounds.contains(&6) {
                true => past(random, run),
                false => (*index as usize % run.max(1)) as u32,
            }
        }
        Call::Setting { number, value } => {
            let both = (grounds.contains(&5), grounds.contains(&7));
            if both != (false, false) {
                (*number, *value) = refused_setting(random, both);
            }
        }
        _ => {}
    }
    request.registers = registers.to_words();
}

/// A run that is too short or no multiple of 1,024 words.
pub fn wrong_run(random: &mut Random) -> Vec<u32> {
    let length = match random.below(8) {
        0..=3 => random.pick(&[1, 63, 64, 512, 1023, 1025, 1536, 2047, 2560]),
        4 => 1 + random.below(1023),
        5 => 1025 + random.below(1023),
        _ => 64 + random.below(64),
    };
    let word = random.bits(32);
    vec![word; length]
}

fn in_test_mode_or_63(random: &mut Random, registers: Registers) -> Registers {
    match random.below(3) {
        0 => Registers {
            test: 1,
            ..registers
        },
        1 => Registers {
            context: 63,
            ..registers
        },
        _ => Registers {
            test: 1,
            context: 63,
            ..registers
        },
    }
}

/// An index at the run's length or further on, some small once cut to fewer bits.
fn past(random: &mut Random, run: usize) -> u32 {
    let run = run as u32;
    match random.below(8) {
        0..=2 => run,
        3 => run + 1,
        4 => u32::MAX,
        5 => random.bits(32) | 1 << 31,
        6 => run + random.bits(16),
        _ => run | 1 << (16 + random.below(16)),
    }
}

/// A number and value that give the grounds 5, 7 or both.
pub fn refused_setting(random: &mut Random, grounds: (bool, bool)) -> (u32, u32) {
    match grounds {
        (true, false) => (5, 63),
        (true, true) => (5, random.pick(&[64, 65, 128, 191, 0x8000_0005, u32::MAX])),
        _ => match random.below(6) {
            0 => (0, random.pick(&[0x1_0000, 0x1_0001, u32::MAX])),
            1 => (1, random.pick(&[8, 9, 0x8000_0000])),
            2 => (2, random.pick(&[2, 3, 0x100, u32::MAX])),
            3 | 4 => (6 + random.below(4) as u32, random.pick(&[0, 1, u32::MAX])),
            _ => (random.pick(&TOO_LARGE), random.pick(&[0, 1, 62, u32::MAX])),
        },
    }
}
