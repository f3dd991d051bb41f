//! Starts over bytes that held anything, and settings on registers of each kind.

use super::case::{bytes_of_numbers, bytes_of_words, Case, PutCase, Runs};
use super::lengths::{BUFFERS, REGISTERS};
use crate::cases::state;
use crate::protocol::Call;
use crate::random::Random;
use reference::{FIELD_BITS, SLOTS};

const REGISTER_BYTES: usize = REGISTERS[0];
const BUFFER_BYTES: usize = BUFFERS[0];

/// Numbers that no setting has, some of them small once cut to fewer bits.
const NO_SETTING: [u32; 5] = [6, 10, 11, 0x100, 0x1_0005];

pub fn edges(to: &mut dyn PutCase, random: &mut Random) {
    for registers in register_bytes(random) {
        for buffer in buffer_bytes(random) {
            to.put_case(case(Call::Start, registers.clone(), buffer));
        }
        let unknown = NO_SETTING.map(|number| (number, 0));
        for (number, value) in state::register_values().into_iter().chain(unknown) {
            let call = Call::Setting { number, value };
            to.put_case(case(call, registers.clone(), Vec::new()));
        }
    }
}

/// All 0, all fields at their largest value, all bits 1, any bytes.
fn register_bytes(random: &mut Random) -> [Vec<u8>; 4] {
    [
        vec![0; REGISTER_BYTES],
        bytes_of_words(&FIELD_BITS.map(state::largest)),
        vec![0xFF; REGISTER_BYTES],
        any_bytes(random, REGISTER_BYTES),
    ]
}

/// All 0, all bits 1, any bytes, every slot empty, and every slot but one.
fn buffer_bytes(random: &mut Random) -> Vec<Vec<u8>> {
    let started = bytes_of_numbers(&state::empty_slots());
    let mut all = vec![
        vec![0; BUFFER_BYTES],
        vec![0xFF; BUFFER_BYTES],
        any_bytes(random, BUFFER_BYTES),
        started.clone(),
    ];
    all.extend((0..SLOTS).map(|slot| {
        let mut buffer = started.clone();
        buffer[8 * slot + random.below(8)] ^= 1 << random.below(8);
        buffer
    }));
    all
}

fn any_bytes(random: &mut Random, length: usize) -> Vec<u8> {
    (0..length).map(|_| random.bits(8) as u8).collect()
}

fn case(call: Call, registers: Vec<u8>, buffer: Vec<u8>) -> Case {
    Case {
        call,
        runs: Runs {
            registers,
            buffer,
            tables: Vec::new(),
        },
    }
}
