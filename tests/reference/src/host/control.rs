//! The start and the guarded setting as a host in C calls them.

use super::{answer_of_refusal, check_buffer_bytes, check_register_bytes, fields_of};
use crate::address::LOCATIONS;
use crate::entry::Entry;
use crate::refusal::{check_setting, check_switch, Refusal};
use crate::run::{InBytes, RunMut};

/// What the bytes held before does not matter, so no field is too large for a start.
pub fn start(registers: &mut [u8], buffer: &mut [u8]) -> u64 {
    answer_of(started(registers, buffer))
}

pub fn guarded_setting(registers: &mut [u8], number: u32, value: u32) -> u64 {
    answer_of(set(registers, number, value))
}

/// Refusals 1 and 2 in this order, of the lengths alone. The registers are lent, and a refused
/// start leaves them.
fn started(registers: &mut [u8], buffer: &mut [u8]) -> Result<(), Refusal> {
    check_register_bytes(registers)?;
    check_buffer_bytes(buffer)?;
    registers.fill(0);
    for (slot, eight) in buffer.chunks_exact_mut(8).enumerate() {
        let empty = Entry::empty(slot / LOCATIONS);
        eight.copy_from_slice(&empty.pack().to_be_bytes());
    }
    Ok(())
}

/// Refusals 1, 5 and 7 in this order.
fn set(registers: &mut [u8], number: u32, value: u32) -> Result<(), Refusal> {
    fields_of(registers)?;
    check_switch(number, value)?;
    check_setting(number, value)?;
    InBytes(registers).put(number as usize, value);
    Ok(())
}

fn answer_of(done: Result<(), Refusal>) -> u64 {
    done.map_or_else(answer_of_refusal, |()| 0)
}
