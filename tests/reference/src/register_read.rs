//! A register read, which changes no register and no slot.

use crate::entry::Entry;
use crate::refusal::{check_buffer, check_number, check_registers, Refusal};
use crate::registers::{Registers, TLB_HI, TLB_LO};
use crate::sweep::vpn_of;

/// Refusals 1, 2 and 7 in this order, 2 whatever the number.
pub fn read_register(registers: Registers, buffer: &[u64], number: u32) -> Result<u32, Refusal> {
    check_registers(registers)?;
    check_buffer(buffer)?;
    check_number(number)?;
    let slot = registers.select as usize;
    Ok(match number {
        TLB_HI => high_of(slot, Entry::unpack(buffer[slot])),
        TLB_LO => low_of(buffer[slot]),
        _ => registers.to_words()[number as usize],
    })
}

/// "Its vpn put together from vpn15 and the slot's location", in bits 24 to 6, and its page_id.
fn high_of(slot: usize, entry: Entry) -> u32 {
    vpn_of(slot, entry) * 64 + entry.page_id
}

/// "Entry bits 22 to 0".
fn low_of(number: u64) -> u32 {
    (number % (1 << 23)) as u32
}
