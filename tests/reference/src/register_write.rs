//! A register write.

use crate::address::vpn15;
use crate::entry::Entry;
use crate::refusal::{check_buffer, check_number, check_registers, Refusal};
use crate::registers::{fits, Registers, FIELD_BITS, TLB_LO};

/// Refusals 1, 2 and 7 in this order; a refused write changes nothing.
pub fn write_register(
    registers: Registers,
    buffer: &mut [u64],
    number: u32,
    value: u32,
) -> (Result<(), Refusal>, Registers) {
    if let Err(refusal) = check(registers, buffer, number, value) {
        return (Err(refusal), registers);
    }
    if number == TLB_LO {
        buffer[registers.select as usize] = entry_to_store(registers, value).pack();
    }
    let mut words = registers.to_words();
    words[number as usize] = value;
    (Ok(()), Registers::from_words(words))
}

fn check(registers: Registers, buffer: &[u64], number: u32, value: u32) -> Result<(), Refusal> {
    check_registers(registers)?;
    check_buffer(buffer)?;
    check_number(number)?;
    if !fits(value, FIELD_BITS[number as usize]) {
        return Err(Refusal::RegisterNumber);
    }
    Ok(())
}

/// The entry "from the vpn's upper 15 bits, the page_id and the written value", whose bits
/// 22 to 0 are the entry's.
fn entry_to_store(registers: Registers, value: u32) -> Entry {
    Entry {
        vpn15: vpn15(registers.shared_vpn()),
        page_id: registers.shared_page_id(),
        ..Entry::unpack(u64::from(value))
    }
}
