//! The calls as a host in C makes them: over bytes, all numbers most significant byte first, the
//! answer in one number of 64 bits.
//!
//! Bits 0 to 31 of the answer are the address, or the slots emptied by a store; 32 to 47 the
//! exception or fault value; 48 to 51 the loads; 52 there is an address; 53 it interrupts;
//! 54 there was an exception or fault; 56 to 63 the refusal's number, all else then 0.

mod control;

pub use control::{guarded_setting, start};

use crate::address::SLOTS;
use crate::raw::{accepted_access, Access, RawAnswer};
use crate::refusal::{check_draw, check_index, check_registers, check_served, Refusal};
use crate::registers::{Registers, FIELDS};
use crate::reply::{Outcome, Reply};
use crate::run::{InBytes, Run};
use crate::served::serve;
use crate::store::store;

pub const REGISTER_BYTES: usize = 4 * FIELDS;
pub const BUFFER_BYTES: usize = 8 * SLOTS;
pub const LEAST_TABLE_BYTES: usize = 4096;
pub const MOST_TABLE_BYTES: usize = 65536;

const VALUE: u32 = 32;
const LOADS: u32 = 48;
const HAS_ADDRESS: u64 = 1 << 52;
const INTERRUPT: u64 = 1 << 53;
const EXCEPTION: u64 = 1 << 54;
const REFUSAL: u32 = 56;

pub fn raw_access(
    registers: &mut [u8],
    buffer: &[u8],
    address: u32,
    user: bool,
    write: bool,
    draw: u32,
) -> u64 {
    let access = Access {
        address,
        user,
        write,
        draw,
    };
    raw(registers, buffer, access).unwrap_or_else(answer_of_refusal)
}

pub fn served_access(
    registers: &mut [u8],
    buffer: &mut [u8],
    tables: &[u8],
    address: u32,
    user: bool,
    write: bool,
    draw: u32,
) -> u64 {
    let access = Access {
        address,
        user,
        write,
        draw,
    };
    served(registers, buffer, tables, access).unwrap_or_else(answer_of_refusal)
}

pub fn table_store(
    registers: &[u8],
    buffer: &mut [u8],
    tables: &mut [u8],
    index: u32,
    value: u32,
) -> u64 {
    stored(registers, buffer, tables, index, value).unwrap_or_else(answer_of_refusal)
}

/// Refusals 1, 2 and 4 in this order.
fn raw(registers: &mut [u8], buffer: &[u8], access: Access) -> Result<u64, Refusal> {
    let fields = fields_of(registers)?;
    check_buffer_bytes(buffer)?;
    check_draw(access.draw)?;
    let (answer, after) = accepted_access(fields, &InBytes(buffer), access);
    if answer.exception {
        write_fields(registers, after);
    }
    Ok(answer_of_raw(answer))
}

/// Refusals 1 to 5 in this order.
fn served(
    registers: &mut [u8],
    buffer: &mut [u8],
    tables: &[u8],
    access: Access,
) -> Result<u64, Refusal> {
    let fields = fields_of(registers)?;
    check_buffer_bytes(buffer)?;
    check_table_bytes(tables)?;
    check_draw(access.draw)?;
    check_served(fields)?;
    let reply = serve(fields, &mut InBytes(buffer), &InBytes(tables), access);
    write_fields(registers, reply.registers);
    Ok(answer_of_reply(reply))
}

/// Refusals 1, 2, 3 and 6 in this order.
fn stored(
    registers: &[u8],
    buffer: &mut [u8],
    tables: &mut [u8],
    index: u32,
    value: u32,
) -> Result<u64, Refusal> {
    fields_of(registers)?;
    check_buffer_bytes(buffer)?;
    check_table_bytes(tables)?;
    check_index(index, tables.len() / 4)?;
    let emptied = store(&mut InBytes(buffer), &mut InBytes(tables), index, value);
    Ok(emptied.into())
}

/// The registers' length and then their fields: number 1 for either.
fn fields_of(bytes: &[u8]) -> Result<Registers, Refusal> {
    check_register_bytes(bytes)?;
    let registers = Registers::from_words(std::array::from_fn(|n| InBytes(bytes).at(n)));
    check_registers(registers)?;
    Ok(registers)
}

fn write_fields(bytes: &mut [u8], registers: Registers) {
    for (four, word) in bytes.chunks_exact_mut(4).zip(registers.to_words()) {
        four.copy_from_slice(&word.to_be_bytes());
    }
}

/// "A wrong byte length is number 1 for the registers".
fn check_register_bytes(registers: &[u8]) -> Result<(), Refusal> {
    match registers.len() {
        REGISTER_BYTES => Ok(()),
        _ => Err(Refusal::RegisterField),
    }
}

fn check_buffer_bytes(buffer: &[u8]) -> Result<(), Refusal> {
    match buffer.len() {
        BUFFER_BYTES => Ok(()),
        _ => Err(Refusal::BufferLength),
    }
}

/// "The tables as 4,096 to 65,536 bytes", whole multiples of 4,096.
fn check_table_bytes(tables: &[u8]) -> Result<(), Refusal> {
    let length = tables.len();
    match (LEAST_TABLE_BYTES..=MOST_TABLE_BYTES).contains(&length)
        && length.is_multiple_of(LEAST_TABLE_BYTES)
    {
        true => Ok(()),
        false => Err(Refusal::TableLength),
    }
}

fn answer_of_raw(answer: RawAnswer) -> u64 {
    let mut number = u64::from(answer.value) << VALUE;
    if let Some(address) = answer.address {
        number |= u64::from(address) | HAS_ADDRESS;
    }
    if answer.interrupt {
        number |= INTERRUPT;
    }
    if answer.exception {
        number |= EXCEPTION;
    }
    number
}

fn answer_of_reply(reply: Reply) -> u64 {
    let loads = u64::from(reply.loads) << LOADS;
    match reply.outcome {
        Outcome::At(address) => loads | u64::from(address) | HAS_ADDRESS,
        Outcome::Fault(value) => loads | u64::from(value) << VALUE | EXCEPTION,
        Outcome::Done(emptied) => emptied.into(),
        Outcome::Refused(refusal) => answer_of_refusal(refusal),
    }
}

fn answer_of_refusal(refusal: Refusal) -> u64 {
    u64::from(refusal.number()) << REFUSAL
}
