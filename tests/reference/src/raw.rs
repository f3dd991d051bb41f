//! One raw access.

use crate::address::{location, offset, segment, slot, vpn};
use crate::entry::Entry;
use crate::refusal::{check_buffer, check_draw, check_registers, Refusal};
use crate::registers::Registers;
use crate::run::Run;
use crate::search::hits;

pub const EXCEPTION_WRITE_ERROR: u32 = 1;
pub const EXCEPTION_ACCESS_VIOLATION: u32 = 2;
pub const EXCEPTION_INVALID_PAGE: u32 = 4;
pub const EXCEPTION_MISS: u32 = 8;

#[derive(Clone, Copy, Debug, PartialEq, Eq)]
pub struct Access {
    pub address: u32,
    pub user: bool,
    pub write: bool,
    /// 0 to 3, "stands for the random set".
    pub draw: u32,
}

/// The four things a raw access answers.
#[derive(Clone, Copy, Debug, PartialEq, Eq)]
pub struct RawAnswer {
    pub address: Option<u32>,
    pub interrupt: bool,
    pub exception: bool,
    pub value: u32,
}

/// What rules 1 and 2 say of an access, before ENABLE and the test mode are asked.
#[derive(Clone, Copy, Debug, PartialEq, Eq)]
pub enum Translation {
    Linear {
        address: u32,
    },
    /// The value is the sum of the exceptions on this one hit, 0 for none.
    OneHit {
        slot: usize,
        address: u32,
        value: u32,
    },
    Miss,
    SeveralHits,
}

/// Refusals 1, 2 and 4 in this order; a refused access gives the registers back as received.
pub fn raw_access(
    registers: Registers,
    buffer: &[u64],
    access: Access,
) -> (Result<RawAnswer, Refusal>, Registers) {
    if let Err(refusal) = check(registers, buffer, access) {
        return (Err(refusal), registers);
    }
    let (answer, registers) = accepted_access(registers, buffer, access);
    (Ok(answer), registers)
}

/// A raw access that nothing refuses.
pub fn accepted_access(
    registers: Registers,
    buffer: &(impl Run<u64> + ?Sized),
    access: Access,
) -> (RawAnswer, Registers) {
    let translation = translate(registers, buffer, access);
    let answer = answer_of_row(registers, access, translation);
    if answer.exception {
        let registers = with_cause(registers, access, translation, answer.value);
        return (answer, registers);
    }
    (answer, registers)
}

fn check(registers: Registers, buffer: &[u64], access: Access) -> Result<(), Refusal> {
    check_registers(registers)?;
    check_buffer(buffer)?;
    check_draw(access.draw)
}

/// Rules 1 and 2: the linear segment in supervisor mode, otherwise the buffer.
pub fn translate(
    registers: Registers,
    buffer: &(impl Run<u64> + ?Sized),
    access: Access,
) -> Translation {
    let segment = segment(access.address);
    if !access.user && registers.segment_is_linear(segment) {
        let rest = access.address % (1 << 28);
        let address = (registers.segment_base(segment) << 28) | rest;
        return Translation::Linear { address };
    }
    match hits(registers, buffer, vpn(access.address))[..] {
        [] => Translation::Miss,
        [slot] => {
            let entry = Entry::unpack(buffer.at(slot));
            Translation::OneHit {
                slot,
                address: entry.pfn * 8192 + offset(access.address),
                value: value_on_one_hit(registers, entry, access),
            }
        }
        _ => Translation::SeveralHits,
    }
}

/// "The three may come together."
fn value_on_one_hit(registers: Registers, entry: Entry, access: Access) -> u32 {
    let mut value = 0;
    if access.write && !entry.we && registers.we_exc() {
        value += EXCEPTION_WRITE_ERROR;
    }
    if access.user && entry.kernel && registers.acc_exc() {
        value += EXCEPTION_ACCESS_VIOLATION;
    }
    if !entry.valid && registers.inv_exc() {
        value += EXCEPTION_INVALID_PAGE;
    }
    value
}

/// The exception's value where there is one; multiple hits are an exception of value 0.
fn exception_of(translation: Translation) -> Option<u32> {
    match translation {
        Translation::Linear { .. } => None,
        Translation::OneHit { value: 0, .. } => None,
        Translation::OneHit { value, .. } => Some(value),
        Translation::Miss => Some(EXCEPTION_MISS),
        Translation::SeveralHits => Some(0),
    }
}

/// The linear address or the pfn's; none on a miss and on multiple hits.
fn translated_address(translation: Translation) -> Option<u32> {
    match translation {
        Translation::Linear { address } => Some(address),
        Translation::OneHit { address, .. } => Some(address),
        Translation::Miss | Translation::SeveralHits => None,
    }
}

/// The table of ENABLE and test mode, one row for each arm.
fn answer_of_row(registers: Registers, access: Access, translation: Translation) -> RawAnswer {
    let exception = exception_of(translation);
    let translated = translated_address(translation);
    let (address, interrupt, exception) = match (registers.enable, registers.test) {
        (0, 0) => (Some(access.address), false, None),
        (0, _) => (Some(access.address), false, exception),
        (_, 0) if exception.is_some() => (None, true, exception),
        (_, 0) => (translated, false, None),
        (_, _) => (translated, false, exception),
    };
    RawAnswer {
        address,
        interrupt,
        exception: exception.is_some(),
        value: exception.unwrap_or(0),
    }
}

/// "Cause updated": vpn, context page_id, the exception bits and the write bit; and the
/// selected slot.
fn with_cause(
    registers: Registers,
    access: Access,
    translation: Translation,
    value: u32,
) -> Registers {
    let vpn = vpn(access.address);
    let select = match translation {
        Translation::Miss => slot(access.draw as usize, location(vpn)) as u32,
        Translation::OneHit { slot, .. } => slot as u32,
        Translation::SeveralHits | Translation::Linear { .. } => registers.select,
    };
    Registers {
        tlb_hi: vpn * 64 + registers.context,
        cause: value * 2 + u32::from(access.write),
        select,
        ..registers
    }
}
