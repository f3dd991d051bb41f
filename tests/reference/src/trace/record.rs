//! A record of eight bytes and the call that it asks for.

use crate::raw::Access;
use crate::reader::GuardedCall;
use crate::refusal::Refusal;

pub const RECORD_BYTES: usize = 8;

/// Kinds 0 to 7.
pub const KINDS: u64 = 8;

/// "Kind 4, user 1, write 1, draw 2, index 24, value 32", most significant first. "Kinds 1 to 7
/// need user, write and draw 0; kinds 0 and 2 to 7 need index 0. Otherwise, or kind above 7,
/// refusal 8, before all other checks."
pub fn call_of(record: [u8; RECORD_BYTES]) -> Result<GuardedCall, Refusal> {
    let record = u64::from_be_bytes(record);
    let kind = record >> 60;
    let modes = record >> 56 & 0xF;
    let index = (record >> 32 & 0xFF_FFFF) as u32;
    let value = record as u32;
    if kind >= KINDS || (kind != 0 && modes != 0) || (kind != 1 && index != 0) {
        return Err(Refusal::Record);
    }
    let setting = |number| GuardedCall::Setting { number, value };
    Ok(match kind {
        0 => GuardedCall::Access(Access {
            address: value,
            user: modes & 8 != 0,
            write: modes & 4 != 0,
            draw: (modes & 3) as u32,
        }),
        1 => GuardedCall::Store { index, value },
        2 => setting(5),
        3 => setting(1),
        4 => setting(0),
        5 => setting(3),
        6 => setting(4),
        _ => setting(2),
    })
}
