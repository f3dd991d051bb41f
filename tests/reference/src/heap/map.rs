//! The mapping of a frame.

use super::pool::Pool;
use super::take::take;
use crate::refusal::{
    check_buffer, check_index, check_pool, check_registers, check_tables, Refusal,
};
use crate::registers::Registers;
use crate::reply::Reply;
use crate::store::table_store;

/// "It answers the pfn and the slots emptied."
#[derive(Clone, Copy, Debug, PartialEq, Eq)]
pub struct Mapping {
    /// The store's reply, or the refusal.
    pub reply: Reply,
    /// 0 where the mapping is refused.
    pub pfn: u32,
}

/// "Mapping takes a frame and stores, by the guarded store at a given word, a given leaf with
/// present set and that frame's pfn." Refusals 1, for the registers or the pool, 2, 3, 6 and 10 in
/// this order; a refused mapping takes no frame.
pub fn map(
    registers: Registers,
    buffer: &mut [u64],
    words: &mut [u32],
    pool: Pool,
    index: u32,
    leaf: u32,
) -> (Mapping, Pool) {
    if let Err(refusal) = check(registers, buffer, words, &pool, index) {
        return (refused(refusal, registers), pool);
    }
    match take(pool) {
        (Ok(pfn), pool) => {
            let reply = table_store(registers, buffer, words, index, mapped_word(leaf, pfn));
            (Mapping { reply, pfn }, pool)
        }
        (Err(refusal), pool) => (refused(refusal, registers), pool),
    }
}

/// What can refuse a mapping before a frame is taken.
pub fn check(
    registers: Registers,
    buffer: &[u64],
    words: &[u32],
    pool: &Pool,
    index: u32,
) -> Result<(), Refusal> {
    check_registers(registers)?;
    check_pool(pool)?;
    check_buffer(buffer)?;
    check_tables(words.len())?;
    check_index(index, words.len())
}

pub fn refused(refusal: Refusal, registers: Registers) -> Mapping {
    Mapping {
        reply: Reply::refused(refusal, registers),
        pfn: 0,
    }
}

/// Present in bit 31; valid, kernel, we and the nine software bits, 30 to 19, as the leaf has
/// them; the frame's pfn in bits 18 to 0.
pub fn mapped_word(leaf: u32, pfn: u32) -> u32 {
    let given = (leaf >> 19) % (1 << 12);
    (1 << 31) + (given << 19) + pfn
}
