//! One pass, page by page.

use super::leaves::{by_pages, leaf_of_page, pfn_of, PAGES};
use super::unfit::grounds;
use crate::heap::{give, Pool};
use crate::refusal::{
    check_buffer, check_identification, check_pool, check_registers, check_tables, Refusal,
};
use crate::registers::Registers;
use crate::reply::{Outcome, Reply};
use crate::store::table_store;
use crate::walk::{present, Decided};

const PRESENT: u32 = 1 << 31;
const VALID: u32 = 1 << 30;

/// "It answers the frames given back and the slots emptied."
#[derive(Clone, Copy, Debug, PartialEq, Eq)]
pub struct Pass {
    /// Done with the slots that all its stores emptied, or the refusal.
    pub reply: Reply,
    /// 0 where the pass is refused.
    pub given: u32,
}

/// "A pass visits each present leaf of one identification's own tree whose pfn is in the pool,
/// lowest page first." Refusals 1, for the registers or the pool, 2, 3, 5 and 12 in this order.
/// CONTEXT and the test mode are not looked at.
pub fn collect(
    registers: Registers,
    buffer: &mut [u64],
    words: &mut [u32],
    pool: Pool,
    id: u32,
) -> (Pass, Pool) {
    let checked = check(registers, buffer, words, &pool, id)
        .and_then(|()| check_tree(words, &pool, id, &by_pages(words, id)));
    if let Err(refusal) = checked {
        return (refused(refusal, registers), pool);
    }
    let (mut emptied, mut given) = (0, 0);
    let mut pool = pool;
    for page in 0..PAGES {
        let Some(leaf) = leaf_of_page(words, id, page) else {
            continue;
        };
        let pfn = pfn_of(leaf.word);
        if pool.place_of(pfn).is_none() {
            continue;
        }
        let word = aged_or_gone(leaf.word);
        let stored = table_store(registers, buffer, words, leaf.index as u32, word);
        let Outcome::Done(slots) = stored.outcome else {
            panic!("the store at {} is refused", leaf.index);
        };
        emptied += slots;
        if !present(word) {
            let (back, after) = give(pool, pfn);
            assert_eq!(back, Ok(()), "frame {pfn}");
            pool = after;
            given += 1;
        }
    }
    (done(emptied, given, registers), pool)
}

/// "Valid 1 becomes 0, valid 0 loses its present bit"; no other bit changes.
pub fn aged_or_gone(leaf: u32) -> u32 {
    match leaf & VALID {
        0 => leaf & !PRESENT,
        _ => leaf & !VALID,
    }
}

/// What can refuse a pass before its tree is looked at.
pub fn check(
    registers: Registers,
    buffer: &[u64],
    words: &[u32],
    pool: &Pool,
    id: u32,
) -> Result<(), Refusal> {
    check_registers(registers)?;
    check_pool(pool)?;
    check_buffer(buffer)?;
    check_tables(words.len())?;
    check_identification(id)
}

/// Number 12.
pub fn check_tree(words: &[u32], pool: &Pool, id: u32, leaves: &[Decided]) -> Result<(), Refusal> {
    match grounds(words, pool, id, leaves)[..] {
        [] => Ok(()),
        _ => Err(Refusal::Tree),
    }
}

pub fn done(emptied: u32, given: u32, registers: Registers) -> Pass {
    Pass {
        reply: Reply {
            outcome: Outcome::Done(emptied),
            loads: 0,
            registers,
        },
        given,
    }
}

pub fn refused(refusal: Refusal, registers: Registers) -> Pass {
    Pass {
        reply: Reply::refused(refusal, registers),
        given: 0,
    }
}
