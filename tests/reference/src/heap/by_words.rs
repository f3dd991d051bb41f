//! The calls on a pool that is lent, a whole number of bits at a time.

use super::map::{check, mapped_word, refused, Mapping};
use super::pool::Pool;
use crate::refusal::{check_pool, Refusal};
use crate::registers::Registers;
use crate::reply::{Outcome, Reply};
use crate::store::store;

pub fn take(pool: &mut Pool) -> Result<u32, Refusal> {
    check_pool(pool)?;
    take_lowest(pool)
}

pub fn give(pool: &mut Pool, pfn: u32) -> Result<(), Refusal> {
    check_pool(pool)?;
    let place = pfn.wrapping_sub(pool.first);
    let bit = 1 << (place % 64);
    if place >= pool.size || pool.bits[place as usize / 64] & bit == 0 {
        return Err(Refusal::NotHeld);
    }
    pool.bits[place as usize / 64] ^= bit;
    Ok(())
}

pub fn held(pool: &Pool) -> Result<u32, Refusal> {
    check_pool(pool)?;
    let (whole, rest) = (pool.size as usize / 64, pool.size % 64);
    let held: u32 = pool.bits[..whole]
        .iter()
        .map(|bits| bits.count_ones())
        .sum();
    if rest == 0 {
        return Ok(held);
    }
    let within = pool.bits[whole] & ((1 << rest) - 1);
    Ok(held + within.count_ones())
}

pub fn map(
    registers: Registers,
    buffer: &mut [u64],
    words: &mut [u32],
    pool: &mut Pool,
    index: u32,
    leaf: u32,
) -> Mapping {
    let checked = check(registers, buffer, words, pool, index);
    match checked.and_then(|()| take_lowest(pool)) {
        Ok(pfn) => Mapping {
            reply: Reply {
                outcome: Outcome::Done(store(buffer, words, index, mapped_word(leaf, pfn))),
                loads: 0,
                registers,
            },
            pfn,
        },
        Err(refusal) => refused(refusal, registers),
    }
}

/// A take from a pool that is not refused. The first number that is not full has the lowest free
/// bit, unless that lies past the size.
fn take_lowest(pool: &mut Pool) -> Result<u32, Refusal> {
    let numbers = &mut pool.bits[..pool.size.div_ceil(64) as usize];
    let Some(n) = numbers.iter().position(|&bits| bits != u64::MAX) else {
        return Err(Refusal::PoolFull);
    };
    let bit = (!numbers[n]).trailing_zeros();
    let place = 64 * n as u32 + bit;
    if place >= pool.size {
        return Err(Refusal::PoolFull);
    }
    numbers[n] |= 1 << bit;
    Ok(pool.first + place)
}
