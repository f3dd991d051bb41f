//! The guarded table store.

use crate::refusal::{check_buffer, check_index, check_registers, check_tables, Refusal};
use crate::registers::Registers;
use crate::reply::{Outcome, Reply};
use crate::run::RunMut;
use crate::sweep::sweep;

/// Refusals 1, 2, 3 and 6 in this order. "Writes one table word, then sweeps." "Registers stay."
pub fn table_store(
    registers: Registers,
    buffer: &mut [u64],
    words: &mut [u32],
    index: u32,
    value: u32,
) -> Reply {
    if let Err(refusal) = check(registers, buffer, words, index) {
        return Reply::refused(refusal, registers);
    }
    Reply {
        outcome: Outcome::Done(store(buffer, words, index, value)),
        loads: 0,
        registers,
    }
}

/// A store that nothing refuses; the slots emptied.
pub fn store(
    buffer: &mut (impl RunMut<u64> + ?Sized),
    words: &mut (impl RunMut<u32> + ?Sized),
    index: u32,
    value: u32,
) -> u32 {
    words.put(index as usize, value);
    sweep(buffer, words)
}

fn check(registers: Registers, buffer: &[u64], words: &[u32], index: u32) -> Result<(), Refusal> {
    check_registers(registers)?;
    check_buffer(buffer)?;
    check_tables(words.len())?;
    check_index(index, words.len())
}
