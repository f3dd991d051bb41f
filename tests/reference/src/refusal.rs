//! The numbers a call can refuse with, and the ground of each.

use crate::address::SLOTS;
use crate::heap::{Pool, MOST_FRAMES, PFNS};
use crate::mups16::ENTRIES;
use crate::registers::{fits, Registers, FIELD_BITS};

/// The last of the guarded settings' numbers.
const CONTEXT: u32 = 5;

#[derive(Clone, Copy, Debug, PartialEq, Eq)]
pub enum Refusal {
    RegisterField,
    BufferLength,
    TableLength,
    Draw,
    TestModeOrContext,
    WordIndex,
    RegisterNumber,
    Record,
    Total,
    /// Number 1 of a call on a pool.
    Pool,
    PoolFull,
    NotHeld,
    /// Number 5 of a pass.
    Identification,
    /// A tree that a pass can't be made over.
    Tree,
    /// Number 2 of the MUPS/16 unit.
    EntryLength,
}

impl Refusal {
    pub fn number(self) -> u32 {
        match self {
            Refusal::RegisterField | Refusal::Pool => 1,
            Refusal::BufferLength | Refusal::EntryLength => 2,
            Refusal::TableLength => 3,
            Refusal::Draw => 4,
            Refusal::TestModeOrContext | Refusal::Identification => 5,
            Refusal::WordIndex => 6,
            Refusal::RegisterNumber => 7,
            Refusal::Record => 8,
            Refusal::Total => 9,
            Refusal::PoolFull => 10,
            Refusal::NotHeld => 11,
            Refusal::Tree => 12,
        }
    }
}

/// Number 1: "a register field exceeds its bits".
pub fn check_registers(registers: Registers) -> Result<(), Refusal> {
    for (word, bits) in registers.to_words().into_iter().zip(FIELD_BITS) {
        if !fits(word, bits) {
            return Err(Refusal::RegisterField);
        }
    }
    Ok(())
}

/// Number 2: "the buffer run is not 64 long".
pub fn check_buffer(buffer: &[u64]) -> Result<(), Refusal> {
    if buffer.len() != SLOTS {
        return Err(Refusal::BufferLength);
    }
    Ok(())
}

/// Number 3: "the table run is below 1,024 words, above 67,108,864, or no multiple of 1,024".
pub fn check_tables(length: usize) -> Result<(), Refusal> {
    if !(1024..=67_108_864).contains(&length) || !length.is_multiple_of(1024) {
        return Err(Refusal::TableLength);
    }
    Ok(())
}

/// Number 4: "draw above 3".
pub fn check_draw(draw: u32) -> Result<(), Refusal> {
    if draw > 3 {
        return Err(Refusal::Draw);
    }
    Ok(())
}

/// The first half of number 5: "served access in test mode or with context 63".
pub fn check_served(registers: Registers) -> Result<(), Refusal> {
    if registers.test == 1 || registers.context == 63 {
        return Err(Refusal::TestModeOrContext);
    }
    Ok(())
}

/// The second half of number 5: "guarded switch above 62". Other settings are no switch.
pub fn check_switch(number: u32, value: u32) -> Result<(), Refusal> {
    if number == CONTEXT && value > 62 {
        return Err(Refusal::TestModeOrContext);
    }
    Ok(())
}

/// Number 5 of a pass: "an identification above 62".
pub fn check_identification(id: u32) -> Result<(), Refusal> {
    if id > 62 {
        return Err(Refusal::Identification);
    }
    Ok(())
}

/// Number 6: "word index at or past the run's length".
pub fn check_index(index: u32, length: usize) -> Result<(), Refusal> {
    if index as usize >= length {
        return Err(Refusal::WordIndex);
    }
    Ok(())
}

/// The first half of number 7: "unknown register number". The cause has no number.
pub fn check_number(number: u32) -> Result<(), Refusal> {
    if number > 9 {
        return Err(Refusal::RegisterNumber);
    }
    Ok(())
}

/// Number 7 of a guarded setting: "every other register number is unknown" but those of KSEG,
/// CTRL, ENABLE, KBASE_LO, KBASE_HI and CONTEXT, "or a value too large for it".
pub fn check_setting(number: u32, value: u32) -> Result<(), Refusal> {
    if number > CONTEXT || !fits(value, FIELD_BITS[number as usize]) {
        return Err(Refusal::RegisterNumber);
    }
    Ok(())
}

/// Number 1 "also for a size of 0 or above 4,096, or a pool that runs past pfn 524,287".
pub fn check_pool(pool: &Pool) -> Result<(), Refusal> {
    let end = u64::from(pool.first) + u64::from(pool.size);
    if pool.size == 0 || pool.size > MOST_FRAMES || end > u64::from(PFNS) {
        return Err(Refusal::Pool);
    }
    Ok(())
}

/// Number 2 of the MUPS/16 unit: "where its entry run isn't 8,192 long, and no other".
pub fn check_entries(length: usize) -> Result<(), Refusal> {
    if length != ENTRIES {
        return Err(Refusal::EntryLength);
    }
    Ok(())
}
