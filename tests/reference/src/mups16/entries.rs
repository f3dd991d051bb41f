//! The operations that read and set entries.
//!
//! "The full page table address [is] given on the A bus; it is not combined with the index register
//! in any way."

use super::entry::Entry;
use super::state::State;
use super::ENTRIES;
use crate::refusal::{check_entries, Refusal};

/// Operation 2: "the low 16 bits (i.e. physical page) of the table entry".
pub fn low_word(entries: &[u32], a: u32) -> Result<u16, Refusal> {
    check_entries(entries.len())?;
    Ok(Entry::unpack(entries[place(a)]).page)
}

/// Operation 3: the permission bits in the lower byte, and "in the high word of the DATA bus [...]
/// the contents of the table index register".
pub fn high_word(state: State, entries: &[u32], a: u32) -> Result<u16, Refusal> {
    check_entries(entries.len())?;
    let status = Entry::unpack(entries[place(a)]).status();
    Ok((256 * state.active_table() + status) as u16)
}

/// Operation 6: "set the table entry at the page table address".
pub fn set_entry(entries: &mut [u32], a: u32, entry: Entry) -> Result<(), Refusal> {
    check_entries(entries.len())?;
    entries[place(a)] = entry.pack();
    Ok(())
}

/// "An entry address above 8,191 keeps its low 13 bits."
fn place(a: u32) -> usize {
    a as usize % ENTRIES
}
