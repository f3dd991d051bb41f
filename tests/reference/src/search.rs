//! The search of the four slots of a location.

use crate::address::{location, slots_of, vpn15, SETS};
use crate::entry::Entry;
use crate::registers::Registers;
use crate::run::Run;
use std::ops::Deref;

/// "Hit: (valid or inv_exc), and vpn15 equal, and (page_id equal to the context or global)."
pub fn is_hit(registers: Registers, entry: Entry, vpn: u32) -> bool {
    (entry.valid || registers.inv_exc())
        && entry.vpn15 == vpn15(vpn)
        && (entry.page_id == registers.context || entry.global)
}

/// The hitting slots, lowest first.
#[derive(Clone, Copy, Debug, Default)]
pub struct Hits {
    slots: [usize; SETS],
    count: usize,
}

impl Deref for Hits {
    type Target = [usize];

    fn deref(&self) -> &[usize] {
        &self.slots[..self.count]
    }
}

/// "Only the four slots of the location are searched."
pub fn hits(registers: Registers, buffer: &(impl Run<u64> + ?Sized), vpn: u32) -> Hits {
    let mut hits = Hits::default();
    for slot in slots_of(location(vpn)) {
        if is_hit(registers, Entry::unpack(buffer.at(slot)), vpn) {
            hits.slots[hits.count] = slot;
            hits.count += 1;
        }
    }
    hits
}
