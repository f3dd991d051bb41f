//! The mapping of a virtual address.

use super::entry::Entry;
use super::state::State;
use super::PAGES;
use crate::refusal::{check_entries, Refusal};

/// "The upper 8 bits of the 24-bit physical address are set to 0x80", before the virtual address.
const BOOT_ROM: u32 = 0x80_0000;

/// What is to be mapped: the address on the A bus, and the lines USER and MEMWRITE.
#[derive(Clone, Copy, Debug, PartialEq, Eq)]
pub struct Mapping {
    pub address: u16,
    pub user: bool,
    pub write: bool,
}

/// "The three possible failures", each by itself.
#[derive(Clone, Copy, Debug, Default, PartialEq, Eq)]
pub struct Faults {
    pub no_mapping: bool,
    pub write_violation: bool,
    pub protection_violation: bool,
}

impl Faults {
    pub fn any(self) -> bool {
        self.no_mapping || self.write_violation || self.protection_violation
    }

    /// 1, 2 and 4, added up.
    pub fn number(self) -> u32 {
        u32::from(self.no_mapping)
            + 2 * u32::from(self.write_violation)
            + 4 * u32::from(self.protection_violation)
    }
}

/// "A faulting map still answers its address."
#[derive(Clone, Copy, Debug, PartialEq, Eq)]
pub struct Mapped {
    /// Of 24 bits.
    pub address: u32,
    pub faults: Faults,
}

/// Operation 0. A run of a wrong length is refused in boot mode too.
pub fn map(state: State, entries: &[u32], mapping: Mapping) -> (Result<Mapped, Refusal>, State) {
    if let Err(refusal) = check_entries(entries.len()) {
        return (Err(refusal), state);
    }
    if state.boot_mode {
        return (Ok(in_boot_mode(mapping)), state);
    }
    let mapped = by_table(state, entries, mapping);
    let mut state = state;
    if mapped.faults.any() {
        state.fault_address = mapping.address;
    }
    (Ok(mapped), state)
}

/// "No mapping at all happens", and "no page faults will be raised".
fn in_boot_mode(mapping: Mapping) -> Mapped {
    Mapped {
        address: BOOT_ROM + u32::from(mapping.address),
        faults: Faults::default(),
    }
}

/// "We combine the 5 register bits with the virtual page index (the top 8 bits of the virtual
/// address) to form a 13-bit address"; the low 8 bits pass "through unchanged".
fn by_table(state: State, entries: &[u32], mapping: Mapping) -> Mapped {
    let [virtual_page, offset] = mapping.address.to_be_bytes();
    let place = PAGES * state.active_table() + u32::from(virtual_page);
    let entry = Entry::unpack(entries[place as usize]);
    Mapped {
        address: u32::from(entry.page) << 8 | u32::from(offset),
        faults: Faults {
            no_mapping: !entry.mapped,
            write_violation: mapping.write && !entry.writable,
            protection_violation: entry.system && mapping.user,
        },
    }
}
