//! The load of a leaf into the buffer.

use crate::address::{location, slot, slots_of, vpn15};
use crate::entry::Entry;
use crate::leaf::Leaf;
use crate::registers::Registers;
use crate::run::{Run, RunMut};

/// "It stores vpn15, context page_id and the leaf's fields; SELECT then names that slot, and no
/// other register changes."
pub fn load(
    registers: Registers,
    buffer: &mut (impl RunMut<u64> + ?Sized),
    vpn: u32,
    leaf: Leaf,
    draw: u32,
) -> Registers {
    let slot = slot_to_load(registers, buffer, vpn, draw);
    let entry = Entry {
        vpn15: vpn15(vpn),
        page_id: registers.context,
        global: leaf.global,
        valid: leaf.valid,
        kernel: leaf.kernel,
        we: leaf.we,
        pfn: leaf.pfn,
    };
    buffer.put(slot, entry.pack());
    Registers {
        select: slot as u32,
        ..registers
    }
}

/// "Among the location's four slots, the lowest that has the vpn15 and is global or carries the
/// context's page_id, whatever its valid bit; else the slot of the draw."
pub fn slot_to_load(
    registers: Registers,
    buffer: &(impl Run<u64> + ?Sized),
    vpn: u32,
    draw: u32,
) -> usize {
    for slot in slots_of(location(vpn)) {
        if is_of_page(registers, Entry::unpack(buffer.at(slot)), vpn) {
            return slot;
        }
    }
    slot(draw as usize, location(vpn))
}

/// Whether an entry at the page's location stands for the page under the context.
pub fn is_of_page(registers: Registers, entry: Entry, vpn: u32) -> bool {
    entry.vpn15 == vpn15(vpn) && (entry.global || entry.page_id == registers.context)
}
