//! The sweep of the buffer after a table store.

use crate::address::{LOCATIONS, SLOTS};
use crate::entry::Entry;
use crate::leaf::Leaf;
use crate::run::{Run, RunMut};
use crate::walk::walk;

/// "All others become empty; the number of emptied slots is the answer." A kept slot's number
/// stays, high bits too.
pub fn sweep(buffer: &mut (impl RunMut<u64> + ?Sized), words: &(impl Run<u32> + ?Sized)) -> u32 {
    let mut emptied = 0;
    for slot in 0..SLOTS {
        if !is_kept(slot, Entry::unpack(buffer.at(slot)), words) {
            buffer.put(slot, Entry::empty(slot / LOCATIONS).pack());
            emptied += 1;
        }
    }
    emptied
}

/// "A slot is kept if it is empty, or if its page_id is at most 62 and the walk of its vpn under
/// that page_id now gives a leaf with the same global, valid, kernel, we and pfn."
pub fn is_kept(slot: usize, entry: Entry, words: &(impl Run<u32> + ?Sized)) -> bool {
    if entry == Entry::empty(slot / LOCATIONS) {
        return true;
    }
    if entry.page_id > 62 {
        return false;
    }
    let walk = walk(words, entry.page_id, vpn_of(slot, entry));
    Leaf::of_walk(walk) == Some(leaf_of(entry))
}

/// The page that an entry stands for in its slot: vpn15 × 16 + location.
pub fn vpn_of(slot: usize, entry: Entry) -> u32 {
    entry.vpn15 * 16 + (slot % LOCATIONS) as u32
}

/// The fields that an entry has from a leaf.
pub fn leaf_of(entry: Entry) -> Leaf {
    Leaf {
        global: entry.global,
        valid: entry.valid,
        kernel: entry.kernel,
        we: entry.we,
        pfn: entry.pfn,
    }
}
