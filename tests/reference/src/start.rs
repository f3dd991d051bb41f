//! The start: every slot empty, all registers 0.

use crate::address::{LOCATIONS, SETS};
use crate::entry::Entry;
use crate::refusal::{check_buffer, Refusal};
use crate::registers::Registers;

/// The registers are all 0 whether or not the start is refused.
pub fn start(buffer: &mut [u64]) -> (Result<(), Refusal>, Registers) {
    let checked = check_buffer(buffer);
    if checked.is_ok() {
        for set in 0..SETS {
            let stretch = &mut buffer[LOCATIONS * set..LOCATIONS * (set + 1)];
            stretch.fill(Entry::empty(set).pack());
        }
    }
    (checked, Registers::default())
}
