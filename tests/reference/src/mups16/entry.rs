//! A page table entry.

/// "Each page table entry is 19 bits long: 16 bits for the physical page address, and three status
/// bits". "Bits 18 to 16 are mapped, system, writable".
#[derive(Clone, Copy, Debug, PartialEq, Eq)]
pub struct Entry {
    /// "Set to 1 if the entry is valid".
    pub mapped: bool,
    /// "Set to 1 if the page can only be accessed when the USER flag is not set".
    pub system: bool,
    /// "Set to 1 if writes to the page should be allowed".
    pub writable: bool,
    pub page: u16,
}

impl Entry {
    /// "Higher ones read [...] as 0".
    pub fn unpack(word: u32) -> Entry {
        let bit = |n: u32| word >> n & 1 == 1;
        Entry {
            mapped: bit(18),
            system: bit(17),
            writable: bit(16),
            page: word as u16,
        }
    }

    /// "Higher ones [...] write as 0".
    pub fn pack(self) -> u32 {
        self.status() << 16 | u32::from(self.page)
    }

    /// The three status bits.
    pub fn status(self) -> u32 {
        u32::from(self.mapped) << 2 | u32::from(self.system) << 1 | u32::from(self.writable)
    }
}
