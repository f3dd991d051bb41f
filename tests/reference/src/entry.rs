//! An entry of 44 bits and the number that holds it.

#[derive(Clone, Copy, Debug, PartialEq, Eq)]
pub struct Entry {
    /// 15 bits, in bits 43 to 29.
    pub vpn15: u32,
    /// 6 bits, in bits 28 to 23.
    pub page_id: u32,
    /// Bit 22.
    pub global: bool,
    /// Bit 21.
    pub valid: bool,
    /// Bit 20.
    pub kernel: bool,
    /// Bit 19, write enable.
    pub we: bool,
    /// 19 bits, in bits 18 to 0.
    pub pfn: u32,
}

impl Entry {
    /// Bits 44 and up are "written as zero".
    pub fn pack(self) -> u64 {
        (u64::from(self.vpn15) << 29)
            | (u64::from(self.page_id) << 23)
            | (u64::from(self.global) << 22)
            | (u64::from(self.valid) << 21)
            | (u64::from(self.kernel) << 20)
            | (u64::from(self.we) << 19)
            | u64::from(self.pfn)
    }

    /// Bits 44 and up are "ignored on reading".
    pub fn unpack(number: u64) -> Entry {
        Entry {
            vpn15: field(number, 29, 15),
            page_id: field(number, 23, 6),
            global: field(number, 22, 1) == 1,
            valid: field(number, 21, 1) == 1,
            kernel: field(number, 20, 1) == 1,
            we: field(number, 19, 1) == 1,
            pfn: field(number, 0, 19),
        }
    }

    /// "Empty slot: vpn15 = its set number, page_id 63, all else 0."
    pub fn empty(set: usize) -> Entry {
        Entry {
            vpn15: set as u32,
            page_id: 63,
            global: false,
            valid: false,
            kernel: false,
            we: false,
            pfn: 0,
        }
    }
}

/// The field of `bits` bits whose lowest bit is `lowest`.
fn field(number: u64, lowest: u32, bits: u32) -> u32 {
    ((number >> lowest) % (1 << bits)) as u32
}
