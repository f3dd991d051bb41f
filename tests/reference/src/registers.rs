//! The register fields: the numbers 0 to 9, then the cause.

pub const FIELDS: usize = 11;

/// The numbers through which an entry is written and read.
pub const SELECT: u32 = 6;
pub const TLB_HI: u32 = 7;
pub const TLB_LO: u32 = 8;

/// Field n is register number n; the last is exception value × 2 + write bit.
pub const FIELD_NAMES: [&str; FIELDS] = [
    "kseg", "ctrl", "enable", "kbase_lo", "kbase_hi", "context", "select", "tlb_hi", "tlb_lo",
    "test", "cause",
];

/// How many bits each field has.
pub const FIELD_BITS: [u32; FIELDS] = [16, 3, 1, 32, 32, 6, 6, 25, 23, 1, 5];

#[derive(Clone, Copy, Debug, Default, PartialEq, Eq)]
pub struct Registers {
    pub kseg: u32,
    pub ctrl: u32,
    pub enable: u32,
    pub kbase_lo: u32,
    pub kbase_hi: u32,
    pub context: u32,
    pub select: u32,
    /// The vpn in bits 24 to 6 and the page_id in bits 5 to 0, shared with the cause register.
    pub tlb_hi: u32,
    /// What was last written to TLB_LO; a read gives the entry at SELECT instead.
    pub tlb_lo: u32,
    pub test: u32,
    /// The cause register's own part: exception value × 2 + write bit.
    pub cause: u32,
}

impl Registers {
    pub fn from_words(words: [u32; FIELDS]) -> Registers {
        let [kseg, ctrl, enable, kbase_lo, kbase_hi, context, select, tlb_hi, tlb_lo, test, cause] =
            words;
        Registers {
            kseg,
            ctrl,
            enable,
            kbase_lo,
            kbase_hi,
            context,
            select,
            tlb_hi,
            tlb_lo,
            test,
            cause,
        }
    }

    pub fn to_words(self) -> [u32; FIELDS] {
        [
            self.kseg,
            self.ctrl,
            self.enable,
            self.kbase_lo,
            self.kbase_hi,
            self.context,
            self.select,
            self.tlb_hi,
            self.tlb_lo,
            self.test,
            self.cause,
        ]
    }

    /// CTRL bit 2.
    pub fn inv_exc(self) -> bool {
        self.ctrl & 4 != 0
    }

    /// CTRL bit 1.
    pub fn acc_exc(self) -> bool {
        self.ctrl & 2 != 0
    }

    /// CTRL bit 0.
    pub fn we_exc(self) -> bool {
        self.ctrl & 1 != 0
    }

    /// "Bit n belongs to segment n".
    pub fn segment_is_linear(self, segment: u32) -> bool {
        (self.kseg >> segment) & 1 == 1
    }

    /// "Four per segment, lowest segment in the lowest bits".
    pub fn segment_base(self, segment: u32) -> u32 {
        if segment < 8 {
            (self.kbase_lo >> (4 * segment)) % 16
        } else {
            (self.kbase_hi >> (4 * (segment - 8))) % 16
        }
    }

    /// TLB_HI bits 24 to 6.
    pub fn shared_vpn(self) -> u32 {
        self.tlb_hi >> 6
    }

    /// TLB_HI bits 5 to 0.
    pub fn shared_page_id(self) -> u32 {
        self.tlb_hi % 64
    }
}

/// Whether a value has no bit set past the given number of bits.
pub fn fits(value: u32, bits: u32) -> bool {
    u64::from(value) < 1u64 << bits
}
