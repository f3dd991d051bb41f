//! A pool of frames, by value.

/// "A pool of up to 4,096 frames".
pub const MOST_FRAMES: u32 = 4096;

/// "Kept as bits in 64-bit words", a bit for each frame.
pub const BIT_NUMBERS: usize = 64;

/// How many pfns there are; the last is 524,287.
pub const PFNS: u32 = 524_288;

/// "The pool is a first pfn and a size", and the bits of its frames.
#[derive(Clone, Copy, Debug, PartialEq, Eq)]
pub struct Pool {
    pub first: u32,
    pub size: u32,
    /// Bit j of number k is that of place 64k + j, counted from the first pfn; a set bit is a held
    /// frame. "Bits past its size are ignored and stay."
    pub bits: [u64; BIT_NUMBERS],
}

impl Pool {
    /// What a refused new pool is.
    pub const ALL_ZERO: Pool = Pool {
        first: 0,
        size: 0,
        bits: [0; BIT_NUMBERS],
    };

    /// Whether the frame at a place below 4,096 is held.
    pub fn is_held(&self, place: u32) -> bool {
        self.bits[place as usize / 64] >> (place % 64) & 1 == 1
    }

    /// The lowest place within the size whose frame is free.
    pub fn lowest_free(&self) -> Option<u32> {
        (0..self.size).find(|&place| !self.is_held(place))
    }

    /// The place within the size that a pfn has.
    pub fn place_of(&self, pfn: u32) -> Option<u32> {
        let place = pfn.checked_sub(self.first)?;
        (place < self.size).then_some(place)
    }

    /// The pool with the bit of one frame turned over.
    pub fn with_other_bit(mut self, place: u32) -> Pool {
        self.bits[place as usize / 64] ^= 1 << (place % 64);
        self
    }
}
