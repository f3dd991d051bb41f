//! A leaf that a pass visits.

use super::words::VALID;
use reference::heap::PFNS;

#[derive(Clone, Copy)]
pub struct Visit {
    pub page: u32,
    pub index: usize,
    pub word: u32,
}

impl Visit {
    pub fn is_valid(&self) -> bool {
        self.word & VALID != 0
    }

    pub fn pfn(&self) -> u32 {
        self.word % PFNS
    }
}
