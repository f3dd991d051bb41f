//! A trace under way, and the unit as its records leave it.

use super::record::Record;
use reference::trace::{Unit, RECORD_BYTES};

pub struct Written {
    pub bytes: Vec<u8>,
    pub unit: Unit,
}

impl Written {
    pub fn begin() -> Written {
        Written {
            bytes: Vec::new(),
            unit: Unit::start(),
        }
    }

    pub fn records(&self) -> usize {
        self.bytes.len() / RECORD_BYTES
    }

    pub fn add(&mut self, record: Record) {
        let bytes = record.to_bytes();
        self.unit.step(bytes);
        self.bytes.extend(bytes);
    }

    /// The first records, so many, and a last piece of so many bytes of another.
    pub fn end(mut self, records: usize, last: Record, piece: usize) -> Vec<u8> {
        self.bytes.truncate(RECORD_BYTES * records);
        self.bytes.extend(&last.to_bytes()[..piece]);
        self.bytes
    }
}
