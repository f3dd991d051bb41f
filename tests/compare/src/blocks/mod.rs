//! Traces that have more records than a program reads at a time. What one block leaves is needed
//! behind its end, so that a loss at any boundary changes what is printed.

pub mod boundary;
pub mod cases;
mod crossing;
pub mod ends;
mod every_word;
#[cfg(test)]
pub mod faulty;
mod filler;
pub mod fresh;
mod kinds;
pub mod part;
pub mod pieces;
mod scene;

use boundary::Sees;
use reference::trace::RECORD_BYTES;

/// How a program reads its traces.
#[derive(Clone, Copy)]
pub struct Reads {
    /// What outcomes call one.
    pub what: &'static str,
    /// How many records it reads at a time.
    pub block: usize,
    pub sees: Sees,
}

pub const BY_TRACE: Reads = Reads {
    what: "trace",
    block: 1024,
    sees: Sees::Trace,
};

pub const BY_REPORT: Reads = Reads {
    what: "file",
    block: 8192,
    sees: Sees::Report,
};

impl Reads {
    pub fn block_bytes(self) -> usize {
        RECORD_BYTES * self.block
    }

    /// Every outcome of the cases.
    pub fn all(self) -> Vec<String> {
        let mut all = ends::all(self);
        all.extend(boundary::all(self));
        all.push(every_word::outcome(self));
        all
    }
}
