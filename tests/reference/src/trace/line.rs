//! The text of a record's line.

use crate::refusal::Refusal;
use crate::reply::Outcome;
use std::io::{self, Write};

#[derive(Clone, Copy, Debug, PartialEq, Eq)]
pub struct Line {
    pub outcome: Outcome,
    pub loads: u32,
}

impl Line {
    pub fn refused(refusal: Refusal) -> Line {
        Line {
            outcome: Outcome::Refused(refusal),
            loads: 0,
        }
    }

    /// "Record number from 0, word, eight hex digits, loads."
    pub fn write(self, number: u64, output: &mut impl Write) -> io::Result<()> {
        let (word, value) = match self.outcome {
            Outcome::At(address) => ("at", address),
            Outcome::Fault(value) => ("fault", value),
            Outcome::Done(emptied) => ("done", emptied),
            Outcome::Refused(refusal) => ("refused", refusal.number()),
        };
        writeln!(output, "{number} {word} {value:08X} {}", self.loads)
    }
}
