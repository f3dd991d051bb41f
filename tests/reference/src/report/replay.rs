//! One file's records, and what each books.

use super::leaf_words::LeafWords;
use super::totals::Totals;
use crate::reader::GuardedCall;
use crate::refusal::Refusal;
use crate::reply::Outcome;
use crate::trace::{call_of, Line, Unit, RECORD_BYTES, TABLE_WORDS};

/// "Identifications 0 to 62".
pub const IDENTIFICATIONS: usize = 63;

#[derive(Clone, Debug)]
pub struct Replay<L> {
    pub unit: Unit,
    pub leaves: L,
    /// By identification.
    pub totals: Vec<Totals>,
}

impl<L: LeafWords> Replay<L> {
    pub fn start() -> Replay<L> {
        Replay {
            unit: Unit::start(),
            leaves: L::begin(TABLE_WORDS),
            totals: vec![Totals::default(); IDENTIFICATIONS],
        }
    }

    /// Makes the record's call and books it under CONTEXT as the call found it. "Totals equal those
    /// defined from the accepted records": a refused one books nothing. The refusal that comes back
    /// is the report's own and stops the file.
    pub fn step(&mut self, record: [u8; RECORD_BYTES]) -> Result<(), Refusal> {
        match call_of(record) {
            Ok(GuardedCall::Access(_)) => self.access(record),
            Ok(GuardedCall::Store { index, .. }) => self.store(record, index as usize),
            Ok(GuardedCall::Setting { .. }) | Err(_) => {
                self.unit.step(record);
                Ok(())
            }
        }
    }

    fn access(&mut self, record: [u8; RECORD_BYTES]) -> Result<(), Refusal> {
        let identification = self.unit.registers.context as usize;
        match self.unit.step(record) {
            Line {
                outcome: Outcome::Refused(_),
                ..
            } => Ok(()),
            Line { outcome, loads } => self.totals[identification].book_access(outcome, loads),
        }
    }

    fn store(&mut self, record: [u8; RECORD_BYTES], index: usize) -> Result<(), Refusal> {
        let identification = self.unit.registers.context as usize;
        let old = self.unit.words.get(index).copied();
        let (Outcome::Done(emptied), Some(old)) = (self.unit.step(record).outcome, old) else {
            return Ok(());
        };
        let before = self.leaves.count() as i64;
        self.leaves.stored(&self.unit.words, index, old);
        let change = self.leaves.count() as i64 - before;
        self.totals[identification].book_store(emptied, change)
    }
}
