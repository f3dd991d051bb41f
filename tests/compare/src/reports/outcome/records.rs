//! Outcomes of the records of a trace, by what the report books of each.

use super::{access, store};
use crate::traces::record::{Record, ACCESS, STORE};
use reference::report::{ByCounts, LeafWords};
use reference::trace::{Unit, RECORD_BYTES, TABLE_WORDS};
use reference::Outcome;

const REFUSED: &str = "record refused";

pub fn all() -> Vec<String> {
    let mut all: Vec<String> = [5, 6, 7, 8].map(refused).to_vec();
    all.extend(access::all());
    all.extend(store::all());
    all
}

pub fn of(records: &[[u8; RECORD_BYTES]]) -> Vec<String> {
    let mut watch = Watch {
        unit: Unit::start(),
        leaves: ByCounts::begin(TABLE_WORDS),
    };
    records
        .iter()
        .flat_map(|&record| watch.step(record))
        .collect()
}

/// Whether the outcome is that of a refused record.
pub fn is_refused(outcome: &str) -> bool {
    outcome.starts_with(REFUSED)
}

fn refused(number: u32) -> String {
    format!("{REFUSED} {number}")
}

/// The unit, and the leaf words of its tables.
struct Watch {
    unit: Unit,
    leaves: ByCounts,
}

impl Watch {
    fn step(&mut self, bytes: [u8; RECORD_BYTES]) -> Vec<String> {
        let record = Record::from_bytes(bytes);
        match record.kind {
            ACCESS => {
                let registers = self.unit.registers;
                match self.unit.step(bytes) {
                    line if is_accepted(line.outcome) => {
                        access::of(registers, record, line.outcome, line.loads)
                    }
                    line => of_refused(line.outcome),
                }
            }
            STORE if (record.index as usize) < TABLE_WORDS => self.store(record),
            _ => of_refused(self.unit.step(bytes).outcome),
        }
    }

    fn store(&mut self, record: Record) -> Vec<String> {
        let before = store::Before::of(&self.unit, &self.leaves, record);
        let outcome = self.unit.step(record.to_bytes()).outcome;
        if !is_accepted(outcome) {
            return of_refused(outcome);
        }
        let index = record.index as usize;
        self.leaves.stored(&self.unit.words, index, before.word());
        before.outcomes(&self.unit, &self.leaves)
    }
}

fn is_accepted(outcome: Outcome) -> bool {
    !matches!(outcome, Outcome::Refused(_))
}

fn of_refused(outcome: Outcome) -> Vec<String> {
    match outcome {
        Outcome::Refused(refusal) => vec![refused(refusal.number())],
        _ => Vec::new(),
    }
}
