//! Whether a trace has records of all kinds.

use crate::traces::record::Record;
use reference::trace::{Unit, KINDS, RECORD_BYTES};
use reference::Outcome;

/// The refusals that records can have.
const REFUSALS: [u32; 4] = [5, 6, 7, 8];

/// Whether a record of each kind is accepted, and one is refused by each number.
pub fn are_all_in(trace: &[u8]) -> bool {
    let (records, _) = trace.as_chunks::<RECORD_BYTES>();
    let mut unit = Unit::start();
    let (mut kinds, mut refusals) = (Vec::new(), Vec::new());
    for &record in records {
        match unit.step(record).outcome {
            Outcome::Refused(refusal) => refusals.push(refusal.number()),
            _ => kinds.push(Record::from_bytes(record).kind),
        }
    }
    let is_accepted = |kind: u64| kinds.contains(&kind);
    let is_refused = |number: &u32| refusals.contains(number);
    (0..KINDS).all(is_accepted) && REFUSALS.iter().all(is_refused)
}
