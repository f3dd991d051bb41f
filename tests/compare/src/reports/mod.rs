//! Reports over trace files, each call's by a process of its own and compared byte for byte.

mod across;
mod case;
mod columns;
mod comparison;
mod edges;
mod failing;
mod fifo;
mod folder;
mod forbidden;
mod limit;
mod names;
mod outcome;
mod script;
#[cfg(test)]
mod stand_ins;
mod terminal;

use crate::random::Random;
use crate::traces;
use case::{Case, CountBy};
use comparison::Comparison;
use reference::trace::RECORD_BYTES;

/// How many files are put in all, about.
pub const FILES: usize = 830;

/// A call has up to so many files, and one call has so many that their numbers have three digits.
const FILES_IN_A_CALL: usize = 12;
const FILES_IN_THE_LONGEST_CALL: usize = 110;

/// Traces that are judged by the definition's count are shorter than this, the others than that.
const FEW_RECORDS: usize = 220;
const MANY_RECORDS: usize = 2500;

pub fn compare(program: &str, seed: u64, files: usize) -> Result<bool, String> {
    let mut random = Random::new(seed);
    let mut comparison = Comparison::new(program)?;
    edges::put(&mut comparison, &mut random)?;
    names::put(&mut comparison, &mut random)?;
    limit::put(&mut comparison, &mut random)?;
    let many = (0..FILES_IN_THE_LONGEST_CALL).map(|_| short(&mut random));
    comparison.put(many.collect())?;
    while comparison.files() < files {
        let number = 1 + random.below(FILES_IN_A_CALL);
        let cases = (0..number).map(|_| any(&mut random)).collect();
        comparison.put(cases)?;
    }
    across::put(&mut comparison, &mut random)?;
    failing::put(&mut comparison, &mut random)?;
    forbidden::put(&mut comparison, &mut random)?;
    Ok(comparison.finish())
}

fn any(random: &mut Random) -> Case {
    match random.one_in(2) {
        true => short(random),
        false => {
            let records = random.below(MANY_RECORDS);
            Case::of(trace(random, records), CountBy::Counts)
        }
    }
}

fn short(random: &mut Random) -> Case {
    let records = random.below(FEW_RECORDS);
    Case::of(trace(random, records), CountBy::Walks)
}

/// Mostly one that is rich in stores, else one like those that the trace program is tried with.
fn trace(random: &mut Random, records: usize) -> Vec<u8> {
    let piece = match random.one_in(6) {
        true => 1 + random.below(RECORD_BYTES - 1),
        false => 0,
    };
    match random.one_in(4) {
        true => traces::script::trace(random, records, piece),
        false => script::trace(random, records, piece),
    }
}
