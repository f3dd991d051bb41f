//! Files that are short or odd or of one walk, calls of none and of few, and totals with many digits.

use super::case::{Case, CountBy};
use super::comparison::Comparison;
use super::outcome::{NO_ARGUMENT, TWICE};
use super::{limit, script};
use crate::random::Random;
use crate::traces::script::{malformed, refused};
use crate::traces::stops;
use reference::trace::RECORD_BYTES;

const RECORDS: usize = 60;

/// Leaf words and cycles of see-saws that give totals of three to nine digits.
const SEE_SAWS: [(u32, usize); 7] = [
    (1, 100),
    (1001, 9),
    (15_360, 1),
    (15_360, 7),
    (15_360, 66),
    (15_360, 652),
    (15_360, 6511),
];

pub fn put(comparison: &mut Comparison, random: &mut Random) -> Result<(), String> {
    comparison.put_call(Vec::new(), Some(NO_ARGUMENT))?;
    for length in 0..RECORD_BYTES {
        comparison.put(vec![short(script::trace(random, 0, length))])?;
        comparison.put(vec![
            short(script::trace(random, RECORDS, length)),
            short(script::trace(random, 0, length)),
            short(script::trace(random, RECORDS, 0)),
        ])?;
    }
    for _ in 0..4 {
        let only_refused = short(only_refused(random));
        comparison.put(vec![only_refused, short(script::trace(random, RECORDS, 0))])?;
    }
    twice(comparison, random)?;
    comparison.put(stops::traces(random).into_iter().map(short).collect())?;
    for (leaves, cycles) in SEE_SAWS {
        let trace = limit::see_saw(random, leaves, cycles);
        comparison.put(vec![Case::of(trace, CountBy::Counts)])?;
    }
    Ok(())
}

fn short(trace: Vec<u8>) -> Case {
    Case::of(trace, CountBy::Walks)
}

/// Records that are malformed or refused, at times with a last piece.
fn only_refused(random: &mut Random) -> Vec<u8> {
    let mut trace = Vec::new();
    for _ in 0..RECORDS {
        let record = refused(random);
        let record = match random.one_in(2) {
            true => record,
            false => malformed(random, record),
        };
        trace.extend(record.to_bytes());
    }
    trace.truncate(trace.len() - random.below(2) * 5);
    trace
}

/// One file named twice in a call gives its lines twice.
fn twice(comparison: &mut Comparison, random: &mut Random) -> Result<(), String> {
    let trace = script::trace(random, RECORDS, 0);
    comparison.folder().write("twice", &trace)?;
    let case = || Case::named("twice".into(), trace.clone());
    comparison.put_call(vec![case(), case()], Some(TWICE))
}
