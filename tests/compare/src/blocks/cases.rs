//! The traces across blocks, each with the outcomes that it is there for.

use super::crossing::{self, PHASES};
use super::ends::{self, LENGTHS};
use super::{boundary, every_word, kinds, Reads};
use crate::random::Random;
use reference::trace::RECORD_BYTES;
use std::iter::StepBy;
use std::ops::{Range, RangeInclusive};

pub struct Case {
    pub trace: Vec<u8>,
    /// Each with whether it holds, whatever the program under test says.
    pub outcomes: Vec<(String, bool)>,
}

/// Traces with few boundaries have each phase for the first. Of the others each boundary has another
/// one, and so many begin that every phase is had behind the first boundary too.
const FEW_BOUNDARIES: usize = 2;
const STEP: usize = 7;

/// Cut records stand at the first boundaries.
const CUT_AT: RangeInclusive<usize> = 1..=2;

pub fn cases(random: &mut Random, reads: Reads) -> Vec<Case> {
    let mut cases = Vec::new();
    for records in LENGTHS {
        for phase in first_phases(records / reads.block) {
            cases.push(case(random, reads, phase, (records, 0)));
        }
    }
    for boundary in CUT_AT {
        for piece in 1..RECORD_BYTES {
            let records = boundary * reads.block;
            for whole in [records - 1, records] {
                cases.push(case(random, reads, piece, (whole, piece)));
            }
        }
    }
    cases.push(Case {
        trace: every_word::trace(),
        outcomes: vec![(every_word::outcome(reads), true)],
    });
    cases
}

fn first_phases(boundaries: usize) -> StepBy<Range<usize>> {
    match boundaries {
        0 => (0..1).step_by(1),
        1..=FEW_BOUNDARIES => (0..PHASES).step_by(1),
        _ => (0..2 * PHASES).step_by(STEP),
    }
}

fn case(random: &mut Random, reads: Reads, phase: usize, length: (usize, usize)) -> Case {
    let trace = crossing::trace(random, reads.block, phase, length);
    let (records, piece) = length;
    let is_of_all_kinds = kinds::are_all_in(&trace);
    let ends = ends::of(reads, records, piece).into_iter();
    let mut outcomes: Vec<(String, bool)> =
        ends.map(|outcome| (outcome, is_of_all_kinds)).collect();
    outcomes.extend(boundary::of(reads, &trace));
    Case { trace, outcomes }
}

/// A trace of so many records that changes the parts as the others do.
pub fn trace(random: &mut Random, reads: Reads, records: usize) -> Vec<u8> {
    let phase = random.below(PHASES);
    crossing::trace(random, reads.block, phase, (records, 0))
}
