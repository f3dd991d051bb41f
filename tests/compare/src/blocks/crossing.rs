//! Traces in which one part is changed right before each boundary, and the record right behind it
//! tells the change.

use super::filler;
use super::part::{Part, PARTS};
use super::scene::{self, SEGMENTS};
use crate::random::Random;
use crate::traces::record::Record;
use crate::traces::written::Written;
use reference::trace::Unit;

/// Each part is changed at one boundary and changed back at the next. As many phases again are the
/// same without inv_exc at the beginning.
pub const PHASES: usize = 2 * PARTS.len();

/// A trace of so many records, and a last piece of so many bytes. Its first boundary has this
/// phase, and each boundary behind it the next one.
pub fn trace(
    random: &mut Random,
    block: usize,
    first_phase: usize,
    (records, piece): (usize, usize),
) -> Vec<u8> {
    let mut written = begin(first_phase);
    for (phase, boundary) in (first_phase..).zip((block..=records).step_by(block)) {
        let before = change(phase, &written.unit);
        fill(&mut written, random, boundary - before.len());
        for record in before.into_iter().chain(behind(phase, &written.unit)) {
            written.add(record);
        }
    }
    fill(&mut written, random, records);
    let last = filler::record(random, &written.unit);
    written.end(records, last, piece)
}

fn part_of(phase: usize) -> Part {
    PARTS[phase / 2 % PARTS.len()]
}

/// Whether the phase changes its part back.
fn is_back(phase: usize) -> bool {
    phase % 2 == 1
}

/// The tables, records that are refused, then all settings, of which the one that is to be changed
/// back is changed.
fn begin(first_phase: usize) -> Written {
    let mut written = Written::begin();
    let records = scene::tables().into_iter().chain(scene::refused());
    for record in records.chain(scene::settings()) {
        written.add(record);
    }
    if first_phase >= PHASES {
        written.add(scene::without_inv_exc());
    }
    let changed = scene::other_setting(part_of(first_phase), written.unit.registers);
    if let Some(record) = changed.filter(|_| is_back(first_phase)) {
        written.add(record);
    }
    written
}

fn fill(written: &mut Written, random: &mut Random, records: usize) {
    while written.records() < records {
        let record = filler::record(random, &written.unit);
        written.add(record);
    }
}

/// The change, the last record before the boundary. Entries of all pages are loaded together, and
/// changed back by a store that empties one.
fn change(phase: usize, unit: &Unit) -> Vec<Record> {
    let context = unit.registers.context;
    let part = part_of(phase);
    match (part, scene::other_setting(part, unit.registers)) {
        (_, Some(setting)) => vec![setting],
        (Part::Entries, _) if is_back(phase) => vec![scene::entry_store(&unit.words, context)],
        (Part::Entries, _) => {
            let loaded = scene::own_writes();
            loaded.chain([scene::probe(part)]).collect()
        }
        _ => vec![scene::word_store(&unit.words, context)],
    }
}

/// The access that tells the change, those that tell each part, and some more.
fn behind(phase: usize, unit: &Unit) -> Vec<Record> {
    let part = part_of(phase);
    let mut records = vec![scene::probe(part)];
    records.extend(PARTS.map(scene::probe));
    records.extend((0..SEGMENTS).map(scene::linear));
    if part == Part::Entries {
        records.extend(scene::own_writes());
        records.extend(scene::away_and_back(unit.registers.context));
    }
    records
}
