//! A short trace that tells whether it begins at the start: each part of the state that another file
//! left would show in it.

use super::part::{Part, CONTEXT, ENABLE};
use super::scene::{self, SEGMENTS};
use super::Reads;
use crate::traces::record::Record;
use reference::trace::Unit;

pub fn all(reads: Reads) -> Vec<String> {
    reads.sees.parts().map(|part| leak(reads, part)).collect()
}

/// ENABLE off, then on over tables of zero, then over tables that are made anew.
pub fn trace() -> Vec<u8> {
    let probes = || scene::own_writes().chain([scene::probe(Part::Entries)]);
    let mut records: Vec<Record> = probes().collect();
    records.extend([ENABLE, CONTEXT].map(scene::first_setting));
    records.extend(probes());
    records.extend((0..SEGMENTS).map(scene::linear));
    records.extend(scene::tables());
    records.extend(probes());
    records.into_iter().flat_map(Record::to_bytes).collect()
}

/// Those parts of what another trace leaves that would show if this one began with them.
pub fn of(reads: Reads, other: &[u8]) -> Vec<(String, bool)> {
    let start = Unit::start();
    let mut left = start.clone();
    for &record in other.as_chunks().0 {
        left.step(record);
    }
    let shows = |part: Part| {
        let (mut right, mut wrong) = (start.clone(), start.clone());
        part.take(&mut wrong, &left);
        let trace = trace();
        let mut records = trace.as_chunks().0.iter();
        records.any(|&record| {
            let seen = reads.sees.step(&mut right, record);
            seen != reads.sees.step(&mut wrong, record)
        })
    };
    let parts = reads.sees.parts().filter(|&part| shows(part));
    parts.map(|part| (leak(reads, part), true)).collect()
}

fn leak(Reads { what, .. }: Reads, part: Part) -> String {
    let part = part.name();
    format!("{what} behind a long one, in which {part} of that one would show")
}
