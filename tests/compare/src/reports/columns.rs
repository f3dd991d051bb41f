//! Which columns and lines of a report change on both sides of a boundary.

use super::outcome::column_name;
use crate::blocks::BY_REPORT;
use reference::report::{ByCounts, Replay, Totals, COLUMNS, IDENTIFICATIONS};

pub fn all() -> Vec<String> {
    let mut all: Vec<String> = (0..COLUMNS).map(of_column).collect();
    all.extend((0..IDENTIFICATIONS).map(of_identification));
    all
}

/// The outcomes at each boundary of the trace.
pub fn of(trace: &[u8]) -> Vec<(String, bool)> {
    let (records, _) = trace.as_chunks();
    let mut replay = Replay::<ByCounts>::start();
    let mut last = replay.totals.clone();
    let mut blocks = Vec::new();
    for block in records.chunks(BY_REPORT.block) {
        for &record in block {
            let booked = replay.step(record);
            booked.expect("no total comes to the limit");
        }
        blocks.push(changed(&last, &replay.totals));
        last = replay.totals.clone();
    }
    let both_sides = blocks.windows(2).flat_map(|blocks| {
        let [before, behind] = [&blocks[0], &blocks[1]];
        before.iter().filter(|outcome| behind.contains(outcome))
    });
    both_sides.map(|outcome| (outcome.clone(), true)).collect()
}

/// The columns that have changed under some identification, and the identifications under which some
/// column has.
fn changed(before: &[Totals], after: &[Totals]) -> Vec<String> {
    let changes = |identification: usize, column: usize| {
        let total = |totals: &[Totals]| totals[identification].columns()[column];
        total(before) != total(after)
    };
    let columns = (0..COLUMNS).filter(|&column| (0..IDENTIFICATIONS).any(|id| changes(id, column)));
    let identifications =
        (0..IDENTIFICATIONS).filter(|&id| (0..COLUMNS).any(|column| changes(id, column)));
    let columns = columns.map(of_column);
    columns
        .chain(identifications.map(of_identification))
        .collect()
}

fn of_column(column: usize) -> String {
    both_sides(&column_name(column))
}

fn of_identification(identification: usize) -> String {
    both_sides(&format!("a total of identification {identification}"))
}

fn both_sides(what: &str) -> String {
    format!("file across a boundary, {what} changes before it and behind it")
}
