//! A difference between the two programs' C calls, for a reader.

use super::case::{Answer, Case};

const MOST_BYTES: usize = 8;

pub fn print(number: usize, case: &Case, expected: &Answer, got: &Answer) {
    let runs = &case.runs;
    println!("difference at case {number}: {:X?}", case.call);
    println!("  registers before: {:02X?}", runs.registers);
    println!(
        "  buffer of {} bytes, tables of {} bytes",
        runs.buffer.len(),
        runs.tables.len()
    );
    println!("  second program answers {:016X}", expected.number);
    println!("  program answers        {:016X}", got.number);
    let (ours, theirs) = (&expected.runs, &got.runs);
    print_run(
        "registers",
        &runs.registers,
        &ours.registers,
        &theirs.registers,
    );
    print_run("buffer", &runs.buffer, &ours.buffer, &theirs.buffer);
    print_run("tables", &runs.tables, &ours.tables, &theirs.tables);
}

/// The first bytes that differ.
fn print_run(name: &str, before: &[u8], ours: &[u8], theirs: &[u8]) {
    let differing = (0..before.len()).filter(|&n| ours[n] != theirs[n]);
    for n in differing.take(MOST_BYTES) {
        println!(
            "  {name}[{n}] was {:02X}, after: second program {:02X}, program {:02X}",
            before[n], ours[n], theirs[n]
        );
    }
}
