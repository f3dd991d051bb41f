//! The calls over words: each side's program `pace` makes so many calls of a scenario.
//!
//! A call's time is that of a process with so many calls, less that of one with none, by their
//! number.

use crate::process::run_on_bytes;
use crate::programs;
use crate::rounds::{medians, Both};
use crate::table;
use std::path::Path;
use std::time::Duration;

/// Each with the number of calls that is tried first.
const SCENARIOS: [(&str, u32); 11] = [
    ("raw access, hit", MANY),
    ("served access, hit", MANY),
    ("served access, miss with a load", MANY),
    ("store into a full buffer, empties nothing", MANY),
    ("look: SELECT set, TLB_HI and TLB_LO read", MANY),
    ("give and take of a frame", MANY),
    ("map of a frame, and its give", MANY),
    ("a pass twice over 80 pages and mapping them again", 16),
    ("a pass twice over 4,096 pages and mapping them again", 1),
    ("MUPS/16: table index set, address mapped", MANY),
    ("MUPS/16: entry set, another one's words read", MANY),
];

const MANY: u32 = 1 << 12;

const ROUNDS: usize = 11;

/// The slower side's process runs about this long.
const LONG_ENOUGH: Duration = Duration::from_millis(150);

pub fn measure() -> Result<(), String> {
    let Some(programs) = programs::pair("pace", "pace") else {
        return Ok(());
    };
    let programs = Both {
        rattle: programs.rattle.as_path(),
        second: programs.second.as_path(),
    };
    let title = format!("The calls over words, 16,384 table words, ns a call, {ROUNDS} rounds");
    table::head(
        &title,
        &["call", "calls", "Rattle", "second program", "ratio"],
    );
    for (scenario, (name, first_count)) in (0..).zip(SCENARIOS) {
        let count = count_for(programs, scenario, first_count)?;
        measure_scenario(programs, scenario, name, count)?;
    }
    Ok(())
}

fn measure_scenario(
    programs: Both<&Path>,
    scenario: u32,
    name: &str,
    count: u32,
) -> Result<(), String> {
    let (sum, _) = pace(programs.second, scenario, count)?;
    let medians = medians(ROUNDS, programs, |program| {
        let (got, with) = pace(program, scenario, count)?;
        let (_, without) = pace(program, scenario, 0)?;
        match got == sum {
            true => Ok(with.as_secs_f64() - without.as_secs_f64()),
            false => Err(format!(
                "{name}: sums {got} and {sum} of {count} calls differ"
            )),
        }
    })?;
    let nanoseconds = medians
        .seconds
        .map(|seconds| seconds / f64::from(count) * 1e9);
    table::row(&[name, &count.to_string()], nanoseconds, medians.ratio);
    Ok(())
}

/// Doubles the number of calls until the slower side runs long enough.
fn count_for(programs: Both<&Path>, scenario: u32, first: u32) -> Result<u32, String> {
    let mut count = first;
    loop {
        let slower = pace(programs.rattle, scenario, count)?
            .1
            .max(pace(programs.second, scenario, count)?.1);
        if slower >= LONG_ENOUGH || count > u32::MAX / 2 {
            return Ok(count);
        }
        count *= 2;
    }
}

/// The sum that the program gives, and its processor time.
fn pace(program: &Path, scenario: u32, count: u32) -> Result<(u64, Duration), String> {
    let request = [scenario.to_be_bytes(), count.to_be_bytes()].concat();
    let (output, time) = run_on_bytes(program, &request)?;
    match output.try_into() {
        Ok(eight) => Ok((u64::from_be_bytes(eight), time)),
        Err(_) => Err(format!("{} does not write 8 bytes", program.display())),
    }
}
