//! Whole traces, read from a file by the trace programs and by the report programs.

mod record;
mod trace;

use crate::process::{run_on_file, time_on_file, Told};
use crate::programs;
use crate::rounds::{medians, Both};
use crate::table;
use std::fs::create_dir_all;
use std::path::{Path, PathBuf};

const ROUNDS: usize = 21;

const FOLDER: &str = "tests/bench/target/traces";

type Trace = (&'static str, fn() -> Vec<u8>);

const TRACES: [Trace; 3] = [
    ("mixed", trace::mixed),
    ("hits", trace::hits),
    ("misses", trace::misses),
];

const REPORTS: [Trace; 3] = [
    ("mixed", trace::mixed),
    ("stores", trace::stores),
    ("root of 15 tables", trace::root_of_all_tables),
];

/// The trace programs.
pub fn measure() -> Result<(), String> {
    let sides = programs::pair("mmutrace", "trace");
    measure_programs("trace", sides, Told::Input, TRACES)
}

/// The report programs.
pub fn measure_reports() -> Result<(), String> {
    let sides = programs::pair("mmureport", "report");
    measure_programs("report", sides, Told::Argument, REPORTS)
}

fn measure_programs(
    name: &str,
    sides: Option<Both<PathBuf>>,
    by: Told,
    traces: [Trace; 3],
) -> Result<(), String> {
    let Some(programs) = &sides else {
        return Ok(());
    };
    let programs = Both {
        rattle: programs.rattle.as_path(),
        second: programs.second.as_path(),
    };
    let title = format!("The {name} programs, records a second, {ROUNDS} rounds");
    let columns = [
        "trace",
        "records",
        "Rattle",
        "second program",
        "ratio of times",
    ];
    table::head(&title, &columns);
    for (name, trace) in traces {
        measure_trace(programs, by, name, &trace())?;
    }
    Ok(())
}

fn measure_trace(programs: Both<&Path>, by: Told, name: &str, trace: &[u8]) -> Result<(), String> {
    let file = file_of(name, trace).map_err(|error| format!("{FOLDER}/{name}: {error}"))?;
    let lines = programs.map(|program| run_on_file(program, &file, by));
    if lines.rattle? != lines.second? {
        return Err(format!("{name}: the lines differ of {FOLDER}/{name}"));
    }
    let medians = medians(ROUNDS, programs, |program| {
        Ok(time_on_file(program, &file, by)?.as_secs_f64())
    })?;
    let records = trace.len() / record::BYTES;
    let pace = medians.seconds.map(|seconds| records as f64 / seconds);
    table::row(&[name, &records.to_string()], pace, medians.ratio);
    Ok(())
}

/// A file that holds the trace.
fn file_of(name: &str, trace: &[u8]) -> std::io::Result<PathBuf> {
    create_dir_all(FOLDER)?;
    let path = Path::new(FOLDER).join(name);
    std::fs::write(&path, trace)?;
    Ok(path)
}
