//! Measures the proved code against the second program, tests/reference, on the same inputs.
//!
//! Use: tests/bench/run [calls] [words] [traces] [reports]
//!   calls    the C calls over bytes, in this process
//!   words    the calls over words, by the programs `pace`
//!   traces   whole traces, by the trace programs
//!   reports  whole traces, by the report programs

mod calls;
mod clock;
mod machine;
mod process;
mod programs;
mod rounds;
mod table;
mod traces;
mod words;

use std::process::ExitCode;

type Part = (&'static str, fn() -> Result<(), String>);

const PARTS: [Part; 4] = [
    ("calls", calls::measure),
    ("words", words::measure),
    ("traces", traces::measure),
    ("reports", traces::measure_reports),
];

fn measure() -> Result<(), String> {
    let asked: Vec<String> = std::env::args().skip(1).collect();
    if let Some(word) = asked
        .iter()
        .find(|word| PARTS.iter().all(|(name, _)| name != word))
    {
        return Err(format!(
            "{word} is none of calls, words, traces and reports"
        ));
    }
    println!("machine: {}", machine::line());
    println!("Rattle's side: {}", programs::proved().display());
    println!(
        "Times are processor times, medians of the rounds; a ratio is the median of Rattle's time / \
         the second program's. Ratios within 5 % are noise."
    );
    for (name, measure) in PARTS {
        if asked.is_empty() || asked.iter().any(|word| word == name) {
            println!();
            measure()?;
        }
    }
    Ok(())
}

fn main() -> ExitCode {
    match measure() {
        Ok(()) => ExitCode::SUCCESS,
        Err(problem) => {
            println!("{problem}");
            ExitCode::FAILURE
        }
    }
}
