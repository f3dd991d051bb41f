//! Compares the programs under test with the second program, tests/reference.
//!
//! Use:
//!   compare calls PROBE [SEED] [CASES]        the single calls, by the program `probe`
//!   compare pools PROBE [SEED] [CASES]        calls on pools of frames, by the program `probe`
//!   compare passes PROBE [SEED] [CASES]       passes of the collector, by the program `probe`
//!   compare mups16 PROBE [SEED] [CASES]       calls of the MUPS/16 unit, by the program `probe`
//!   compare traces MMUTRACE [SEED] [TRACES]   whole traces, by the trace program
//!   compare reports MMUREPORT [SEED] [FILES]  reports over trace files, by the report program
//!   compare host HOST [SEED] [CASES]          the C calls, by tests/host
//!   compare words PROBE HOST [SEED] [CASES]   the C calls that start and set, by tests/host, with
//!                                             the calls over words, by the program `probe`
//!   compare stand-in [FAULT]                  speaks as `probe`, with a fault in its passes or its
//!                                             MUPS/16 unit or, by the name None, without; lists
//!                                             them if none is named
//!
//! Prints how often each outcome happened. An outcome fails that never happened or in which the
//! programs differed. The last line is 'N passed, M failed'; the status is 0 where M is 0.

mod alone;
mod blocks;
mod calls;
mod cases;
mod comparison;
mod difference;
mod drained;
mod exchange;
mod expected;
mod fault;
mod host;
mod mups16;
mod outcome;
mod passes;
mod pools;
mod program;
mod protocol;
mod put;
mod random;
mod read_back;
mod reports;
mod request;
mod stand_in;
mod stand_ins;
mod tally;
mod traces;
mod witness;

use std::process::ExitCode;

const SEED: u64 = 100;
const USE: &str =
    "use: compare calls|pools|passes|mups16|traces|reports|host PROGRAM [SEED] [NUMBER]
     compare words PROBE HOST [SEED] [NUMBER]
     compare stand-in [FAULT]";

fn compare() -> Result<bool, String> {
    let words: Vec<String> = std::env::args().skip(1).collect();
    if words.first().is_some_and(|word| word == "stand-in") {
        return stand_in::speak(words.get(1).map(String::as_str));
    }
    let programs = match words.first().map(String::as_str) {
        Some("words") => 2,
        _ => 1,
    };
    if !(1 + programs..=3 + programs).contains(&words.len()) {
        return Err(USE.to_string());
    }
    let numbers = &words[1 + programs..];
    let number = |n: usize, default: u64| match numbers.get(n) {
        None => Ok(default),
        Some(word) => word
            .parse()
            .map_err(|_| format!("{word} is not a decimal number")),
    };
    let program = &words[1];
    let seed = number(0, SEED)?;
    let many = |default: usize| Ok::<usize, String>(number(1, default as u64)? as usize);
    println!("seed {seed}");
    match &words[0][..] {
        "calls" => calls::compare(program, seed, many(calls::CASES)?),
        "host" => host::compare(program, seed, many(host::CASES)?),
        "mups16" => mups16::compare(program, seed, many(mups16::CASES)?),
        "passes" => passes::compare(program, seed, many(passes::CASES)?),
        "pools" => pools::compare(program, seed, many(pools::CASES)?),
        "reports" => reports::compare(program, seed, many(reports::FILES)?),
        "traces" => traces::compare(program, seed, many(traces::TRACES)?),
        "words" => host::words::compare(program, &words[2], seed, many(host::words::CASES)?),
        _ => Err(USE.to_string()),
    }
}

fn main() -> ExitCode {
    match compare() {
        Ok(true) => ExitCode::SUCCESS,
        Ok(false) => ExitCode::FAILURE,
        Err(problem) => {
            println!("{problem}");
            println!("0 passed, 1 failed");
            ExitCode::FAILURE
        }
    }
}
