//! Whole traces, each run by a process of its own and compared byte for byte.

mod across;
mod outcome;
pub mod record;
pub mod script;
#[cfg(test)]
mod stand_ins;
pub mod stops;
pub mod written;

use crate::fault;
use crate::program::Program;
use crate::random::Random;
use crate::tally::Tally;
use outcome::{whole, Before};
use reference::trace::{text_of, Unit, RECORD_BYTES};

pub const TRACES: usize = 3000;

const MOST_PRINTED: usize = 10;
const AS_A_WHOLE: &str = "whole output the same, and the program ends well";

/// The numbers of records that are tried with and without a last piece: around powers of ten,
/// around the blocks that a program may read and write, and many.
const LENGTHS: [usize; 24] = [
    0, 1, 2, 7, 8, 9, 10, 11, 99, 100, 101, 511, 512, 513, 1023, 1024, 1025, 2048, 8191, 8192,
    8193, 65536, 70000, 100_100,
];

/// Some traces come in pieces of up to so many bytes, none of them whole records.
const LONGEST_PIECE: usize = 25;
const RECORDS_IN_PIECES: usize = 300;
const IN_PIECES: &str = "trace in pieces of other lengths than a record's";

/// Random traces are shorter than this.
const MOST_RECORDS: usize = 450;

pub fn compare(program: &str, seed: u64, traces: usize) -> Result<bool, String> {
    let mut random = Random::new(seed);
    let mut comparison = Comparison::new(program);
    for trace in stops::traces(&mut random) {
        comparison.put(&trace)?;
    }
    for records in LENGTHS {
        comparison.put(&script::trace(&mut random, records, 0))?;
        let piece = 1 + random.below(RECORD_BYTES - 1);
        comparison.put(&script::trace(&mut random, records, piece))?;
    }
    for piece in 1..RECORD_BYTES {
        comparison.put(&script::trace(&mut random, 0, piece))?;
        comparison.put(&script::trace(&mut random, 200, piece))?;
    }
    for length in (1..=LONGEST_PIECE).filter(|length| length % RECORD_BYTES != 0) {
        let trace = script::trace(&mut random, RECORDS_IN_PIECES, length % RECORD_BYTES);
        comparison.put_in_pieces(&trace, length)?;
    }
    while comparison.traces < traces {
        let records = random.below(MOST_RECORDS);
        let piece = match random.one_in(3) {
            true => 1 + random.below(RECORD_BYTES - 1),
            false => 0,
        };
        comparison.put(&script::trace(&mut random, records, piece))?;
    }
    across::put(&mut comparison, &mut random)?;
    Ok(comparison.finish())
}

struct Comparison<'a> {
    program: &'a str,
    tally: Tally,
    traces: usize,
    records: usize,
    printed: usize,
}

impl Comparison<'_> {
    fn new(program: &str) -> Comparison<'_> {
        let of_runs = [AS_A_WHOLE, IN_PIECES, fault::POSSIBLE].map(String::from);
        let outcomes = outcome::all().into_iter().chain(of_runs);
        let outcomes = outcomes.chain(across::all());
        Comparison {
            program,
            tally: Tally::expecting(outcomes),
            traces: 0,
            records: 0,
            printed: 0,
        }
    }

    fn put(&mut self, trace: &[u8]) -> Result<(), String> {
        self.run(trace, vec![trace.to_vec()])?;
        Ok(())
    }

    fn put_in_pieces(&mut self, trace: &[u8], piece: usize) -> Result<(), String> {
        let pieces = trace.chunks(piece).map(<[u8]>::to_vec).collect();
        let agreed = self.run(trace, pieces)?;
        self.tally.add(IN_PIECES, agreed);
        Ok(())
    }

    /// Puts a trace across blocks, of which the text alone is judged, not each record.
    fn put_across(&mut self, case: across::Case) -> Result<(), String> {
        let (expected, got) = self.both_texts(&case.trace, case.pieces)?;
        let agreed = self.judge_text(&case.trace, &expected, &got);
        for (outcome, holds) in case.outcomes {
            self.tally.add(&outcome, agreed && holds);
        }
        self.traces += 1;
        Ok(())
    }

    /// Runs the trace by both programs; whether they agree.
    fn run(&mut self, trace: &[u8], pieces: Vec<Vec<u8>>) -> Result<bool, String> {
        let (expected, got) = self.both_texts(trace, pieces)?;
        self.judge_records(trace, &expected, &got);
        let agreed = self.judge_text(trace, &expected, &got);
        self.traces += 1;
        Ok(agreed)
    }

    /// What both programs print. A program that can't be run, or ends badly, ends the comparison.
    fn both_texts(&self, trace: &[u8], pieces: Vec<Vec<u8>>) -> Result<(Vec<u8>, Vec<u8>), String> {
        let expected = text_of(trace);
        let got = Program::output_of(self.program, pieces, expected.len())
            .map_err(|problem| format!("trace {}: {problem}", self.traces))?;
        Ok((expected, got))
    }

    fn judge_text(&mut self, trace: &[u8], expected: &[u8], got: &[u8]) -> bool {
        let agreed = expected == got;
        self.tally.add(AS_A_WHOLE, agreed);
        let (records, piece) = (trace.len() / RECORD_BYTES, trace.len() % RECORD_BYTES);
        for outcome in whole::of(records, piece) {
            self.tally.add(&outcome, agreed);
        }
        self.records += records;
        self.judge_faults(got);
        if !agreed && self.printed < MOST_PRINTED {
            self.printed += 1;
            self.print_first_difference(trace, expected, got);
        }
        agreed
    }

    fn judge_records(&mut self, trace: &[u8], expected: &[u8], got: &[u8]) {
        let (records, _) = trace.as_chunks();
        let mut unit = Unit::start();
        let mut lines = Lines { expected, got };
        for (number, &record) in records.iter().enumerate() {
            let before = Before::of(number, record, &unit);
            let line = unit.step(record);
            let agreed = lines.next_agrees();
            for outcome in before.outcomes(line, &unit) {
                self.tally.add(&outcome, agreed);
            }
        }
    }

    /// The faults of the program under test, by themselves.
    fn judge_faults(&mut self, got: &[u8]) {
        for line in got.split_inclusive(|&byte| byte == b'\n') {
            let Some(holds) = fault_is_possible(line) else {
                continue;
            };
            self.tally.add(fault::POSSIBLE, holds);
            if !holds && self.printed < MOST_PRINTED {
                self.printed += 1;
                let line = String::from_utf8_lossy(line);
                println!("in trace {}: {line:?}", self.traces);
                println!("  does not hold: {}", fault::POSSIBLE);
            }
        }
    }

    fn print_first_difference(&self, trace: &[u8], expected: &[u8], got: &[u8]) {
        let mut lines = Lines { expected, got };
        let mut record = 0;
        while !lines.expected.is_empty() && lines.same_next() {
            record += 1;
        }
        let bytes = trace.chunks(RECORD_BYTES).nth(record).unwrap_or_default();
        let text = |text| String::from_utf8_lossy(first_line(text)).into_owned();
        println!(
            "difference in trace {}, record {record}: {bytes:02X?}",
            self.traces
        );
        println!("  second program: {:?}", text(lines.expected));
        println!("  program:        {:?}", text(lines.got));
    }

    fn finish(self) -> bool {
        println!("traces: {}, records: {}", self.traces, self.records);
        self.tally.print() == 0
    }
}

/// What is left of both texts.
struct Lines<'a> {
    expected: &'a [u8],
    got: &'a [u8],
}

impl Lines<'_> {
    /// Whether the next lines are the same; goes past each.
    fn next_agrees(&mut self) -> bool {
        let (expected, got) = (first_line(self.expected), first_line(self.got));
        self.expected = &self.expected[expected.len()..];
        self.got = &self.got[got.len()..];
        expected == got
    }

    /// Whether the next lines are the same; goes past them where they are.
    fn same_next(&mut self) -> bool {
        let same = first_line(self.expected) == first_line(self.got);
        same && self.next_agrees()
    }
}

/// The text up to its first newline and with it.
fn first_line(text: &[u8]) -> &[u8] {
    match text.iter().position(|&byte| byte == b'\n') {
        Some(end) => &text[..=end],
        None => text,
    }
}

/// Whether there is a fault of the line's value; none for a line that tells of no fault.
fn fault_is_possible(line: &[u8]) -> Option<bool> {
    let mut words = line.split(|&byte| byte == b' ').skip(1);
    let (word, digits) = (words.next()?, words.next()?);
    let value = || u32::from_str_radix(std::str::from_utf8(digits).ok()?, 16).ok();
    (word == b"fault").then(|| value().is_some_and(fault::is_possible))
}

#[cfg(test)]
mod tests {
    use super::*;

    #[test]
    fn the_faults_of_lines_are_judged_by_their_value() {
        for (line, expected) in [
            ("7 fault 00000310 0\n", Some(true)),
            ("12 fault 00000008 1\n", Some(true)),
            ("7 fault 00000010 0\n", Some(false)),
            ("7 fault 00001110 0\n", Some(false)),
            ("7 fault 00000308 1", Some(false)),
            ("7 fault 0000031G 0\n", Some(false)),
            ("7 at 00000010 0\n", None),
            ("7 fault\n", None),
            ("\n", None),
        ] {
            assert_eq!(fault_is_possible(line.as_bytes()), expected, "{line:?}");
        }
    }

    /// Whether each of the expected lines agrees.
    fn agreement(expected: &str, got: &str) -> Vec<bool> {
        let mut lines = Lines {
            expected: expected.as_bytes(),
            got: got.as_bytes(),
        };
        let count = expected.lines().count();
        (0..count).map(|_| lines.next_agrees()).collect()
    }

    #[test]
    fn lines_are_compared_to_the_byte() {
        assert_eq!(agreement("0 a\n1 b\n", "0 a\n1 b\n"), [true, true]);
        assert_eq!(agreement("0 a\n1 b\n", "0 A\n1 b\n"), [false, true]);
        assert_eq!(agreement("0 a\n1 b\n", "0 a\n1 b"), [true, false]);
        assert_eq!(agreement("0 a\n1 b\n", "0 a\n"), [true, false]);
        assert_eq!(agreement("0 a\n1 b\n", "0 a\r\n1 b\n"), [false, true]);
    }

    #[test]
    fn a_trace_has_the_length_that_is_asked_for() {
        let mut random = Random::new(1);
        for (records, piece) in [(0, 0), (0, 7), (1, 0), (130, 3), (2000, 1)] {
            let trace = script::trace(&mut random, records, piece);
            assert_eq!(trace.len(), RECORD_BYTES * records + piece);
        }
    }
}
