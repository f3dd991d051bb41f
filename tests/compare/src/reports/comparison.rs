//! Puts each call's arguments to both programs.

use super::case::{Case, Comes, CountBy};
use super::folder::Folder;
use super::terminal::Terminal;
use super::{fifo, outcome};
use crate::program::Program;
use crate::tally::Tally;
use reference::report::{ByCounts, Report};
use std::collections::HashMap;
use std::ffi::OsString;
use std::path::{Path, PathBuf};
use std::process::Command;

const MOST_PRINTED: usize = 10;

pub struct Comparison {
    program: PathBuf,
    folder: Folder,
    tally: Tally,
    calls: usize,
    by_walks: usize,
    by_counts: usize,
    unread: usize,
    printed: usize,
}

impl Comparison {
    pub fn new(program: &str) -> Result<Comparison, String> {
        // The program is called from another folder.
        let program = Path::new(program)
            .canonicalize()
            .map_err(|error| format!("{program} does not start: {error}"))?;
        Ok(Comparison {
            program,
            folder: Folder::new("compare-reports")?,
            tally: Tally::expecting(outcome::all()),
            calls: 0,
            by_walks: 0,
            by_counts: 0,
            unread: 0,
            printed: 0,
        })
    }

    /// The folder from which the program is called.
    pub fn folder(&self) -> &Folder {
        &self.folder
    }

    /// How many files have been put so far.
    pub fn files(&self) -> usize {
        self.by_walks + self.by_counts + self.unread
    }

    pub fn put(&mut self, cases: Vec<Case>) -> Result<(), String> {
        self.put_call(cases, None)
    }

    /// One call, with the outcome that it is there for. A program that can't be run, or ends badly,
    /// ends the comparison.
    pub fn put_call(&mut self, cases: Vec<Case>, remark: Option<&str>) -> Result<(), String> {
        let command = Command::new(&self.program);
        self.put_by(command, cases, remark)
    }

    /// The program's file.
    pub fn program(&self) -> &Path {
        &self.program
    }

    /// One call by a command that starts the program.
    pub fn put_by(
        &mut self,
        command: Command,
        cases: Vec<Case>,
        remark: Option<&str>,
    ) -> Result<(), String> {
        let reports: Vec<Report> = cases.iter().map(Case::report).collect();
        let texts: Vec<Vec<u8>> = reports.iter().enumerate().map(text).collect();
        let expected = texts.concat();
        let got = self.run(command, &cases, expected.len())?;
        for outcome in outcome::of_call(&reports).into_iter().chain(remark) {
            self.tally.add(outcome, got == expected);
        }
        let got = by_number(&got);
        for (number, case) in cases.iter().enumerate() {
            let got = got.get(number.to_string().as_bytes());
            let agreed = got == Some(&texts[number]);
            self.judge(number, case, &reports[number], agreed);
            if !agreed {
                self.print_difference(number, &texts[number], got);
            }
        }
        self.calls += 1;
        Ok(())
    }

    /// What the program under test prints.
    fn run(&self, mut command: Command, cases: &[Case], most: usize) -> Result<Vec<u8>, String> {
        let told = |problem| format!("call {}: {problem}", self.calls);
        let mut names = Vec::new();
        let mut terminals = Vec::new();
        for (number, case) in cases.iter().enumerate() {
            names.push(match &case.comes {
                Comes::AndFail(bytes) => {
                    let terminal = Terminal::open().map_err(told)?;
                    let name = terminal.name();
                    terminals.push((terminal, bytes.clone()));
                    name
                }
                _ => self.name(number, case)?,
            });
        }
        command.args(&names).current_dir(self.folder.path());
        let mut program = Program::start_without_input(&mut command).map_err(told)?;
        for (terminal, bytes) in terminals {
            terminal.feed(bytes, program.process());
        }
        let got = program.whole_output(most).map_err(told)?;
        self.remove(cases, &names)?;
        Ok(got)
    }

    /// The argument. A trace without a name is written to a file, or comes through a pipe.
    fn name(&self, number: usize, case: &Case) -> Result<OsString, String> {
        let (None, Some(trace)) = (&case.name, &case.trace) else {
            return Ok(case.name.clone().unwrap_or_default());
        };
        let name = format!("{}-{number}.trace", self.calls);
        match &case.comes {
            Comes::InPieces(pieces) => fifo::feed(self.folder.path().join(&name), pieces.clone())?,
            _ => self.folder.write(&name, trace)?,
        }
        Ok(name.into())
    }

    fn remove(&self, cases: &[Case], names: &[OsString]) -> Result<(), String> {
        for (case, name) in cases.iter().zip(names) {
            if case.name.is_none() && case.trace.is_some() {
                self.folder.remove(name)?;
            }
        }
        Ok(())
    }

    fn judge(&mut self, number: usize, case: &Case, report: &Report, agreed: bool) {
        match (&case.trace, case.count_by) {
            (None, _) => self.unread += 1,
            (Some(trace), CountBy::Walks) => {
                self.by_walks += 1;
                let is_the_same = Report::of::<ByCounts>(&trace[..]) == *report;
                self.tally.add(outcome::BOTH_COUNTS, is_the_same);
            }
            (Some(_), CountBy::Counts) => self.by_counts += 1,
        }
        for outcome in outcome::of_file(number, case, report) {
            self.tally.add(&outcome, agreed);
        }
        for (outcome, holds) in &case.outcomes {
            self.tally.add(outcome, agreed && *holds);
        }
    }

    fn print_difference(&mut self, number: usize, expected: &[u8], got: Option<&Vec<u8>>) {
        self.printed += 1;
        if self.printed > MOST_PRINTED {
            return;
        }
        println!("difference in call {}, file {number}", self.calls);
        let lines = |text| String::from_utf8_lossy(text).into_owned();
        let (ours, theirs) = (lines(expected), lines(got.map_or(&[], |got| got)));
        let (mut ours, mut theirs) = (ours.split_inclusive('\n'), theirs.split_inclusive('\n'));
        let (ours, theirs) = loop {
            match (ours.next(), theirs.next()) {
                (Some(ours), Some(theirs)) if ours == theirs => {}
                different => break different,
            }
        };
        println!("  second program: {:?}", ours.unwrap_or("no more lines"));
        println!("  program:        {:?}", theirs.unwrap_or("no more lines"));
    }

    /// Prints the counts; true where every outcome passed.
    pub fn finish(self) -> bool {
        println!("calls: {}, files: {}", self.calls, self.files());
        println!(
            "files judged by the count of every page's walk: {}, by the count kept from store to store: {}, \
             unread: {}",
            self.by_walks, self.by_counts, self.unread
        );
        self.tally.print() == 0
    }
}

fn text((number, report): (usize, &Report)) -> Vec<u8> {
    let mut text = Vec::new();
    let written = report.write(number, &mut text);
    written.expect("bytes in memory are written without fail");
    text
}

/// The lines by the number that each begins with.
fn by_number(text: &[u8]) -> HashMap<&[u8], Vec<u8>> {
    let mut lines: HashMap<&[u8], Vec<u8>> = HashMap::new();
    for line in text.split_inclusive(|&byte| byte == b'\n') {
        let end = line.iter().position(|byte| !byte.is_ascii_digit());
        let number = &line[..end.unwrap_or(line.len())];
        lines.entry(number).or_default().extend(line);
    }
    lines
}

#[cfg(test)]
mod tests {
    use super::by_number;

    #[test]
    fn lines_are_told_apart_by_their_first_number() {
        let lines = by_number(b"0 1 2\n0 2 -3\n10 unread\n1 refused 9");
        assert_eq!(lines[&b"0"[..]], b"0 1 2\n0 2 -3\n");
        assert_eq!(lines[&b"10"[..]], b"10 unread\n");
        assert_eq!(lines[&b"1"[..]], b"1 refused 9");
        assert_eq!(lines.len(), 3);
    }
}
