//! Requests put to the program under test, and what came of them.

use crate::comparison::Points;
use crate::program::Program;
use crate::protocol::Call;
use crate::tally::Tally;
use std::collections::VecDeque;

const MOST_PRINTED: usize = 10;
const ENDS_WELL: &str = "program ends at the end of its input";

/// What the answer to a request is judged by.
pub trait Question {
    /// How many bytes the answer has.
    fn answered_in(&self) -> usize;

    /// Counts each outcome of the request; no bytes where the program failed to answer.
    fn judge(&self, answer: Option<&[u8]>, report: &mut Report);
}

/// The counts, and the differences that are shown to a reader.
pub struct Report {
    tally: Tally,
    /// How many answers have been judged, this one included.
    pub cases: usize,
    printed: usize,
}

impl Report {
    pub fn add(&mut self, outcome: &str, agreed: bool) {
        self.tally.add(outcome, agreed);
    }

    /// Counts each point of an answer by itself, and shows those that do not hold.
    pub fn add_points(&mut self, points: Points, call: Call, answered: impl Fn() -> String) {
        for (point, holds) in points {
            self.add(point, holds);
            if !holds && self.may_print() {
                println!("at case {}: {call:X?}", self.cases);
                println!("  program answers {}", answered());
                println!("  does not hold: {point}");
            }
        }
    }

    /// Whether one difference more is to be shown.
    pub fn may_print(&mut self) -> bool {
        self.printed += 1;
        self.printed <= MOST_PRINTED
    }
}

pub struct Exchange<Q> {
    program: Program,
    path: String,
    under_way: VecDeque<Q>,
    report: Report,
    asked: usize,
    broken_off: bool,
}

impl<Q: Question> Exchange<Q> {
    /// Starts the program; the outcomes are those that have to happen.
    pub fn start(path: &str, outcomes: Vec<String>) -> Result<Exchange<Q>, String> {
        let outcomes = outcomes.into_iter().chain([ENDS_WELL.to_string()]);
        Ok(Exchange {
            program: Program::start(path)?,
            path: path.to_string(),
            under_way: VecDeque::new(),
            report: Report {
                tally: Tally::expecting(outcomes),
                cases: 0,
                printed: 0,
            },
            asked: 0,
            broken_off: false,
        })
    }

    /// How many have been asked so far.
    pub fn count(&self) -> usize {
        self.asked
    }

    /// Whether fewer than the given number have been asked of a program that still answers.
    pub fn wants_more(&self, total: usize) -> bool {
        !self.broken_off && self.asked < total
    }

    /// Nothing is asked of a program that has failed.
    pub fn ask(&mut self, request: Vec<u8>, question: Q) {
        self.asked += 1;
        if self.broken_off {
            return;
        }
        self.program.send(request);
        self.under_way.push_back(question);
        self.take_answers();
    }

    /// Ends this process and starts a fresh one.
    pub fn restart(&mut self) {
        self.end_program();
        if self.broken_off {
            return;
        }
        match Program::start(&self.path) {
            Ok(program) => self.program = program,
            Err(problem) => self.break_off(&problem),
        }
    }

    /// Counts an outcome of what was asked elsewhere.
    pub fn add(&mut self, outcome: &str, agreed: bool) {
        self.report.add(outcome, agreed);
    }

    /// Prints the counts; true where every outcome passed.
    pub fn finish(mut self) -> bool {
        self.end_program();
        println!("cases: {}", self.report.cases);
        self.report.tally.print() == 0
    }

    fn end_program(&mut self) {
        self.program.end_input();
        self.take_answers();
        if self.broken_off {
            return;
        }
        match self.program.finish() {
            Ok(()) => self.report.add(ENDS_WELL, true),
            Err(problem) => self.break_off(&problem),
        }
    }

    /// Judges the answers that have come; once the input is ended, waits for them all.
    fn take_answers(&mut self) {
        while let Some(question) = self.under_way.pop_front() {
            match self.program.receive(question.answered_in()) {
                Ok(Some(bytes)) => self.judge(&question, Some(&bytes)),
                Ok(None) => return self.under_way.push_front(question),
                Err(problem) => {
                    self.judge(&question, None);
                    return self.break_off(&problem);
                }
            }
        }
    }

    fn judge(&mut self, question: &Q, answer: Option<&[u8]>) {
        self.report.cases += 1;
        question.judge(answer, &mut self.report);
    }

    fn break_off(&mut self, problem: &str) {
        println!("broken off: {problem}");
        self.report.add(ENDS_WELL, false);
        self.under_way.clear();
        self.broken_off = true;
    }
}
