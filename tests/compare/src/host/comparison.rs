//! Puts every C call to both programs.

use super::case::{Answer, Case, PutCase};
use super::{difference, layout, outcome};
use crate::exchange::{Exchange, Question, Report};
use crate::expected;
use crate::fault;
use crate::outcome::{self as numbers, Runs};
use crate::protocol::{self, Call, Request};
use crate::put::{Put, PutInSequence};
use crate::witness::Witness;
use std::rc::Rc;

/// So many calls of one process have answers under way at the most.
const CASES_FOR_A_PROCESS: usize = 4000;

/// Each so many calls that take no tables have some beside them.
const WITH_TABLES_BESIDE: usize = 16;

struct Asked {
    case: Case,
    expected: Answer,
    outcomes: Vec<String>,
    /// Who judges a call of a sequence, and the call on numbers.
    witness: Option<(Witness, Request)>,
}

impl Question for Asked {
    fn answered_in(&self) -> usize {
        self.case.answer_bytes()
    }

    fn judge(&self, answer: Option<&[u8]>, report: &mut Report) {
        let got = answer.map(|bytes| self.case.answer_of(bytes));
        let agreed = got.as_ref() == Some(&self.expected);
        for outcome in &self.outcomes {
            report.add(outcome, agreed);
        }
        if let Some(got) = &got {
            self.judge_points(got, report);
        }
        if agreed || !report.may_print() {
            return;
        }
        match got {
            Some(got) => difference::print(report.cases, &self.case, &self.expected, &got),
            None => println!("no answer at case {}: {:X?}", report.cases, self.case.call),
        }
    }
}

impl Asked {
    /// What the program under test answers, by itself and before the witness.
    fn judge_points(&self, got: &Answer, report: &mut Report) {
        let mut points = Vec::new();
        if let Some(value) = layout::fault_of(self.case.call, got.number) {
            points.push((fault::POSSIBLE, fault::is_possible(value)));
        }
        if let Some((witness, request)) = &self.witness {
            points.extend(witness.points(request, &layout::answer_of(got)));
        }
        report.add_points(points, self.case.call, || format!("{:016X}", got.number));
    }
}

pub struct Comparison {
    exchange: Exchange<Asked>,
    tables: Rc<Vec<u32>>,
}

impl Comparison {
    pub fn start(path: &str) -> Result<Comparison, String> {
        Ok(Comparison {
            exchange: Exchange::start(path, outcome::all())?,
            tables: Rc::default(),
        })
    }

    pub fn wants_more(&self, total: usize) -> bool {
        self.exchange.wants_more(total)
    }

    /// Prints the counts; true where every outcome passed.
    pub fn finish(self) -> bool {
        self.exchange.finish()
    }

    /// Asks, with more outcomes than those of the bytes.
    fn ask(
        &mut self,
        case: Case,
        expected: Answer,
        mut outcomes: Vec<String>,
        witness: Option<(Witness, Request)>,
    ) {
        outcomes.extend(outcome::of(&case, &expected));
        let asked = Asked {
            case,
            expected,
            outcomes,
            witness,
        };
        self.exchange.ask(asked.case.to_bytes(), asked);
        if self.exchange.count().is_multiple_of(CASES_FOR_A_PROCESS) {
            self.exchange.restart();
        }
    }

    /// The run beside a call that takes no tables.
    fn run_beside(&self) -> Vec<u32> {
        let count = self.exchange.count();
        match count.is_multiple_of(WITH_TABLES_BESIDE) {
            true => vec![count as u32; 8],
            false => Vec::new(),
        }
    }
}

impl PutCase for Comparison {
    fn put_case(&mut self, case: Case) {
        let expected = case.expected();
        self.ask(case, expected, Vec::new(), None);
    }
}

impl Put for Comparison {
    fn put(&mut self, request: Request) {
        self.put_in_sequence(None, request);
    }

    /// The table run as the last call on numbers left it.
    fn tables(&self) -> &[u32] {
        &self.tables
    }
}

impl PutInSequence for Comparison {
    /// The same call on numbers gives the outcomes, and its answer has to be that of the bytes.
    /// Every answer has its tables, and nothing is asked of the program where they are asked for.
    fn put_in_sequence(
        &mut self,
        witness: Option<Witness>,
        mut request: Request,
    ) -> protocol::Answer {
        if !request.tables.is_empty() {
            self.tables = Rc::new(std::mem::take(&mut request.tables));
        }
        let found = Rc::clone(&self.tables);
        let answer = expected::answer(&request, &mut self.tables);
        if let Call::Tables = request.call {
            return answer;
        }
        let beside = self.run_beside();
        let [before, after] = match request.call {
            Call::Served(_) | Call::Store { .. } => [&found[..], &self.tables],
            _ => [&beside[..]; 2],
        };
        let case = Case::of(&request, before);
        let expected = case.expected();
        assert_eq!(expected.number, layout::number_of(request.call, &answer));
        let outcomes = match witness {
            None => numbers::of(&request, Runs { before, after }, &answer),
            Some(_) => Vec::new(),
        };
        let witness = witness.map(|witness| (witness, request));
        self.ask(case, expected, outcomes, witness);
        answer
    }
}
