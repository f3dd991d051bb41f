//! Puts every request to both programs.

use crate::difference::{self, Found};
use crate::exchange::{Exchange, Question, Report};
use crate::expected::{self, FAULT};
use crate::fault;
use crate::outcome::{self, Runs};
use crate::protocol::{Answer, Call, Request};
use crate::put::{Put, PutInSequence, PutJudged};
use crate::witness::Witness;
use std::cell::RefCell;
use std::marker::PhantomData;
use std::rc::Rc;

/// So many calls of one process have answers under way at the most.
const CASES_FOR_A_PROCESS: usize = 10_000;

/// Points of an answer, each with whether it holds.
pub type Points = Vec<(&'static str, bool)>;

/// Which outcomes a comparison counts.
pub trait Outcomes {
    /// All of them: one that never happens fails.
    fn all() -> Vec<String>;

    /// Those of one request.
    fn of(request: &Request, runs: Runs, expected: &Answer, judges: &Judges) -> Vec<String>;
}

/// The outcomes of the unit's calls.
pub struct Calls;

impl Outcomes for Calls {
    fn all() -> Vec<String> {
        outcome::all()
    }

    fn of(request: &Request, runs: Runs, expected: &Answer, judges: &Judges) -> Vec<String> {
        match judges.witness {
            None => outcome::of(request, runs, expected),
            Some(_) => outcome::in_sequence(request, runs, expected),
        }
    }
}

/// What goes on by the answers of the program under test.
pub trait Hears {
    /// Each point that can be judged by this answer.
    fn hear(&mut self, request: &Request, got: &Answer) -> Points;
}

/// What a call in a sequence or a dump is judged by besides the second program's answer.
#[derive(Default)]
pub struct Judges {
    pub witness: Option<Witness>,
    pub history: Option<Rc<RefCell<dyn Hears>>>,
    /// Outcomes that the case is known for.
    pub outcomes: Vec<String>,
}

impl From<Option<Witness>> for Judges {
    fn from(witness: Option<Witness>) -> Judges {
        Judges {
            witness,
            ..Judges::default()
        }
    }
}

struct Asked {
    /// Without its table run.
    request: Request,
    found: Found,
    expected: Answer,
    outcomes: Vec<String>,
    judges: Judges,
}

impl Question for Asked {
    fn answered_in(&self) -> usize {
        Answer::byte_length(&self.request, self.expected.tables.len())
    }

    fn judge(&self, answer: Option<&[u8]>, report: &mut Report) {
        let got = answer.map(|bytes| Answer::from_bytes(bytes, &self.request));
        let agreed = got.as_ref() == Some(&self.expected);
        for outcome in &self.outcomes {
            report.add(outcome, agreed);
        }
        if let Some(got) = &got {
            self.judge_points(got, report);
        }
        if agreed || !report.may_print() {
            return;
        }
        let (case, request) = (report.cases, &self.request);
        match got {
            Some(got) => difference::print(case, request, &self.found, &self.expected, &got),
            None => println!("no answer at case {case}: {:X?}", request.call),
        }
    }
}

impl Asked {
    /// What the judges say of an answer, each of their points counted by itself.
    fn judge_points(&self, got: &Answer, report: &mut Report) {
        let mut points = Points::new();
        if let (Call::Served(_), [FAULT, value, ..]) = (self.request.call, got.words) {
            points.push((fault::POSSIBLE, fault::is_possible(value)));
        }
        if let Some(witness) = &self.judges.witness {
            points.extend(witness.points(&self.request, got));
        }
        if let Some(history) = &self.judges.history {
            points.extend(history.borrow_mut().hear(&self.request, got));
        }
        report.add_points(points, self.request.call, || format!("{:X?}", got.words));
    }
}

pub struct Comparison<O = Calls> {
    exchange: Exchange<Asked>,
    tables: Rc<Vec<u32>>,
    in_process: usize,
    counted: PhantomData<O>,
}

impl<O: Outcomes> Comparison<O> {
    pub fn start(path: &str) -> Result<Comparison<O>, String> {
        Ok(Comparison {
            exchange: Exchange::start(path, O::all())?,
            tables: Rc::default(),
            in_process: 0,
            counted: PhantomData,
        })
    }

    pub fn wants_more(&self, total: usize) -> bool {
        self.exchange.wants_more(total)
    }

    /// How many have been put so far.
    pub fn count(&self) -> usize {
        self.exchange.count()
    }

    /// One request more, before judges where it belongs to a sequence or a dump. The reference's
    /// answer comes back.
    pub fn put_before(&mut self, judges: impl Into<Judges>, mut request: Request) -> Answer {
        let mut judges = judges.into();
        let bytes = request.to_bytes();
        if !request.tables.is_empty() {
            self.tables = Rc::new(std::mem::take(&mut request.tables));
        }
        let before = Rc::clone(&self.tables);
        let expected = expected::answer(&request, &mut self.tables);
        let runs = Runs {
            before: &before,
            after: &self.tables,
        };
        let mut outcomes = std::mem::take(&mut judges.outcomes);
        outcomes.extend(O::of(&request, runs, &expected, &judges));
        let asked = Asked {
            found: Found::by(&request, &before),
            request,
            expected: expected.clone(),
            outcomes,
            judges,
        };
        self.exchange.ask(bytes, asked);
        self.in_process += 1;
        expected
    }

    /// Between cases that need no earlier table run: goes on with a fresh process where this one
    /// has had its share.
    pub fn may_restart(&mut self) {
        if self.in_process >= CASES_FOR_A_PROCESS {
            self.restart();
        }
    }

    /// Ends this process and starts a fresh one, which has no table run.
    pub fn restart(&mut self) {
        self.exchange.restart();
        self.tables = Rc::default();
        self.in_process = 0;
    }

    /// Counts an outcome of what was put to the program elsewhere.
    pub fn add(&mut self, outcome: &str, agreed: bool) {
        self.exchange.add(outcome, agreed);
    }

    /// Prints the counts; true where every outcome passed.
    pub fn finish(self) -> bool {
        self.exchange.finish()
    }
}

impl<O: Outcomes> Put for Comparison<O> {
    fn put(&mut self, request: Request) {
        self.put_before(None, request);
    }

    /// The table run that the program keeps.
    fn tables(&self) -> &[u32] {
        &self.tables
    }
}

impl<O: Outcomes> PutInSequence for Comparison<O> {
    fn put_in_sequence(&mut self, witness: Option<Witness>, request: Request) -> Answer {
        self.put_before(witness, request)
    }
}

impl<O: Outcomes> PutJudged for Comparison<O> {
    fn put_judged(&mut self, judges: Judges, request: Request) -> Answer {
        self.put_before(judges, request)
    }

    fn wants_more(&self, total: usize) -> bool {
        self.exchange.wants_more(total)
    }

    fn count(&self) -> usize {
        self.exchange.count()
    }

    fn may_restart(&mut self) {
        Comparison::may_restart(self);
    }
}
