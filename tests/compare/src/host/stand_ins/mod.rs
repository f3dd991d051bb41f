//! Starts and settings that are wrong in one thing each: the cases made on purpose show every one.

mod setting;
mod start;

use super::case::{Answer, Case, PutCase};
use super::{control, lengths};
use crate::cases;
use crate::protocol::{Call, Request};
use crate::put::Put;
use crate::random::Random;

/// Each start and setting with the right answer to it.
#[derive(Default)]
struct Cases(Vec<(Case, Answer)>);

impl PutCase for Cases {
    fn put_case(&mut self, case: Case) {
        if let Call::Start | Call::Setting { .. } = case.call {
            let right = case.expected();
            self.0.push((case, right));
        }
    }
}

impl Put for Cases {
    fn put(&mut self, request: Request) {
        self.put_case(Case::of(&request, &[]));
    }

    fn tables(&self) -> &[u32] {
        &[]
    }
}

fn cases() -> Cases {
    let mut random = Random::new(1);
    let mut cases = Cases::default();
    cases::start_and_setting_edges(&mut cases, &mut random);
    lengths::edges(&mut cases, &mut random);
    control::edges(&mut cases, &mut random);
    cases
}

/// Makes a right answer wrong where the fault shows.
type Fault = fn(&Case, &mut Answer);

/// There is a case of the call that is meant for each fault to show in.
fn all_show(faults: &[(&str, Fault)], is_meant: fn(Call) -> bool) {
    let cases = cases();
    for (name, fault) in faults {
        let shows = cases.0.iter().any(|(case, right)| {
            let mut answer = right.clone();
            if is_meant(case.call) {
                fault(case, &mut answer);
            }
            answer != *right
        });
        assert!(shows, "no case shows this: {name}");
    }
}

fn is_accepted(answer: &Answer) -> bool {
    answer.number == 0
}

fn refuse(case: &Case, answer: &mut Answer, number: u64) {
    answer.number = number << 56;
    answer.runs = case.runs.clone();
}
