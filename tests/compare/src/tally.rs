//! Counts by outcome: how often each happened and how often the two programs differed.

use std::collections::HashMap;

#[derive(Default)]
struct Count {
    outcome: String,
    expected: bool,
    cases: usize,
    differences: usize,
}

impl Count {
    /// Why the outcome fails; empty where it passes.
    fn remark(&self) -> String {
        match (self.expected, self.cases, self.differences) {
            (false, _, _) => ", FAILED: not among the known outcomes".to_string(),
            (_, 0, _) => ", FAILED: never happened".to_string(),
            (_, _, 0) => String::new(),
            (_, _, differences) => format!(", FAILED: {differences} differ"),
        }
    }
}

#[derive(Default)]
pub struct Tally {
    counts: Vec<Count>,
    places: HashMap<String, usize>,
}

impl Tally {
    /// Every outcome that has to happen, in the order in which it is printed.
    pub fn expecting(outcomes: impl IntoIterator<Item = String>) -> Tally {
        let mut tally = Tally::default();
        for outcome in outcomes {
            tally.place(outcome, true);
        }
        tally
    }

    pub fn add(&mut self, outcome: &str, agreed: bool) {
        let place = match self.places.get(outcome) {
            Some(&place) => place,
            None => self.place(outcome.to_string(), false),
        };
        self.counts[place].cases += 1;
        self.counts[place].differences += usize::from(!agreed);
    }

    fn place(&mut self, outcome: String, expected: bool) -> usize {
        if let Some(&place) = self.places.get(&outcome) {
            return place;
        }
        let place = self.counts.len();
        self.places.insert(outcome.clone(), place);
        self.counts.push(Count {
            outcome,
            expected,
            ..Count::default()
        });
        place
    }

    /// Prints a line for each outcome, then how many passed and how many failed.
    pub fn print(&self) -> usize {
        let mut failed = 0;
        for count in &self.counts {
            let remark = count.remark();
            failed += usize::from(!remark.is_empty());
            println!("{}: {}{}", count.outcome, count.cases, remark);
        }
        println!("{} passed, {} failed", self.counts.len() - failed, failed);
        failed
    }
}
