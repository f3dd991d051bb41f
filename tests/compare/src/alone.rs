//! The second program alone, with each request and its answer shown.

use crate::comparison::Judges;
use crate::expected;
use crate::protocol::{Answer, Request};
use crate::put::{Put, PutJudged};
use std::rc::Rc;

pub struct Alone<F> {
    tables: Rc<Vec<u32>>,
    count: usize,
    show: F,
}

impl<F: FnMut(&Request, &Answer)> Alone<F> {
    pub fn new(show: F) -> Alone<F> {
        Alone {
            tables: Rc::default(),
            count: 0,
            show,
        }
    }
}

impl<F: FnMut(&Request, &Answer)> Put for Alone<F> {
    fn put(&mut self, request: Request) {
        self.put_judged(Judges::default(), request);
    }

    fn tables(&self) -> &[u32] {
        &self.tables
    }
}

impl<F: FnMut(&Request, &Answer)> PutJudged for Alone<F> {
    fn put_judged(&mut self, _: Judges, request: Request) -> Answer {
        if !request.tables.is_empty() {
            self.tables = Rc::new(request.tables.clone());
        }
        let answer = expected::answer(&request, &mut self.tables);
        (self.show)(&request, &answer);
        self.count += 1;
        answer
    }

    fn wants_more(&self, total: usize) -> bool {
        self.count < total
    }

    fn count(&self) -> usize {
        self.count
    }

    fn may_restart(&mut self) {}
}
