//! A plot that is known for some outcomes, and the pass over it.

use super::plot::Plot;
use crate::cases::tables::ask_for_tables;
use crate::comparison::Judges;
use crate::expected::DONE;
use crate::protocol::{Answer, Request};
use crate::put::PutJudged;

pub struct Known {
    pub plot: Plot,
    pub outcomes: Vec<String>,
}

/// The pass and, where it is accepted, one more; the table run is asked for after each.
pub fn put(to: &mut dyn PutJudged, Known { plot, outcomes }: Known) {
    to.may_restart();
    let request = plot.request();
    let answer = put_one(to, request.clone(), outcomes);
    if answer.words[0] == DONE {
        put_one(to, handed_on(request, answer), Vec::new());
    }
}

/// The same pass over what an accepted one left.
pub fn handed_on(request: Request, left: Answer) -> Request {
    Request {
        pool: left.pool,
        buffer: left.buffer,
        tables: Vec::new(),
        ..request
    }
}

/// One pass, after which the table run is asked for.
pub fn put_one(to: &mut dyn PutJudged, request: Request, outcomes: Vec<String>) -> Answer {
    let judges = Judges {
        outcomes,
        ..Judges::default()
    };
    let answer = to.put_judged(judges, request);
    ask_for_tables(to);
    answer
}
