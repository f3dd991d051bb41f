//! What the cases of the calls are put to.

use crate::comparison::Judges;
use crate::protocol::{Answer, Request};
use crate::random::Random;
use crate::witness::Witness;

pub trait Put {
    /// One request more.
    fn put(&mut self, request: Request);

    /// The table run that the last request left.
    fn tables(&self) -> &[u32];
}

pub trait PutInSequence: Put {
    /// One request more of a sequence, before its witness where there is one. The second program's
    /// answer comes back.
    fn put_in_sequence(&mut self, witness: Option<Witness>, request: Request) -> Answer;
}

pub trait PutJudged: Put {
    /// One request more, before judges. The second program's answer comes back.
    fn put_judged(&mut self, judges: Judges, request: Request) -> Answer;

    /// Whether fewer than the given number have been put to a program that still answers.
    fn wants_more(&self, total: usize) -> bool;

    /// How many have been put so far.
    fn count(&self) -> usize;

    /// Between cases that need no earlier table run: the program may be started afresh.
    fn may_restart(&mut self);
}

/// Random cases: half of the number as they are put up to a total, and half in sequences.
pub fn put_at_random(
    to: &mut dyn PutJudged,
    random: &mut Random,
    number: usize,
    at_random: fn(&mut dyn PutJudged, &mut Random, usize),
    sequence: fn(&mut dyn PutJudged, &mut Random),
) {
    let total = to.count() + number / 2;
    at_random(to, random, total);
    let total = to.count() + number / 2;
    while to.wants_more(total) {
        to.may_restart();
        sequence(to, random);
    }
}
