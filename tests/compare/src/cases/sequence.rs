//! Sequences of calls from the start, each before the reader and the account.

use super::steps::Steps;
use super::tables::ask_for_tables;
use super::witnesses::Witnesses;
use super::world::World;
use super::{spoil, state};
use crate::protocol::{Answer, Call, Request};
use crate::put::PutInSequence;
use crate::random::Random;
use crate::witness::{LookAt, Told};
use reference::*;
use std::collections::BTreeSet;

const STEPS_TO_ALL_PAGES: usize = 128;
const STEPS_TO_ALL_WORDS: usize = 256;

/// The state as the start or the last accepted call left it, and what is known of it otherwise.
struct Sequence {
    registers: Registers,
    buffer: Vec<u64>,
    witnesses: Witnesses,
    steps: Steps,
    touched: BTreeSet<u32>,
    /// Whether the program keeps the sequence's table run.
    run_is_kept: bool,
}

/// One sequence of so many calls, from a start.
pub fn put(to: &mut dyn PutInSequence, random: &mut Random, steps: usize) {
    let mut sequence = Sequence::begin(to, random);
    for step in 1..=steps {
        sequence.step(to, random, step);
    }
    sequence.ask_for_words(to);
}

impl Sequence {
    fn begin(to: &mut dyn PutInSequence, random: &mut Random) -> Sequence {
        let started = to.put_in_sequence(
            None,
            Request::without_run(
                Call::Start,
                state::registers(random),
                state::buffer(random, SLOTS),
            ),
        );
        let (world, words) = World::new(random);
        Sequence {
            registers: Registers::from_words(started.registers),
            buffer: started.buffer,
            witnesses: Witnesses::begin(words),
            steps: Steps::new(random, world),
            touched: BTreeSet::new(),
            run_is_kept: false,
        }
    }

    fn step(&mut self, to: &mut dyn PutInSequence, random: &mut Random, step: usize) {
        if step.is_multiple_of(STEPS_TO_ALL_WORDS) {
            self.ask_for_words(to);
        }
        let reader = &self.witnesses.reader;
        let call = self
            .steps
            .next_call(random, reader.settings(), reader.words());
        if let Call::Served(_) = call {
            self.touched.insert(self.steps.page());
        }
        let refused = random.one_in(8);
        let mut request = match refused {
            true => self.refused_request(to, random, call),
            false => self.request(call),
        };
        if !refused && matches!(call, Call::Setting { .. }) && random.one_in(4) {
            request.buffer = Vec::new();
        }
        let look_at = match step.is_multiple_of(STEPS_TO_ALL_PAGES) {
            true => LookAt::AllTouched(self.all_touched()),
            false => LookAt::One(self.steps.page()),
        };
        let witness = self.witnesses.hear(&request, look_at);
        let was_refused = matches!(witness.told, Told::Refused(_));
        assert_eq!(was_refused, refused, "{:?}", request.call);
        let handed_buffer = !request.buffer.is_empty();
        let answer = to.put_in_sequence(Some(witness), request);
        if !was_refused {
            self.go_on(answer, handed_buffer);
        } else if !self.run_is_kept {
            ask_for_tables(to);
        }
    }

    /// The next accepted call is handed what this one left.
    fn go_on(&mut self, answer: Answer, handed_buffer: bool) {
        self.registers = Registers::from_words(answer.registers);
        if handed_buffer {
            self.buffer = answer.buffer;
        }
    }

    /// A request with the state as it is; the run goes along where the program has another.
    fn request(&mut self, call: Call) -> Request {
        let tables = match self.run_is_kept {
            true => Vec::new(),
            false => self.words().to_vec(),
        };
        self.run_is_kept = true;
        Request {
            tables,
            ..Request::without_run(call, self.registers, self.buffer.clone())
        }
    }

    fn words(&self) -> &[u32] {
        self.witnesses.reader.words()
    }

    /// The call spoilt, on the state as it is or on a wholly different one. Where it is handed
    /// another run, the words are asked for before the program forgets them.
    fn refused_request(
        &mut self,
        to: &mut dyn PutInSequence,
        random: &mut Random,
        call: Call,
    ) -> Request {
        let mut grounds = spoil::some(random, spoil::grounds_of(call));
        if grounds != [3] && !random.one_in(4) {
            grounds.retain(|&ground| ground != 3);
        }
        let other_run = !grounds.contains(&3) && random.one_in(32);
        if other_run || grounds.contains(&3) {
            self.ask_for_words(to);
        }
        let mut request = self.request(call);
        if random.one_in(4) {
            request.registers = state::registers(random).to_words();
            request.buffer = state::buffer(random, SLOTS);
        }
        if other_run {
            request.tables = World::new(random).1;
        }
        spoil::spoil(random, &mut request, self.words().len(), &grounds);
        self.run_is_kept = !other_run && !grounds.contains(&3);
        request
    }

    /// The pages of all accesses so far and those that the slots hold.
    fn all_touched(&self) -> Vec<u32> {
        let held = (0..SLOTS).map(|slot| self.witnesses.page_of(slot));
        let mut pages = self.touched.clone();
        pages.extend(held);
        pages.into_iter().collect()
    }

    /// Asks for the table run, and has all touched pages looked at.
    fn ask_for_words(&mut self, to: &mut dyn PutInSequence) {
        let request = self.request(Call::Tables);
        let look_at = LookAt::AllTouched(self.all_touched());
        let witness = self.witnesses.hear_of_words(look_at);
        to.put_in_sequence(Some(witness), request);
    }
}
