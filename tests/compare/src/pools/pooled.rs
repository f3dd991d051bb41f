//! A unit and a pool in a sequence: each call is handed what the last one left.

use super::chain::Chain;
use crate::cases::state;
use crate::cases::witnesses::Witnesses;
use crate::comparison::Judges;
use crate::expected::DONE;
use crate::protocol::{Call, PoolCall, Request};
use crate::put::PutJudged;
use crate::random::Random;
use crate::witness::{LookAt, Witness};
use reference::{Registers, SLOTS};

pub struct Pooled {
    pub chain: Chain,
    pub registers: Registers,
    buffer: Vec<u64>,
    pub witnesses: Witnesses,
    /// Whether the program keeps the sequence's table run.
    pub run_is_kept: bool,
}

impl Pooled {
    /// A start beside a new pool, with these table words.
    pub fn begin(
        to: &mut dyn PutJudged,
        random: &mut Random,
        chain: Chain,
        words: Vec<u32>,
    ) -> Pooled {
        let buffer = state::buffer(random, SLOTS);
        let start = Request::without_run(Call::Start, state::registers(random), buffer);
        let started = to.put_judged(Judges::default(), start);
        Pooled {
            chain,
            registers: Registers::from_words(started.registers),
            buffer: started.buffer,
            witnesses: Witnesses::begin(words),
            run_is_kept: false,
        }
    }

    /// The table words, by the reader.
    pub fn words(&self) -> &[u32] {
        self.witnesses.reader.words()
    }

    /// A request with the unit as it is; the run goes along where the program has another.
    pub fn request(&mut self, call: Call) -> Request {
        let tables = match self.run_is_kept {
            true => Vec::new(),
            false => self.words().to_vec(),
        };
        self.run_is_kept = true;
        Request {
            tables,
            ..Request::without_run(call, self.registers, self.buffer.clone())
        }
    }

    /// A request with the pool too.
    pub fn request_on_pool(&mut self, call: PoolCall) -> Request {
        let pool = Some(Box::new(self.chain.pool));
        Request {
            pool,
            ..self.request(Call::OnPool(call))
        }
    }

    /// A map or a pass, after which the buffer goes on where it is accepted.
    pub fn put_on_pool(
        &mut self,
        to: &mut dyn PutJudged,
        witness: Witness,
        outcomes: Vec<String>,
        request: Request,
    ) {
        let answer = self.chain.put(to, judges(witness, outcomes), request);
        if answer.words[0] == DONE {
            self.buffer = answer.buffer;
        }
    }

    /// An access, a store or a setting that is accepted.
    pub fn put_unit_call(
        &mut self,
        to: &mut dyn PutJudged,
        witness: Witness,
        outcomes: Vec<String>,
        request: Request,
    ) {
        let answer = to.put_judged(judges(witness, outcomes), request);
        self.registers = Registers::from_words(answer.registers);
        self.buffer = answer.buffer;
    }

    /// Asks for the table run, and has the pages looked at that the slots hold.
    pub fn ask_for_words(&mut self, to: &mut dyn PutJudged) {
        let request = self.request(Call::Tables);
        let pages = (0..SLOTS).map(|slot| self.witnesses.page_of(slot));
        let look_at = LookAt::AllTouched(pages.collect());
        let witness = self.witnesses.hear_of_words(look_at);
        to.put_judged(judges(witness, Vec::new()), request);
    }
}

fn judges(witness: Witness, outcomes: Vec<String>) -> Judges {
    Judges {
        witness: Some(witness),
        outcomes,
        ..Judges::default()
    }
}
