//! Calls from a new pool on, each handed the last one's pool, and the pool's history.

use super::history::History;
use super::shapes;
use crate::comparison::{Hears, Judges};
use crate::protocol::{Answer, PoolCall, Request};
use crate::put::PutJudged;
use crate::random::Random;
use reference::heap::{Pool, BIT_NUMBERS};
use reference::Registers;
use std::cell::RefCell;
use std::rc::Rc;

pub struct Chain {
    /// As the last call left it.
    pub pool: Pool,
    /// By the reference's answers.
    pub ours: History,
    /// By the answers of the program under test.
    pub theirs: Rc<RefCell<History>>,
}

impl Chain {
    /// A new pool of this size. In some, other bits are put past its size before it is handed on.
    pub fn begin(to: &mut dyn PutJudged, random: &mut Random, size: u32) -> Chain {
        let first = shapes::first(random, size);
        let beside = shapes::any(random);
        let past = match random.below(3) {
            0 => [0; BIT_NUMBERS],
            1 => [u64::MAX; BIT_NUMBERS],
            _ => std::array::from_fn(|_| random.bits64()),
        };
        let history = History::begin(first, size, past);
        let mut chain = Chain {
            pool: beside,
            ours: history.clone(),
            theirs: Rc::new(RefCell::new(history)),
        };
        chain.call(to, PoolCall::New { first, size }, Vec::new());
        for place in size..64 * BIT_NUMBERS as u32 {
            let is_set = past[place as usize / 64] >> (place % 64) & 1 == 1;
            shapes::set(&mut chain.pool, place, is_set);
        }
        chain
    }

    /// The next call, which has nothing to do with the unit.
    pub fn call(
        &mut self,
        to: &mut dyn PutJudged,
        call: PoolCall,
        outcomes: Vec<String>,
    ) -> Answer {
        let request = Request::on_pool(call, Registers::default(), self.pool, Vec::new());
        let judges = Judges {
            outcomes,
            ..Judges::default()
        };
        self.put(to, judges, request)
    }

    /// The next pass gives these frames back where it is accepted.
    pub fn expect_back(&mut self, frames: Vec<u32>) {
        self.theirs.borrow_mut().expect_back(frames.clone());
        self.ours.expect_back(frames);
    }

    /// A request that is handed the last one's pool.
    pub fn put(&mut self, to: &mut dyn PutJudged, judges: Judges, request: Request) -> Answer {
        let judges = Judges {
            history: Some(self.theirs.clone()),
            ..judges
        };
        let answer = to.put_judged(judges, request.clone());
        for (point, holds) in self.ours.hear(&request, &answer) {
            assert!(holds, "{point}: {:?}", request.call);
        }
        if let Some(pool) = &answer.pool {
            self.pool = **pool;
        }
        answer
    }
}
