//! The history of one pool, kept from the answers: which frames are live, and how many were taken,
//! mapped and given.
//!
//! It is begun with a new pool and never looks at a bit to learn which frame is live; the bits are
//! held against it.

use crate::comparison::{Hears, Points};
use crate::expected::{DONE, REFUSED};
use crate::protocol::{Answer, Call, PoolCall, Request};
use reference::heap::{Pool, BIT_NUMBERS, MOST_FRAMES};
use std::collections::VecDeque;

const NEW: &str = "history: a new pool has its first pfn and size, and all bits 0";
const FULL: &str = "history: a take is refused with 10 exactly when every frame is live";
const MAP_FULL: &str = "history: a map is refused with 10, not accepted, when every frame is live";
const NOT_LIVE: &str = "history: a take or map never answers a live frame or one outside";
const LOWEST: &str = "history: a take or map answers the lowest frame that is not live";
const GIVEN: &str = "history: a give is refused with 11 exactly when its frame is not live";
const HELD: &str = "history: held is takes and maps accepted less gives accepted";
const COUNTED: &str = "history: held is the number of live frames";
const BALANCE: &str = "history: frames free and frames held make the size";
const BITS: &str = "history: the bits within the size are set for the live frames alone";
const PAST: &str = "history: the bits past the size stay";
const SHAPE: &str = "history: the first pfn and the size stay";
const BACK: &str = "history: a pass answers the number of frames that it has to give back";
const UNCHANGED: &str = "history: a refused call hands the pool back unchanged";

/// The point that passes alone are judged by.
pub fn of_passes() -> String {
    BACK.to_string()
}

pub fn all() -> Vec<String> {
    [
        NEW, FULL, MAP_FULL, NOT_LIVE, LOWEST, GIVEN, HELD, COUNTED, BALANCE, BITS, PAST, SHAPE,
        UNCHANGED,
    ]
    .map(String::from)
    .to_vec()
}

#[derive(Clone)]
pub struct History {
    first: u32,
    /// By place.
    live: Vec<bool>,
    /// What stands past the size; the rest is of no account.
    past: [u64; BIT_NUMBERS],
    taken: usize,
    mapped: usize,
    given: usize,
    /// For each pass under way, the frames that it gives back where it is accepted.
    due: VecDeque<Vec<u32>>,
}

impl History {
    /// That of a new pool, handed on with these bits past its size.
    pub fn begin(first: u32, size: u32, past: [u64; BIT_NUMBERS]) -> History {
        History {
            first,
            live: vec![false; size as usize],
            past,
            taken: 0,
            mapped: 0,
            given: 0,
            due: VecDeque::new(),
        }
    }

    /// A pass that is put next gives these frames back where it is accepted.
    pub fn expect_back(&mut self, frames: Vec<u32>) {
        self.due.push_back(frames);
    }

    pub fn is_full(&self) -> bool {
        self.lowest_not_live().is_none()
    }

    /// The pfns of the live frames.
    pub fn live_frames(&self) -> Vec<u32> {
        (self.first..)
            .zip(&self.live)
            .filter_map(|(pfn, live)| live.then_some(pfn))
            .collect()
    }

    /// The lowest pfn of the pool that is not live.
    pub fn lowest_not_live(&self) -> Option<u32> {
        (self.first..)
            .zip(&self.live)
            .find_map(|(pfn, live)| (!live).then_some(pfn))
    }

    fn is_new(&self, got: &Answer, pool: &Pool) -> bool {
        let is_shape = pool.first == self.first && pool.size as usize == self.live.len();
        got.words == [DONE, 0, 0, 0] && is_shape && pool.bits == [0; BIT_NUMBERS]
    }

    fn hear_take(&mut self, got: &Answer) -> Points {
        if self.is_full() {
            return vec![(FULL, got.words == [REFUSED, 10, 0, 0])];
        }
        let mut points = vec![(FULL, got.words[0] == DONE)];
        if got.words[0] == DONE {
            points.extend(self.hear_frame(got.words[1]));
            self.taken += 1;
        }
        points
    }

    /// A map may be refused on other grounds as well.
    fn hear_map(&mut self, got: &Answer) -> Points {
        let [word, value, _, pfn] = got.words;
        let is_full = self.is_full();
        let mut points = vec![match word {
            DONE => (MAP_FULL, !is_full),
            _ => (MAP_FULL, is_full || value != 10),
        }];
        if word == DONE {
            points.extend(self.hear_frame(pfn));
            self.mapped += 1;
        }
        points
    }

    /// A frame that was taken or mapped is live from now on.
    fn hear_frame(&mut self, pfn: u32) -> Points {
        let lowest = self.lowest_not_live();
        let place = pfn.wrapping_sub(self.first) as usize;
        let points = vec![
            (NOT_LIVE, self.live.get(place) == Some(&false)),
            (LOWEST, Some(pfn) == lowest),
        ];
        if let Some(live) = self.live.get_mut(place) {
            *live = true;
        }
        points
    }

    fn hear_give(&mut self, pfn: u32, got: &Answer) -> Points {
        let place = pfn.wrapping_sub(self.first) as usize;
        let is_live = self.live.get(place) == Some(&true);
        let holds = match is_live {
            true => got.words == [DONE, 0, 0, 0],
            false => got.words == [REFUSED, 11, 0, 0],
        };
        if got.words[0] == DONE {
            self.given += 1;
            if let Some(live) = self.live.get_mut(place) {
                *live = false;
            }
        }
        vec![(GIVEN, holds)]
    }

    /// A pass is "covered by the balance": each frame that it gives back is one given.
    fn hear_pass(&mut self, got: &Answer) -> Points {
        let frames = self.due.pop_front().unwrap_or_default();
        let [word, _, _, given] = got.words;
        if word != DONE {
            return vec![(BACK, given == 0)];
        }
        self.given += given as usize;
        for pfn in &frames {
            let place = pfn.wrapping_sub(self.first) as usize;
            if let Some(live) = self.live.get_mut(place) {
                *live = false;
            }
        }
        vec![(BACK, given as usize == frames.len())]
    }

    fn hear_held(&self, got: &Answer) -> Points {
        let [word, value, rest @ ..] = got.words;
        let answered = (word == DONE && rest == [0, 0]).then_some(value as usize);
        let live = self.live.iter().filter(|live| **live).count();
        vec![
            (HELD, answered.is_some() && answered == self.by_history()),
            (COUNTED, answered == Some(live)),
        ]
    }

    /// The held number "counted from the history of takes, mappings among them, and gives".
    fn by_history(&self) -> Option<usize> {
        (self.taken + self.mapped).checked_sub(self.given)
    }

    /// What has to stand after any call.
    fn left(&self, pool: &Pool) -> Points {
        let size = self.live.len() as u32;
        let clear = (0..size).filter(|&place| !pool.is_held(place)).count();
        let is_live = |place: u32| self.live[place as usize];
        let stood = |place: u32| self.past[place as usize / 64] >> (place % 64) & 1 == 1;
        let free_and_held = self.by_history().map(|held| clear + held);
        vec![
            (SHAPE, (pool.first, pool.size) == (self.first, size)),
            (
                BITS,
                (0..size).all(|place| pool.is_held(place) == is_live(place)),
            ),
            (
                PAST,
                (size..MOST_FRAMES).all(|place| pool.is_held(place) == stood(place)),
            ),
            (BALANCE, free_and_held == Some(size as usize)),
        ]
    }
}

impl Hears for History {
    fn hear(&mut self, request: &Request, got: &Answer) -> Points {
        let (Call::OnPool(call), Some(pool)) = (request.call, &got.pool) else {
            return Vec::new();
        };
        let mut points = match call {
            PoolCall::New { .. } => return vec![(NEW, self.is_new(got, pool))],
            PoolCall::Take => self.hear_take(got),
            PoolCall::Give { pfn } => self.hear_give(pfn, got),
            PoolCall::Held => self.hear_held(got),
            PoolCall::Map { .. } => self.hear_map(got),
            PoolCall::Collect { .. } => self.hear_pass(got),
        };
        points.extend(self.left(pool));
        if got.words[0] == REFUSED {
            points.push((UNCHANGED, got.pool == request.pool));
        }
        points
    }
}

#[cfg(test)]
mod tests {
    use super::*;
    use reference::heap::{give, held, new_pool, take};
    use reference::Registers;

    /// A pool of 3 frames from pfn 7 on, and its history.
    struct Told {
        pool: Pool,
        history: History,
    }

    impl Told {
        fn begin() -> Told {
            Told {
                pool: new_pool(7, 3).1,
                history: History::begin(7, 3, [0; BIT_NUMBERS]),
            }
        }

        /// The call, and an answer to it.
        fn asked(&self, call: PoolCall, words: [u32; 2], pool: Pool) -> (Request, Answer) {
            let request = Request::on_pool(call, Registers::default(), self.pool, Vec::new());
            let got = Answer {
                words: [words[0], words[1], 0, 0],
                registers: request.registers,
                pool: Some(Box::new(pool)),
                state: None,
                buffer: Vec::new(),
                tables: Vec::new(),
            };
            (request, got)
        }

        /// The points that do not hold where the call answers this.
        fn against(&self, call: PoolCall, word: u32, value: u32, pool: Pool) -> Vec<&'static str> {
            let (request, got) = self.asked(call, [word, value], pool);
            let points = self.history.clone().hear(&request, &got);
            points
                .into_iter()
                .filter_map(|(point, holds)| (!holds).then_some(point))
                .collect()
        }

        /// Goes on by a good answer.
        fn go(&mut self, call: PoolCall) {
            let (value, pool) = match call {
                PoolCall::Take => take(self.pool),
                PoolCall::Give { pfn } => {
                    let (given, pool) = give(self.pool, pfn);
                    (given.map(|()| 0), pool)
                }
                _ => (held(&self.pool), self.pool),
            };
            let (word, value) = match value {
                Ok(value) => (DONE, value),
                Err(refusal) => (REFUSED, refusal.number()),
            };
            assert_eq!(self.against(call, word, value, pool), [""; 0]);
            let (request, got) = self.asked(call, [word, value], pool);
            self.history.hear(&request, &got);
            self.pool = pool;
        }
    }

    #[test]
    fn good_answers_hold() {
        let mut told = Told::begin();
        for call in [
            PoolCall::Held,
            PoolCall::Take,
            PoolCall::Take,
            PoolCall::Give { pfn: 7 },
            PoolCall::Give { pfn: 7 },
            PoolCall::Take,
            PoolCall::Take,
            PoolCall::Take,
            PoolCall::Held,
            PoolCall::Give { pfn: 10 },
        ] {
            told.go(call);
        }
        assert!(told.history.is_full());
    }

    #[test]
    fn each_wrong_answer_shows() {
        let mut told = Told::begin();
        told.go(PoolCall::Take);
        let pool = told.pool;
        let two = pool.with_other_bit(1);
        let against = |call, word, value, pool| told.against(call, word, value, pool);
        assert_eq!(against(PoolCall::Take, DONE, 8, two), [""; 0]);
        assert_eq!(against(PoolCall::Take, DONE, 8, pool), [BITS, BALANCE]);
        assert_eq!(
            against(PoolCall::Take, DONE, 9, pool.with_other_bit(2)),
            [LOWEST]
        );
        assert_eq!(
            against(PoolCall::Take, DONE, 7, pool),
            [NOT_LIVE, LOWEST, BALANCE]
        );
        assert_eq!(against(PoolCall::Take, REFUSED, 10, pool), [FULL]);
        assert_eq!(
            against(PoolCall::Take, DONE, 8, two.with_other_bit(3)),
            [PAST]
        );
        assert_eq!(
            against(PoolCall::Take, DONE, 8, Pool { first: 6, ..two }),
            [SHAPE]
        );
        let free = pool.with_other_bit(0);
        assert_eq!(against(PoolCall::Give { pfn: 7 }, DONE, 0, free), [""; 0]);
        assert_eq!(
            against(PoolCall::Give { pfn: 8 }, DONE, 0, pool),
            [GIVEN, BALANCE]
        );
        assert_eq!(
            against(PoolCall::Give { pfn: 8 }, REFUSED, 11, free),
            [BITS, BALANCE, UNCHANGED]
        );
        assert_eq!(against(PoolCall::Held, DONE, 2, pool), [HELD, COUNTED]);
        assert_eq!(against(PoolCall::Held, REFUSED, 1, pool), [HELD, COUNTED]);
    }

    #[test]
    fn a_pass_gives_back_what_it_has_to() {
        let mut told = Told::begin();
        for _ in 0..2 {
            told.go(PoolCall::Take);
        }
        let against = |word, given, pool| {
            let mut history = told.history.clone();
            history.expect_back(vec![8]);
            let (request, mut got) = told.asked(PoolCall::Collect { id: 5 }, [word, 0], pool);
            got.words[3] = given;
            let points = history.hear(&request, &got).into_iter();
            points
                .filter_map(|(point, holds)| (!holds).then_some(point))
                .collect::<Vec<&str>>()
        };
        let back = told.pool.with_other_bit(1);
        assert_eq!(against(DONE, 1, back), [""; 0]);
        assert_eq!(against(DONE, 0, back), [BACK, BALANCE]);
        assert_eq!(against(DONE, 1, told.pool), [BITS, BALANCE]);
        let another = told.pool.with_other_bit(0);
        assert_eq!(against(DONE, 1, another), [BITS]);
        assert_eq!(against(REFUSED, 0, told.pool), [""; 0]);
        assert_eq!(against(REFUSED, 1, told.pool), [BACK]);
    }
}
