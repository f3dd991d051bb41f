//! What the reader and the account say of a call in a sequence, or a student of a step in a dump,
//! to be held against the answer.

use crate::comparison::Points;
use crate::expected::{AT, DONE, FAULT, REFUSED};
use crate::protocol::{Answer, Request};
use crate::read_back::Step;
use reference::*;
use std::rc::Rc;

const REFUSED_AS_READ: &str = "sequence: refused with the reader's number, loads 0";
const READ: &str = "sequence: the access's answer is the reader's";
const LOADS: &str =
    "sequence: one load exactly when the first try misses and the reader finds a leaf";
const EMPTIED: &str = "sequence: the store's count is the account's";
const SET: &str = "sequence: the setting is done";
const SLOTS_AGREE: &str = "sequence: the 44 bits of the 64 slots are the account's";
const SETTINGS_AGREE: &str = "sequence: the guarded settings are the reader's";
const WORDS_AGREE: &str = "sequence: the table words are the reader's";
const ONE_HIT: &str = "sequence: at most one hit on a page, ids 0 to 62, CTRL 0 to 7";
const ONE_HIT_ALL: &str =
    "sequence: at most one hit on every touched page, ids 0 to 62, CTRL 0 to 7";

pub const MAP_EMPTIED: &str = "sequence: the map's count is the account's";
pub const PASS_EMPTIED: &str = "sequence: the pass's count is the account's";

pub fn all() -> Vec<String> {
    let mut all = of_calls();
    all.push(WORDS_AGREE.to_string());
    all
}

/// Those of the calls themselves.
pub fn of_calls() -> Vec<String> {
    [
        REFUSED_AS_READ,
        READ,
        LOADS,
        EMPTIED,
        SET,
        SLOTS_AGREE,
        SETTINGS_AGREE,
        ONE_HIT,
        ONE_HIT_ALL,
    ]
    .map(String::from)
    .to_vec()
}

/// What the call itself has to answer.
pub enum Told {
    Refused(u32),
    Access {
        said: Said,
        loaded: bool,
    },
    Store {
        emptied: u32,
    },
    /// The frame is judged elsewhere.
    Map {
        emptied: u32,
    },
    /// The frames are judged elsewhere.
    Pass {
        emptied: u32,
    },
    Setting,
    Words(Vec<u32>),
    ReadBack(Step),
}

/// What has to stand after an accepted call.
pub struct Left {
    pub settings: [u32; SETTINGS],
    /// None where the call was not handed the buffer.
    pub account: Option<Rc<Account>>,
    pub look_at: LookAt,
}

/// The pages whose hits are counted.
pub enum LookAt {
    One(u32),
    AllTouched(Vec<u32>),
}

pub struct Witness {
    pub told: Told,
    pub left: Option<Left>,
}

impl Witness {
    pub fn of_step(step: Step) -> Witness {
        Witness {
            told: Told::ReadBack(step),
            left: None,
        }
    }

    pub fn of_refusal(number: u32) -> Witness {
        Witness {
            told: Told::Refused(number),
            left: None,
        }
    }

    /// Each point that the witness can judge, and whether it holds.
    pub fn points(&self, request: &Request, got: &Answer) -> Points {
        let mut points = self.told.points(request, got);
        if let Some(left) = &self.left {
            points.extend(left.points(got));
        }
        points
    }
}

impl Told {
    fn points(&self, request: &Request, got: &Answer) -> Points {
        let [word, value, loads, _] = got.words;
        match self {
            Told::Refused(number) => {
                vec![(REFUSED_AS_READ, got.words == [REFUSED, *number, 0, 0])]
            }
            Told::Access { said, loaded } => {
                let read = match said {
                    Said::At(address) => (AT, *address),
                    Said::Fault(value) => (FAULT, *value),
                    Said::Refused(_) | Said::Written => panic!("the reader answers an access"),
                };
                vec![
                    (READ, (word, value) == read),
                    (LOADS, loads == u32::from(*loaded)),
                ]
            }
            Told::Store { emptied } => vec![(EMPTIED, got.words == [DONE, *emptied, 0, 0])],
            Told::Map { emptied } => {
                vec![(MAP_EMPTIED, [word, value, loads] == [DONE, *emptied, 0])]
            }
            Told::Pass { emptied } => {
                vec![(PASS_EMPTIED, [word, value, loads] == [DONE, *emptied, 0])]
            }
            Told::Setting => vec![(SET, got.words == [DONE, 0, 0, 0])],
            Told::Words(words) => vec![(WORDS_AGREE, got.tables == *words)],
            Told::ReadBack(step) => step.points(request, got),
        }
    }
}

impl Left {
    fn points(&self, got: &Answer) -> Vec<(&'static str, bool)> {
        let mut points = vec![(SETTINGS_AGREE, got.registers[..SETTINGS] == self.settings)];
        let Some(account) = &self.account else {
            return points;
        };
        let agree = |slot: usize| Entry::unpack(got.buffer[slot]) == account.slot(slot);
        points.push((SLOTS_AGREE, (0..SLOTS).all(agree)));
        points.push(match &self.look_at {
            LookAt::One(page) => (ONE_HIT, at_most_one_hit(&got.buffer, *page)),
            LookAt::AllTouched(pages) => (
                ONE_HIT_ALL,
                pages.iter().all(|&page| at_most_one_hit(&got.buffer, page)),
            ),
        });
        points
    }
}

/// "No more than one entry hits any address under any identification from 0 to 62, under any
/// setting of CTRL's three bits."
fn at_most_one_hit(buffer: &[u64], page: u32) -> bool {
    (0..63).all(|context| {
        (0..8).all(|ctrl| {
            let registers = Registers {
                context,
                ctrl,
                ..Registers::default()
            };
            hits(registers, buffer, page).len() <= 1
        })
    })
}
