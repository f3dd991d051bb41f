//! A MUPS/16 unit in a row of calls: each is handed the state that the last one left.

use super::call::{Operation, UnitCall};
use super::words::{self, unused};
use crate::cases::state::{self, LENGTHS};
use crate::comparison::Judges;
use crate::protocol::{Answer, Call, Request};
use crate::put::PutJudged;
use crate::random::Random;
use reference::mups16::State;
use reference::{Registers, FIELDS};

pub struct Unit {
    pub state: State,
    /// Goes along with the next call.
    run: Vec<u32>,
}

impl Unit {
    /// One that is handed this run with its first call.
    pub fn with(random: &mut Random, run: Vec<u32>) -> Unit {
        Unit {
            state: words::state(random, false),
            run,
        }
    }

    /// The next call takes this run instead of the one that is kept.
    pub fn hand_over(&mut self, run: Vec<u32>) {
        self.run = run;
    }

    /// The next call, which is known for these outcomes.
    pub fn call(
        &mut self,
        to: &mut dyn PutJudged,
        random: &mut Random,
        call: UnitCall,
        outcomes: Vec<String>,
    ) -> Answer {
        let (registers, buffer) = beside(random);
        let request = Request {
            tables: std::mem::take(&mut self.run),
            ..Request::of_mups16(call, registers, self.state, buffer)
        };
        let answer = to.put_judged(judges(outcomes), request);
        if let Some(state) = answer.state {
            self.state = State::from_words(state);
        }
        answer
    }
}

pub fn judges(outcomes: Vec<String>) -> Judges {
    Judges {
        outcomes,
        ..Judges::default()
    }
}

/// Asks for the table run after a call of this name.
pub fn ask_after(to: &mut dyn PutJudged, what: &str) {
    let request = Request::without_run(Call::Tables, Registers::default(), Vec::new());
    to.put_judged(judges(vec![asked_after(what)]), request);
}

pub fn asked_after(what: &str) -> String {
    format!("table run asked for after {what}")
}

/// Registers and a buffer that come back whatever they are; often there is no buffer.
fn beside(random: &mut Random) -> (Registers, Vec<u64>) {
    let registers = match random.one_in(2) {
        true => state::registers(random),
        false => Registers::from_words(std::array::from_fn::<u32, FIELDS, _>(|_| random.bits(32))),
    };
    let buffer = match random.one_in(4) {
        true => {
            let length = random.pick(&LENGTHS);
            state::buffer(random, length)
        }
        false => Vec::new(),
    };
    (registers, buffer)
}

/// A call with anything in what its operation does not use.
fn any(random: &mut Random, operation: Operation) -> UnitCall {
    UnitCall {
        operation,
        a: unused(random),
        b: unused(random),
        user: random.one_in(2),
        write: random.one_in(2),
    }
}

pub fn map(random: &mut Random, address: u16, user: bool, write: bool) -> UnitCall {
    UnitCall {
        a: address.into(),
        user,
        write,
        ..any(random, Operation::Map)
    }
}

/// A map by anyone.
pub fn any_map(random: &mut Random, address: u16) -> UnitCall {
    let (user, write) = (random.one_in(2), random.one_in(2));
    map(random, address, user, write)
}

/// A low or high word.
pub fn read(random: &mut Random, operation: Operation, a: u32) -> UnitCall {
    UnitCall {
        a,
        ..any(random, operation)
    }
}

pub fn fault_address(random: &mut Random) -> UnitCall {
    any(random, Operation::FaultAddress)
}

pub fn set_index(random: &mut Random, a: u32) -> UnitCall {
    UnitCall {
        a,
        ..any(random, Operation::SetIndex)
    }
}

pub fn set_entry(random: &mut Random, a: u32, b: u32) -> UnitCall {
    UnitCall {
        a,
        b,
        ..any(random, Operation::SetEntry)
    }
}

/// A call of the operation with any arguments.
pub fn of(random: &mut Random, operation: Operation) -> UnitCall {
    let place = words::place(random);
    let at = words::address_of(random, place);
    match operation {
        Operation::Map => {
            let address = words::virtual_address(random);
            any_map(random, address)
        }
        Operation::LowWord | Operation::HighWord => read(random, operation, at),
        Operation::FaultAddress => fault_address(random),
        Operation::SetIndex => {
            let value = words::index_value(random);
            set_index(random, value)
        }
        Operation::SetEntry => {
            let entry = words::entry(random);
            set_entry(random, at, entry)
        }
    }
}
