//! A stand-in's MUPS/16 unit, right or with a fault.

mod beside;
mod entries;
mod fault;
mod index;
mod map;
mod refusal;
#[cfg(test)]
mod trial;
mod violations;

use super::call::{Operation, UnitCall};
use crate::protocol::{Answer, Request};
use beside::beside;
pub use fault::{Fault, ALL};
use reference::mups16::STATE_WORDS;
use std::rc::Rc;

/// What a stand-in keeps from its last call, for the faults that go by it.
#[derive(Default)]
pub struct Memory {
    words: [u32; 4],
    state: Option<[u32; STATE_WORDS]>,
    call: Option<UnitCall>,
    /// A set that the next call is to make.
    late: Option<UnitCall>,
}

/// The unit for one call.
struct Unit<'a> {
    fault: Fault,
    index: u32,
    boot_mode: u32,
    fault_address: u32,
    entries: &'a mut Rc<Vec<u32>>,
}

pub fn answer(
    fault: Fault,
    request: &Request,
    call: UnitCall,
    tables: &mut Rc<Vec<u32>>,
    memory: &mut Memory,
) -> Answer {
    let [index, boot_mode, fault_address] = handed(fault, request, memory);
    let mut unit = Unit {
        fault,
        index,
        boot_mode,
        fault_address,
        entries: tables,
    };
    if let Some(late) = memory.late.take() {
        unit.set_late(late);
    }
    let right = unit.call(with_last_lines(fault, call, memory));
    let state = [unit.index, unit.boot_mode, unit.fault_address];
    let [form, value, faults, zero] = right;
    let words = match fault {
        Fault::LastAnswerRepeated => [form, memory.words[1], faults, zero],
        Fault::LastFaultsRepeated if form == 0 => [form, value, memory.words[2], zero],
        _ => right,
    };
    *memory = Memory {
        words: right,
        state: Some(state),
        call: Some(call),
        late: is_late(fault, call, form).then_some(call),
    };
    let (registers, buffer) = beside(fault, request);
    Answer {
        words,
        registers,
        pool: None,
        state: Some(state),
        buffer,
        tables: Vec::new(),
    }
}

/// The state that the call is made with.
fn handed(fault: Fault, request: &Request, memory: &Memory) -> [u32; STATE_WORDS] {
    let handed = request.state.expect("a call of the unit has a state");
    match (fault, memory.state) {
        (Fault::StateOfItsOwn, Some(kept)) => kept,
        (Fault::FaultAddressOfItsOwn, Some([_, _, kept])) => [handed[0], handed[1], kept],
        _ => handed,
    }
}

/// The call as the fault makes it.
fn with_last_lines(fault: Fault, call: UnitCall, memory: &Memory) -> UnitCall {
    match (fault, memory.call) {
        (Fault::LinesOfLastCall, Some(UnitCall { user, write, .. })) => UnitCall {
            user,
            write,
            ..call
        },
        _ => call,
    }
}

/// Whether the next call is to make this set.
fn is_late(fault: Fault, call: UnitCall, form: u32) -> bool {
    fault == Fault::SetMadeByNextCall && call.operation == Operation::SetEntry && form == 0
}

impl Unit<'_> {
    fn call(&mut self, call: UnitCall) -> [u32; 4] {
        if self.is_refused(call) {
            return self.refused(call);
        }
        match call.operation {
            Operation::Map => self.map(call),
            Operation::LowWord => done(self.low_word(call.a)),
            Operation::HighWord => done(self.high_word(call.a)),
            Operation::FaultAddress => done(self.read_fault_address()),
            Operation::SetIndex => done(self.set_index(call.a)),
            Operation::SetEntry => done(self.set_entry(call.a, call.b)),
        }
    }

    fn is_in_boot_mode(&self) -> bool {
        self.boot_mode != 0
    }

    /// Puts a word into the run.
    fn put(&mut self, place: usize, word: u32) {
        Rc::make_mut(self.entries)[place] = word;
    }

    fn set_late(&mut self, call: UnitCall) {
        let place = self.place(call.a);
        if place < self.entries.len() {
            self.put(place, call.b & ENTRY);
        }
    }

    fn clear_junk(&mut self, place: usize) {
        self.put(place, self.entries[place] & ENTRY);
    }
}

/// The bits that an entry has.
const ENTRY: u32 = 0x7_FFFF;

/// A table has 256 entries, and the run 8,192.
const TABLE: usize = 256;
const RUN: usize = 8192;

fn done(value: u32) -> [u32; 4] {
    [0, value, 0, 0]
}
