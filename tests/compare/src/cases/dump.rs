//! Dumps of the buffer as a student makes them: SELECT is set, TLB_HI and TLB_LO are read, slot
//! by slot.

use super::state;
use crate::comparison::Comparison;
use crate::protocol::{Answer, Call, Request};
use crate::random::Random;
use crate::read_back::{Exception, HighRead, Step, Written};
use crate::witness::Witness;
use reference::*;
use std::rc::Rc;

/// The flag of a raw access's answer that says that there was an exception.
const EXCEPTION: u32 = 2;

/// The state as the last call left it.
struct Student {
    registers: Registers,
    buffer: Vec<u64>,
    exception: Option<Exception>,
}

/// A slot's number, and what was read of it.
struct Dumped {
    number: u64,
    high: u32,
    low: u32,
}

/// One dump after some calls, written back into another buffer.
pub fn put(comparison: &mut Comparison, random: &mut Random) {
    let mut student = Student::begin(comparison, random);
    for _ in 0..random.below(32) {
        student.stir(comparison, random);
    }
    for _ in 0..4 {
        student.write_and_read(comparison, random);
    }
    let quiet = random.one_in(3);
    let dumped = student.dump(comparison, random, quiet);
    Student::begin(comparison, random).write_back(comparison, random, &dumped);
}

impl Student {
    /// From the start, or from any registers and buffer; mostly so that exceptions are raised.
    fn begin(comparison: &mut Comparison, random: &mut Random) -> Student {
        let mut student = Student {
            registers: state::registers(random),
            buffer: state::buffer(random, SLOTS),
            exception: None,
        };
        if random.one_in(2) {
            student.call(comparison, None, Call::Start);
        }
        if !random.one_in(4) {
            let number = random.pick(&[2, 9]);
            student.write(comparison, None, number, 1);
        }
        student
    }

    /// A call that moves the cause, SELECT or a slot, or a read that must not.
    fn stir(&mut self, comparison: &mut Comparison, random: &mut Random) {
        let number = match random.below(12) {
            0 | 1 => TLB_HI,
            2 | 3 => TLB_LO,
            4 => SELECT,
            5 => random.pick(&[0, 1, 2, 5, 9]),
            6 | 7 => {
                self.read_pair(comparison, None);
                let value = random.bits(23);
                return self.write(comparison, Some(Step::StoreAfterReads), TLB_LO, value);
            }
            _ => return self.access(comparison, random),
        };
        let value = random.bits(FIELD_BITS[number as usize]);
        self.write(comparison, None, number, value);
    }

    /// An entry is written, and read back after some accesses.
    fn write_and_read(&mut self, comparison: &mut Comparison, random: &mut Random) {
        let (select, high, low) = (random.bits(6), random.bits(25), random.bits(23));
        self.write(comparison, Some(Step::Select), SELECT, select);
        self.write(comparison, None, TLB_HI, high);
        self.write(comparison, None, TLB_LO, low);
        for _ in 0..random.below(4) {
            self.access(comparison, random);
        }
        self.write(comparison, Some(Step::Select), SELECT, select);
        let exceptions = self.exception.is_some();
        let written = Written {
            high,
            low,
            exceptions,
        };
        self.read_pair(comparison, Some(written));
    }

    /// Unless it is to be quiet, accesses come in between, after which their own slot is read.
    fn dump(
        &mut self,
        comparison: &mut Comparison,
        random: &mut Random,
        quiet: bool,
    ) -> Vec<Dumped> {
        let mut dumped = Vec::new();
        let numbers = self.buffer.clone();
        for (select, number) in (0..).zip(numbers) {
            if !quiet && random.one_in(8) {
                self.access(comparison, random);
                self.read_pair(comparison, None);
            }
            self.write(comparison, Some(Step::Select), SELECT, select);
            let (high, low) = self.read_pair(comparison, None);
            dumped.push(Dumped { number, high, low });
        }
        dumped
    }

    fn write_back(&mut self, comparison: &mut Comparison, random: &mut Random, dumped: &[Dumped]) {
        let numbers: Rc<Vec<u64>> = Rc::new(dumped.iter().map(|slot| slot.number).collect());
        for (select, slot) in (0..).zip(dumped) {
            if random.one_in(8) {
                self.access(comparison, random);
            }
            self.write(comparison, Some(Step::Select), SELECT, select);
            self.write(comparison, None, TLB_HI, slot.high);
            let step = Step::StoreBack {
                dumped: Rc::clone(&numbers),
            };
            self.write(comparison, Some(step), TLB_LO, slot.low);
        }
    }

    /// A raw access, often to a page that a slot stands for.
    fn access(&mut self, comparison: &mut Comparison, random: &mut Random) {
        let slot = random.below(SLOTS);
        let page = match random.one_in(2) {
            true => vpn_of(slot, Entry::unpack(self.buffer[slot])),
            false => state::page(random),
        };
        let access = Access {
            address: state::address_on(random, page),
            user: random.one_in(2),
            write: random.one_in(2),
            draw: random.bits(2),
        };
        let answer = self.call(comparison, None, Call::Raw(access));
        if answer.words[2] & EXCEPTION != 0 {
            self.exception = Some(Exception {
                page,
                context: self.registers.context,
                selects: true,
            });
        }
    }

    fn write(&mut self, comparison: &mut Comparison, step: Option<Step>, number: u32, value: u32) {
        self.call(comparison, step, Call::Write { number, value });
        match (number, &mut self.exception) {
            (SELECT, Some(exception)) => exception.selects = false,
            (TLB_HI, exception) => *exception = None,
            _ => {}
        }
    }

    /// TLB_HI and TLB_LO at the present SELECT, where an entry may just have been written.
    fn read_pair(&mut self, comparison: &mut Comparison, written: Option<Written>) -> (u32, u32) {
        let high_read = HighRead::default();
        let step = Step::High {
            read: Rc::clone(&high_read),
            written,
        };
        let high = self.read(comparison, step, TLB_HI);
        let step = Step::Low {
            high: high_read,
            written,
            exception: self.exception,
        };
        (high, self.read(comparison, step, TLB_LO))
    }

    fn read(&mut self, comparison: &mut Comparison, step: Step, number: u32) -> u32 {
        self.call(comparison, Some(step), Call::Read { number })
            .words[1]
    }

    /// The next call is handed what this one left.
    fn call(&mut self, comparison: &mut Comparison, step: Option<Step>, call: Call) -> Answer {
        let request = Request::without_run(call, self.registers, self.buffer.clone());
        let answer = comparison.put_before(step.map(Witness::of_step), request);
        self.registers = Registers::from_words(answer.registers);
        self.buffer.clone_from(&answer.buffer);
        answer
    }
}
