//! A stand-in's passes, right or with a fault.

mod fault;
mod frames;
mod order;
mod others;
mod own;
mod pass;
mod tree;
#[cfg(test)]
mod trial;
mod visit;

use crate::expected;
use crate::protocol::{Answer, Request};
pub use fault::{Fault, ALL};
use reference::Registers;
use std::rc::Rc;

pub fn answer(fault: Fault, request: &Request, tables: &mut Rc<Vec<u32>>, id: u32) -> Answer {
    let registers = Registers::from_words(request.registers);
    let mut buffer = request.buffer.clone();
    let tables = Rc::make_mut(tables);
    let (pass, pool) = pass::collect(fault, (registers, &mut buffer, tables), *request.pool(), id);
    let (words, registers) = expected::words_of_reply_with(pass.reply, pass.given);
    Answer {
        words,
        registers: registers.to_words(),
        pool: Some(Box::new(pool)),
        state: None,
        buffer,
        tables: Vec::new(),
    }
}
