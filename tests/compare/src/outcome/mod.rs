//! The outcomes a case belongs to, by what the reference says of it.

pub mod raw;
mod read;
pub mod refused;
pub mod served;
pub mod setting;
pub mod start;
pub mod store;
mod sweep;
mod tables;
pub mod walk;
mod write;

use crate::protocol::{Answer, Call, Request};
use crate::{fault, read_back, witness};
use reference::Registers;
use served::Served;

/// The table run as a call finds it and as it leaves it.
#[derive(Clone, Copy)]
pub struct Runs<'a> {
    pub before: &'a [u32],
    pub after: &'a [u32],
}

/// Every outcome that has to happen.
pub fn all() -> Vec<String> {
    let mut all = [
        start::all(),
        raw::all(),
        write::all(),
        read::all(),
        walk::all(),
        served::all(),
        store::all(),
        setting::all(),
        tables::all(),
        witness::all(),
        read_back::all(),
    ]
    .concat();
    all.push(fault::POSSIBLE.to_string());
    all
}

pub fn of(request: &Request, runs: Runs, expected: &Answer) -> Vec<String> {
    let registers = Registers::from_words(request.registers);
    let buffer = &request.buffer;
    let answered = expected.words[1];
    match request.call {
        Call::Start => start::of(registers, buffer, answered),
        Call::Raw(access) => raw::of(registers, buffer, access, answered),
        Call::Write { number, value } => write::of(registers, buffer, (number, value), answered),
        Call::Read { number } => read::of(registers, buffer, number, answered),
        Call::Walk { page_id, vpn } => walk::of(runs.before, page_id, vpn),
        Call::Served(access) => served::of(&Served::new(
            (registers, buffer),
            runs.before,
            access,
            expected,
        )),
        Call::Store { index, value } => {
            store::of(registers, buffer, runs, (index, value), expected)
        }
        Call::Setting { number, value } => {
            setting::of(registers, request, (number, value), runs, expected)
        }
        Call::Tables => tables::of(runs.before),
        Call::OnPool(call) => panic!("{call:?} is put by the comparison of pools"),
        Call::Mups16(call) => panic!("{call:?} is put by the comparison of the MUPS/16 unit"),
    }
}

/// The outcomes of a call that stands in a sequence; those of a dump are single calls too.
pub fn in_sequence(request: &Request, runs: Runs, expected: &Answer) -> Vec<String> {
    let registers = Registers::from_words(request.registers);
    let buffer = &request.buffer;
    match request.call {
        Call::Served(access) => served::in_sequence(&Served::new(
            (registers, buffer),
            runs.before,
            access,
            expected,
        )),
        Call::Store { index, value } => {
            store::in_sequence(registers, buffer, runs, (index, value), expected)
        }
        Call::Setting { number, value } => {
            setting::in_sequence(registers, (number, value), expected)
        }
        Call::Read { .. } | Call::Write { .. } => of(request, runs, expected),
        _ => Vec::new(),
    }
}
