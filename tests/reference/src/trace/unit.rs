//! The unit that a trace drives from the start.

use super::line::Line;
use super::record::{call_of, RECORD_BYTES};
use crate::address::SLOTS;
use crate::guarded::guarded_setting;
use crate::reader::GuardedCall;
use crate::registers::Registers;
use crate::reply::Reply;
use crate::served::served_access;
use crate::start::start;
use crate::store::table_store;

/// "Table memory is 16,384 words, all zero at first."
pub const TABLE_WORDS: usize = 16384;

#[derive(Clone, Debug)]
pub struct Unit {
    pub registers: Registers,
    pub buffer: [u64; SLOTS],
    pub words: Box<[u32]>,
}

impl Unit {
    pub fn start() -> Unit {
        let mut buffer = [0; SLOTS];
        let (_, registers) = start(&mut buffer);
        Unit {
            registers,
            buffer,
            words: vec![0; TABLE_WORDS].into(),
        }
    }

    /// The line of one record; "nothing stops at a refusal".
    pub fn step(&mut self, record: [u8; RECORD_BYTES]) -> Line {
        match call_of(record) {
            Ok(call) => self.make(call),
            Err(refusal) => Line::refused(refusal),
        }
    }

    fn make(&mut self, call: GuardedCall) -> Line {
        let (registers, buffer, words) = (self.registers, &mut self.buffer, &mut self.words);
        let reply = match call {
            GuardedCall::Access(access) => served_access(registers, buffer, words, access),
            GuardedCall::Store { index, value } => {
                table_store(registers, buffer, words, index, value)
            }
            GuardedCall::Setting { number, value } => guarded_setting(registers, number, value),
        };
        let Reply {
            outcome,
            loads,
            registers,
        } = reply;
        self.registers = registers;
        Line { outcome, loads }
    }
}
