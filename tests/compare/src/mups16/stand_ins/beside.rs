//! The registers and the buffer beside a call, which come back as they went in.

use super::Fault;
use crate::protocol::Request;
use reference::{FIELDS, SLOTS};

pub fn beside(fault: Fault, request: &Request) -> ([u32; FIELDS], Vec<u64>) {
    let (mut registers, mut buffer) = (request.registers, request.buffer.clone());
    match fault {
        Fault::RegistersCleared => registers = [0; FIELDS],
        Fault::CauseCleared => registers[FIELDS - 1] = 0,
        Fault::BufferCleared => buffer.fill(0),
        Fault::LastBufferNumberCleared => {
            if let Some(last) = buffer.last_mut() {
                *last = 0;
            }
        }
        Fault::BufferPast64Cleared => buffer.iter_mut().skip(SLOTS).for_each(|past| *past = 0),
        _ => {}
    }
    (registers, buffer)
}
