//! Asks for the table run that the program keeps.

use crate::protocol::{Call, Request};
use crate::put::Put;
use reference::Registers;

pub fn ask_for_tables(comparison: &mut dyn Put) {
    let registers = Registers::default();
    comparison.put(Request::without_run(Call::Tables, registers, Vec::new()));
}
