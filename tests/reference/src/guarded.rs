//! The guarded settings: KSEG, CTRL, ENABLE, KBASE_LO, KBASE_HI, and CONTEXT 0 to 62.

use crate::refusal::{check_registers, check_setting, check_switch, Refusal};
use crate::registers::Registers;
use crate::reply::{Outcome, Reply};

/// Refusals 1, 5 and 7 in this order; neither run is taken.
pub fn guarded_setting(registers: Registers, number: u32, value: u32) -> Reply {
    if let Err(refusal) = check(registers, number, value) {
        return Reply::refused(refusal, registers);
    }
    let mut words = registers.to_words();
    words[number as usize] = value;
    Reply {
        outcome: Outcome::Done(0),
        loads: 0,
        registers: Registers::from_words(words),
    }
}

fn check(registers: Registers, number: u32, value: u32) -> Result<(), Refusal> {
    check_registers(registers)?;
    check_switch(number, value)?;
    check_setting(number, value)
}
