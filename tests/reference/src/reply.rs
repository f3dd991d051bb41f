//! What the served access, the table store and the guarded setting answer.

use crate::refusal::Refusal;
use crate::registers::Registers;

#[derive(Clone, Copy, Debug, PartialEq, Eq)]
pub enum Outcome {
    At(u32),
    Fault(u32),
    /// "Slots emptied by a store, else 0."
    Done(u32),
    Refused(Refusal),
}

#[derive(Clone, Copy, Debug, PartialEq, Eq)]
pub struct Reply {
    pub outcome: Outcome,
    /// "An access counts the entries its load stored."
    pub loads: u32,
    pub registers: Registers,
}

impl Reply {
    /// "A refusal returns its number, count 0, the registers received".
    pub fn refused(refusal: Refusal, received: Registers) -> Reply {
        Reply {
            outcome: Outcome::Refused(refusal),
            loads: 0,
            registers: received,
        }
    }
}
