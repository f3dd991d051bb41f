//! Programs that stand in for the program `probe`: a right one, and ones with a fault in their
//! passes or in their MUPS/16 unit.
//!
//! Both are written by themselves, so that the right one shows that a fault is all that the others
//! have.

mod faults;
#[cfg(test)]
pub mod trial;

use crate::expected;
use crate::mups16::stand_ins as mups16;
use crate::passes::stand_ins as passes;
use crate::protocol::{Answer, Call, PoolCall, Request};
pub(crate) use faults::faults;
use std::rc::Rc;

/// The faults of one stand-in; at most one of them is any.
#[derive(Clone, Copy, Debug, PartialEq, Eq)]
pub struct Faults {
    pub passes: passes::Fault,
    pub mups16: mups16::Fault,
}

impl Faults {
    pub const NONE: Faults = Faults {
        passes: passes::Fault::None,
        mups16: mups16::Fault::None,
    };

    /// Each fault of passes alone.
    pub fn of_passes() -> impl Iterator<Item = Faults> {
        passes::ALL.iter().map(|&passes| Faults {
            passes,
            ..Faults::NONE
        })
    }

    /// Each fault of the MUPS/16 unit alone.
    pub fn of_mups16() -> impl Iterator<Item = Faults> {
        mups16::ALL.iter().map(|&mups16| Faults {
            mups16,
            ..Faults::NONE
        })
    }

    pub fn name(self) -> String {
        match self.passes {
            passes::Fault::None => format!("{:?}", self.mups16),
            passes => format!("{passes:?}"),
        }
    }
}

/// Answers as `probe` does, but for the fault.
pub struct StandIn {
    pub faults: Faults,
    /// The table run that it keeps.
    tables: Rc<Vec<u32>>,
    memory: mups16::Memory,
}

impl StandIn {
    pub fn new(faults: Faults) -> StandIn {
        StandIn {
            faults,
            tables: Rc::default(),
            memory: mups16::Memory::default(),
        }
    }

    /// Takes the request's table run over, where it has one.
    pub fn answer(&mut self, request: &Request) -> Answer {
        if !request.tables.is_empty() {
            self.tables = Rc::new(request.tables.clone());
        }
        match request.call {
            Call::OnPool(PoolCall::Collect { id }) => {
                passes::answer(self.faults.passes, request, &mut self.tables, id)
            }
            Call::Mups16(call) => {
                let (tables, memory) = (&mut self.tables, &mut self.memory);
                mups16::answer(self.faults.mups16, request, call, tables, memory)
            }
            _ => expected::answer(request, &mut self.tables),
        }
    }
}
