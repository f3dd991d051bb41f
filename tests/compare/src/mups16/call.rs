//! A call of the MUPS/16 unit as the program `probe` is asked for it.

use reference::mups16::{Mapping, State, ENTRIES, PAGES};

/// The kind that asks for such a call.
pub const KIND: u32 = 15;

/// The operations, with the numbers of the unit's own paper.
#[derive(Clone, Copy, Debug, PartialEq, Eq)]
pub enum Operation {
    Map = 0,
    LowWord = 2,
    HighWord = 3,
    FaultAddress = 4,
    SetIndex = 5,
    SetEntry = 6,
}

pub const OPERATIONS: [Operation; 6] = [
    Operation::Map,
    Operation::LowWord,
    Operation::HighWord,
    Operation::FaultAddress,
    Operation::SetIndex,
    Operation::SetEntry,
];

/// Those that need a run of entries.
pub const WITH_RUN: [Operation; 4] = [
    Operation::Map,
    Operation::LowWord,
    Operation::HighWord,
    Operation::SetEntry,
];

/// Those that take an entry address.
pub const AT_ENTRIES: [Operation; 3] =
    [Operation::LowWord, Operation::HighWord, Operation::SetEntry];

impl Operation {
    pub fn name(self) -> &'static str {
        match self {
            Operation::Map => "map",
            Operation::LowWord => "low word",
            Operation::HighWord => "high word",
            Operation::FaultAddress => "fault address",
            Operation::SetIndex => "set of the table index",
            Operation::SetEntry => "set of an entry",
        }
    }
}

/// What an operation does not use may be anything.
#[derive(Clone, Copy, Debug, PartialEq, Eq)]
pub struct UnitCall {
    pub operation: Operation,
    pub a: u32,
    pub b: u32,
    pub user: bool,
    pub write: bool,
}

impl UnitCall {
    /// The kind and its four arguments.
    pub fn words(self) -> [u32; 5] {
        let lines = u32::from(self.user) + 2 * u32::from(self.write);
        [KIND, self.operation as u32, self.a, self.b, lines]
    }

    /// None where there is no such operation.
    pub fn from_words([_, operation, a, b, lines]: [u32; 5]) -> Option<UnitCall> {
        let of_number = |one: &Operation| *one as u32 == operation;
        Some(UnitCall {
            operation: OPERATIONS.into_iter().find(of_number)?,
            a,
            b,
            user: lines & 1 == 1,
            write: lines & 2 == 2,
        })
    }

    /// The place of the entry that the call is about, where it needs one.
    pub fn place(self, state: State) -> Option<usize> {
        match self.operation {
            Operation::Map => Some((PAGES * state.table_index + self.a / PAGES) as usize),
            Operation::FaultAddress | Operation::SetIndex => None,
            _ => Some(self.a as usize % ENTRIES),
        }
    }

    /// What a map is to map.
    pub fn mapping(self) -> Mapping {
        Mapping {
            address: self.a as u16,
            user: self.user,
            write: self.write,
        }
    }
}
