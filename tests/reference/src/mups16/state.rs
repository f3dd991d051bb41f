//! What the unit keeps beside its entries.

use super::TABLES;

/// The table index, the boot mode and the fault address.
pub const STATE_WORDS: usize = 3;

#[derive(Clone, Copy, Debug, Default, PartialEq, Eq)]
pub struct State {
    /// "A register which holds a 5-bit value indicating the index of the currently-active page
    /// table".
    pub table_index: u32,
    /// "Active whenever the BOOTDONE line is low"; no operation changes it.
    pub boot_mode: bool,
    /// "The address that was being mapped when the most recent page fault occurred".
    pub fault_address: u16,
}

impl State {
    pub fn from_words([table_index, boot_mode, fault_address]: [u32; STATE_WORDS]) -> State {
        State {
            table_index,
            boot_mode: boot_mode != 0,
            fault_address: fault_address as u16,
        }
    }

    pub fn to_words(self) -> [u32; STATE_WORDS] {
        [
            self.table_index,
            self.boot_mode.into(),
            self.fault_address.into(),
        ]
    }

    /// The index of the active table: a kept one counts by its low 5 bits.
    pub fn active_table(self) -> u32 {
        self.table_index % TABLES
    }
}

/// Operation 4, "output fault address".
pub fn fault_address(state: State) -> u16 {
    state.fault_address
}

/// Operation 5: "set the contents of the table index register from the bottom 5 bits of the A bus".
pub fn set_table_index(state: State, a: u32) -> State {
    State {
        table_index: a % TABLES,
        ..state
    }
}
