//! The memory unit of the MUPS/16, as its own paper, document 004, tells it, with what a request of
//! document 02 settles: a second device, which shares nothing with the first.
//!
//! Its entries are a lent run, and its state goes by value.

mod entries;
mod entry;
mod map;
mod state;

pub use entries::{high_word, low_word, set_entry};
pub use entry::Entry;
pub use map::{map, Faults, Mapped, Mapping};
pub use state::{fault_address, set_table_index, State, STATE_WORDS};

/// "The MMU [has] the ability to hold a total of 8192 entries": 32 tables of 256.
pub const ENTRIES: usize = 8192;
pub const TABLES: u32 = 32;
pub const PAGES: u32 = 256;
