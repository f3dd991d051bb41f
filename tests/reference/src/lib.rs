//! The memory unit of the ETRAX 100LX as document 01 tells it, with what requests of document 02
//! ask for: the register read that gives the entry at SELECT, the report over traces, the heap of
//! frames above the unit, the fault that says where the walk stopped, and the collector. The memory
//! unit of the MUPS/16 stands beside it.
//!
//! Each module is one heading of the paper, and quotes its words where a
//! sentence decides.

mod account;
mod address;
pub mod collector;
mod entry;
mod fault;
mod guarded;
pub mod heap;
pub mod host;
mod leaf;
mod load;
pub mod mups16;
mod raw;
mod reader;
mod refusal;
mod register_read;
mod register_write;
mod registers;
mod reply;
pub mod report;
mod run;
mod search;
mod served;
mod start;
mod store;
mod sweep;
pub mod trace;
mod walk;

pub use account::Account;
pub use address::{location, offset, segment, slot, slots_of, vpn, vpn15, LOCATIONS, SETS, SLOTS};
pub use entry::Entry;
pub use guarded::guarded_setting;
pub use leaf::Leaf;
pub use load::{is_of_page, load, slot_to_load};
pub use raw::{raw_access, translate, Access, RawAnswer, Translation, EXCEPTION_MISS};
pub use reader::{GuardedCall, Handed, Reader, Said, SETTINGS};
pub use refusal::{
    check_buffer, check_draw, check_entries, check_identification, check_index, check_number,
    check_pool, check_registers, check_served, check_setting, check_switch, check_tables, Refusal,
};
pub use register_read::read_register;
pub use register_write::write_register;
pub use registers::{fits, Registers, FIELDS, FIELD_BITS, FIELD_NAMES, SELECT, TLB_HI, TLB_LO};
pub use reply::{Outcome, Reply};
pub use run::{InBytes, Run, RunMut};
pub use search::{hits, is_hit, Hits};
pub use served::served_access;
pub use start::start;
pub use store::table_store;
pub use sweep::{is_kept, leaf_of, sweep, vpn_of};
pub use walk::{walk, walk_tree, Decided, Level, Tree, Walk, WhyBroken, GLOBAL_ROOT};
