//! The reference collector: a pass over one identification's own tree.
//!
//! `collect` goes from page to page by the walk, as the request tells of it. `by_tables` makes the
//! same pass on a pool that is lent, from table to table.

pub mod by_tables;
mod frames;
mod leaves;
mod pass;
mod stretches;
mod unfit;
mod word_set;

pub use leaves::{by_pages, PAGES};
pub use pass::{aged_or_gone, collect, Pass};
pub use stretches::{Names, Stretches};
pub use unfit::{grounds, Unfit};
