//! The heap of frames above the unit: a pool that goes by value, its calls, and the mapping of a
//! frame of it.
//!
//! The calls go from frame to frame, as the request tells of them. `by_words` makes the same calls
//! on a pool that is lent, a whole number of bits at a time.

pub mod by_words;
mod give;
mod held;
mod map;
mod new_pool;
mod pool;
mod take;

pub use give::give;
pub use held::held;
pub use map::{map, mapped_word, Mapping};
pub use new_pool::new_pool;
pub use pool::{Pool, BIT_NUMBERS, MOST_FRAMES, PFNS};
pub use take::take;
