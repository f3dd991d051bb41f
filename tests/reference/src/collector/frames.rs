//! The frames of a pool that leaves map.

use super::leaves::pfn_of;
use crate::heap::Pool;
use crate::walk::Decided;
use std::collections::BTreeMap;

/// What stands against the leaves' frames.
#[derive(Default)]
pub struct Found {
    /// A pool frame is mapped by two leaves.
    pub mapped_twice: bool,
    /// A pool frame is mapped while not held.
    pub not_held: bool,
}

/// Two pages that share one table share its leaves: a leaf counts once.
pub fn look_at(leaves: &[Decided], pool: &Pool) -> Found {
    let mut found = Found::default();
    let mut mapped_by = BTreeMap::new();
    for leaf in leaves {
        let pfn = pfn_of(leaf.word);
        let Some(place) = pool.place_of(pfn) else {
            continue;
        };
        found.not_held |= !pool.is_held(place);
        found.mapped_twice |= *mapped_by.entry(pfn).or_insert(leaf.index) != leaf.index;
    }
    found
}
