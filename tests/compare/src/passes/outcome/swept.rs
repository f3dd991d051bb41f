//! What the sweeps of an accepted pass do with the slots, store by store.

use super::{those_that_hold, Point};
use crate::passes::visit::Visit;
use crate::protocol::Request;
use reference::collector::aged_or_gone;
use reference::*;

const ALL_ALONG: &str = "pass, slot kept, agrees all along";
const FROM_FIRST_ON: &str = "pass, slot kept, agrees from the first store on";
const AT_THE_END: &str = "pass, slot emptied by the first store, agrees at the end";
const LATER: &str = "pass, slot emptied by a later store";
const STORED: &str = "pass, slot emptied by the first store, which is to its leaf";
const NEVER: &str = "pass, slot emptied, never agrees";
const OF_ANOTHER: &str = "pass, slot of another identification emptied";
const OF_ANOTHER_KEPT: &str = "pass, slot of another identification kept";
const GLOBAL_KEPT: &str = "pass, slot of its identification kept, agrees with a global leaf";
const OF_63: &str = "pass, slot with page_id 63 emptied";
const HIGH_BITS: &str = "pass, agreeing slot kept with its high bits";
const EMPTY_KEPT: &str = "pass, empty slot kept with its high bits";
const SEVERAL_STORES: &str = "pass, several stores empty slots";
const NOT_THE_LAST: &str = "pass, an earlier store empties slots, the last one none";
const NOT_THE_FIRST: &str = "pass, a later store empties slots, the first one none";
const NONE_OF_MANY: &str = "pass, several stores, none empties a slot";
const STORE_NONE: &str = "pass, a store empties no slot";
const STORE_ONE: &str = "pass, a store empties one slot";
const STORE_SEVERAL: &str = "pass, a store empties several slots";
const LATER_SEVERAL: &str = "pass, a later store empties several slots";

const POINTS: [&str; 20] = [
    ALL_ALONG,
    FROM_FIRST_ON,
    AT_THE_END,
    LATER,
    STORED,
    NEVER,
    OF_ANOTHER,
    OF_ANOTHER_KEPT,
    GLOBAL_KEPT,
    OF_63,
    HIGH_BITS,
    EMPTY_KEPT,
    SEVERAL_STORES,
    NOT_THE_LAST,
    NOT_THE_FIRST,
    NONE_OF_MANY,
    STORE_NONE,
    STORE_ONE,
    STORE_SEVERAL,
    LATER_SEVERAL,
];

pub fn all() -> Vec<String> {
    POINTS.map(String::from).to_vec()
}

pub fn of(request: &Request, id: u32, before: &[u32], visits: &[Visit]) -> Vec<String> {
    if visits.is_empty() {
        return Vec::new();
    }
    let mut words = before.to_vec();
    let mut buffer = request.buffer.clone();
    let mut emptied = Vec::new();
    let mut after_first = Vec::new();
    for visit in visits {
        words[visit.index] = aged_or_gone(visit.word);
        emptied.push(sweep(&mut buffer[..], &words[..]));
        if after_first.is_empty() {
            after_first = words.clone();
        }
    }
    let mut points = of_stores(&emptied);
    for (slot, &number) in request.buffer.iter().enumerate() {
        let entry = Entry::unpack(number);
        if entry == Entry::empty(slot / LOCATIONS) {
            points.push((EMPTY_KEPT, number >> 44 != 0));
            continue;
        }
        let agrees = [before, &after_first, &words].map(|words| is_kept(slot, entry, words));
        let is_gone = Entry::unpack(buffer[slot]) == Entry::empty(slot / LOCATIONS);
        points.extend(of_slot(agrees));
        points.extend([
            (
                OF_ANOTHER,
                is_gone && entry.page_id != id && entry.page_id < 63,
            ),
            (OF_ANOTHER_KEPT, !is_gone && entry.page_id != id),
            (GLOBAL_KEPT, !is_gone && entry.page_id == id && entry.global),
            (OF_63, is_gone && entry.page_id == 63),
            (HIGH_BITS, !is_gone && number >> 44 != 0),
        ]);
    }
    let mut outcomes = those_that_hold(points);
    outcomes.sort_unstable();
    outcomes.dedup();
    outcomes
}

/// By the slots that each store empties.
fn of_stores(emptied: &[u32]) -> Vec<Point> {
    let stores = emptied.iter().filter(|&&slots| slots > 0).count();
    vec![
        (SEVERAL_STORES, stores > 1),
        (NOT_THE_LAST, stores > 0 && emptied.last() == Some(&0)),
        (NOT_THE_FIRST, stores > 0 && emptied[0] == 0),
        (NONE_OF_MANY, stores == 0 && emptied.len() > 1),
        (STORE_NONE, emptied.contains(&0)),
        (STORE_ONE, emptied.contains(&1)),
        (STORE_SEVERAL, emptied.iter().any(|&slots| slots > 1)),
        (LATER_SEVERAL, emptied[1..].iter().any(|&slots| slots > 1)),
    ]
}

/// By whether the slot agrees before, after the first store, and at the end.
fn of_slot([before, after_first, at_end]: [bool; 3]) -> [Point; 6] {
    [
        (ALL_ALONG, before && after_first && at_end),
        (FROM_FIRST_ON, !before && after_first && at_end),
        (AT_THE_END, !after_first && at_end),
        (LATER, after_first && !at_end),
        (STORED, before && !after_first),
        (NEVER, !before && !after_first && !at_end),
    ]
}
