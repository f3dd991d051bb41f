//! Outcomes of malformed records, by what is wrong with them.

use crate::traces::record::{Record, ACCESS, DRAW, STORE, USER, WRITE};
use reference::trace::KINDS;

/// The bits of a record that have to be 0 unless its kind uses them.
const MODES: [(&str, u64); 3] = [("user", USER), ("write", WRITE), ("draw", DRAW)];
const INDEX: &str = "index";
const SEVERAL: &str = "malformed, several things";
const INDEX_BITS: u32 = 24;

/// The other refusals that a malformed record may give grounds for.
const OTHERS: [u32; 3] = [5, 6, 7];

pub fn all() -> Vec<String> {
    let mut all: Vec<String> = (KINDS..16).map(unknown).collect();
    for kind in (0..KINDS).filter(|&kind| kind != STORE) {
        all.push(one_thing(kind, INDEX));
    }
    for kind in (0..KINDS).filter(|&kind| kind != ACCESS) {
        all.extend(MODES.map(|(name, _)| one_thing(kind, name)));
    }
    all.extend((1..4).map(draw));
    all.extend((0..INDEX_BITS).map(index_bit));
    all.extend(OTHERS.map(|number| first(Some(number))));
    all.push(SEVERAL.to_string());
    all
}

/// None for a record that is not malformed; `otherwise` is what it would be refused with.
pub fn of(record: Record, otherwise: Option<u32>) -> Vec<String> {
    let Record {
        kind, modes, index, ..
    } = record;
    let mut outcomes = match wrong(record)[..] {
        _ if kind >= KINDS => vec![unknown(kind)],
        [] => return Vec::new(),
        [thing] => vec![one_thing(kind, thing)],
        _ => vec![SEVERAL.to_string()],
    };
    if kind < KINDS && kind != STORE && index.is_power_of_two() {
        outcomes.push(index_bit(index.ilog2()));
    }
    if kind < KINDS && kind != ACCESS && modes & DRAW != 0 {
        outcomes.push(draw(modes & DRAW));
    }
    if otherwise.is_some() {
        outcomes.push(first(otherwise));
    }
    outcomes
}

/// The fields that are not 0 and have to be.
fn wrong(record: Record) -> Vec<&'static str> {
    let modes = MODES
        .into_iter()
        .filter(|(_, bits)| record.kind != ACCESS && record.modes & bits != 0)
        .map(|(name, _)| name);
    let index = (record.kind != STORE && record.index != 0).then_some(INDEX);
    modes.chain(index).collect()
}

fn unknown(kind: u64) -> String {
    format!("malformed, kind {kind}")
}

fn one_thing(kind: u64, thing: &str) -> String {
    format!("malformed, kind {kind} with {thing} alone")
}

fn draw(draw: u64) -> String {
    format!("malformed, draw {draw}")
}

fn index_bit(bit: u32) -> String {
    format!("malformed, index of bit {bit} alone")
}

fn first(otherwise: Option<u32>) -> String {
    let number = otherwise.unwrap_or(0);
    format!("malformed, refused 8 before grounds for {number}")
}

#[cfg(test)]
mod tests {
    use super::*;
    use crate::random::Random;
    use reference::trace::call_of;

    #[test]
    fn a_record_has_a_malformed_shape_exactly_where_no_call_is_read_from_it() {
        let mut random = Random::new(1);
        for _ in 0..10_000 {
            let bits = random.bits64() & random.bits64() & random.bits64();
            let record = Record::from_bytes(bits.to_be_bytes());
            let refused = call_of(bits.to_be_bytes()).is_err();
            assert_eq!(!of(record, None).is_empty(), refused, "{record:X?}");
        }
    }
}
