//! What served accesses on arbitrary states do and no sequence from the start leads to.

use super::Served;
use crate::expected::AT;
use reference::*;

const OVER_HIGH_BITS: &str = "served access, load over a number with high bits";
const HIT_ON_HIGH_BITS: &str = "served access, first try hits a number with high bits";
const STALE: &str = "served access, first try hits where the walk finds no leaf";

pub fn all() -> Vec<String> {
    let mut all = Vec::new();
    all.extend((2..=SETS).map(several_hits));
    all.extend((2..=SETS).map(lowest_of));
    all.extend([OVER_HIGH_BITS, HIT_ON_HIGH_BITS, STALE].map(String::from));
    all.push(to_another_set(true));
    all
}

pub fn of(served: &Served) -> Vec<String> {
    let (registers, buffer) = (served.registers, served.buffer);
    let mut outcomes = Vec::new();
    if registers.enable == 0 {
        return outcomes;
    }
    if served.expected.words[2] == 1 {
        let matching = slots_of(location(served.page()))
            .into_iter()
            .filter(|&slot| served.is_of_page(Entry::unpack(buffer[slot])))
            .count();
        if matching >= 2 {
            outcomes.push(lowest_of(matching));
        }
        let slot = served.slot_to_load();
        if buffer[slot] >> 44 != 0 {
            outcomes.push(OVER_HIGH_BITS.to_string());
        }
        let is_draws = slot / LOCATIONS == served.access.draw as usize;
        if !is_draws && served.expected.words[0] == AT {
            let select = Registers::from_words(served.expected.registers).select;
            outcomes.push(to_another_set(select == slot as u32));
        }
    }
    match served.first_try() {
        Translation::SeveralHits => {
            outcomes.push(several_hits(hits(registers, buffer, served.page()).len()));
        }
        Translation::OneHit { slot, .. } => {
            if buffer[slot] >> 44 != 0 {
                outcomes.push(HIT_ON_HIGH_BITS.to_string());
            }
            if Leaf::of_walk(served.walk()).is_none() {
                outcomes.push(STALE.to_string());
            }
        }
        _ => {}
    }
    outcomes
}

fn several_hits(hits: usize) -> String {
    format!("served access, {hits} hits, fault 0")
}

fn lowest_of(matching: usize) -> String {
    format!("served access, load to the lowest of {matching} matching slots")
}

/// Where the loaded slot is not selected, the outcome is none of those that have to happen.
fn to_another_set(selected: bool) -> String {
    let select = match selected {
        true => "the loaded slot",
        false => "another slot",
    };
    let load = "load to another set than the draw's, good second try";
    format!("served access, {load}: SELECT is {select}")
}
