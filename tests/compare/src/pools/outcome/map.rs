//! Outcomes of a map.

use super::{shape, take};
use crate::outcome::store::{self, Written};
use crate::outcome::{refused, Runs};
use crate::protocol::{Answer, Request};
use reference::*;

const CALL: &str = "map";
const ACCEPTED: &str = "map accepted";
const FULL: &str = "map refused 10";

/// The grounds that a map can be refused on, in their order; two of them are number 1.
const GROUNDS: [&str; 6] = [BY_REGISTERS, BY_POOL, "2", "3", "6", "10"];
const BY_REGISTERS: &str = "1 by registers";
const BY_POOL: &str = "1 by pool";

const TEST_MODE: &str = "map accepted in test mode";
const UNDER_63: &str = "map accepted under context 63";
const SAME_EMPTIES: &str = "map of the same value, empties slots";
const ALL_64: &str = "map empties 64 slots";
const LAST_WORD: &str = "map to the last word of the run";
const FIRST_PAST: &str = "map refused 6, index one past the run";
const LARGEST_INDEX: &str = "map refused 6, index 4294967295";
const NO_WORDS: &str = "map refused 3, run of no words";

/// The fields of a leaf above its pfn, each with its bit.
const BITS: [(&str, u32); 4] = [("present", 31), ("valid", 30), ("kernel", 29), ("we", 28)];
const SOFTWARE: u32 = 0x1FF;

pub fn all() -> Vec<String> {
    let mut all = refused::all_sets_of_named(CALL, &GROUNDS);
    all.extend(shape::all_misfits(CALL));
    all.extend(refused::all_fields(CALL));
    all.extend(refused::all_lengths(CALL));
    all.extend(refused::all_runs(CALL));
    all.extend(shape::all_shapes(FULL));
    all.extend(shape::all_shapes(ACCEPTED));
    all.extend(take::all_accepted(CALL));
    all.extend(store::all_accepted(CALL));
    all.extend(store::all_outside(CALL));
    all.extend(all_leaves());
    let single = [
        TEST_MODE,
        UNDER_63,
        SAME_EMPTIES,
        ALL_64,
        LAST_WORD,
        FIRST_PAST,
        LARGEST_INDEX,
        NO_WORDS,
    ];
    all.extend(single.map(String::from));
    all.push(refused::smallest_run(CALL));
    all
}

fn all_leaves() -> Vec<String> {
    let mut all = Vec::new();
    for (field, _) in BITS {
        all.extend([0, 1].map(|bit| with_bit(field, bit)));
    }
    all.extend([0, 1, 3, SOFTWARE].map(with_software));
    all.extend((0..9).map(|bit| with_one_software_bit(19 + bit)));
    all.extend([true, false].map(with_pfn));
    all
}

pub fn of(
    request: &Request,
    (index, leaf): (u32, u32),
    runs: Runs,
    expected: &Answer,
) -> Vec<String> {
    let registers = Registers::from_words(request.registers);
    let (pool, buffer, length) = (request.pool(), &request.buffer, runs.before.len());
    let checks = [
        check_registers(registers),
        check_pool(pool),
        check_buffer(buffer),
        check_tables(length),
        check_index(index, length),
        take::check_free(pool),
    ];
    let numbers = refused::grounds(&checks);
    let grounds = refused::named_grounds(&GROUNDS, &checks);
    let mut outcomes = refused::of_fields(CALL, registers, &numbers);
    outcomes.extend(refused::of_length(CALL, buffer, &numbers));
    outcomes.extend(refused::of_run(CALL, length, &numbers));
    match grounds[..] {
        [] => outcomes.extend(of_accepted(request, (index, leaf), runs, expected)),
        _ => outcomes.push(refused::refused_on(CALL, &grounds)),
    }
    let mut note = |holds: bool, outcome: &str| {
        if holds {
            outcomes.push(outcome.to_string());
        }
    };
    note(numbers == [6] && index as usize == length, FIRST_PAST);
    note(numbers == [6] && index == u32::MAX, LARGEST_INDEX);
    note(numbers == [3, 6] && length == 0, NO_WORDS);
    match grounds[..] {
        // A pool of no frame has every frame held.
        [BY_POOL] | [BY_POOL, "10"] => outcomes.push(shape::misfit(CALL, pool.first, pool.size)),
        ["10"] => outcomes.extend(shape::shapes(FULL, pool)),
        _ => {}
    }
    outcomes
}

fn of_accepted(
    request: &Request,
    (index, leaf): (u32, u32),
    runs: Runs,
    expected: &Answer,
) -> Vec<String> {
    let registers = Registers::from_words(request.registers);
    let (pool, buffer) = (request.pool(), &request.buffer);
    let [_, emptied, _, pfn] = expected.words;
    let written = Written::by(runs, index);
    let mut outcomes = shape::shapes(ACCEPTED, pool);
    outcomes.extend(take::of_frame(CALL, pool, pfn));
    outcomes.extend(store::of_accepted(CALL, buffer, written, expected));
    outcomes.extend(store::of_sweep(CALL, registers, buffer, runs.after));
    outcomes.extend(of_leaf(leaf, pfn));
    let mut note = |holds: bool, outcome: &str| {
        if holds {
            outcomes.push(outcome.to_string());
        }
    };
    let length = runs.before.len();
    note(registers.test == 1, TEST_MODE);
    note(registers.context == 63, UNDER_63);
    note(written.is_same && emptied > 0, SAME_EMPTIES);
    note(emptied == SLOTS as u32, ALL_64);
    note(index as usize + 1 == length, LAST_WORD);
    let is_smallest = length == refused::SMALLEST_RUN;
    note(is_smallest, &refused::smallest_run(CALL));
    outcomes
}

/// Which bits of the leaf are handed on, and which are not.
fn of_leaf(leaf: u32, pfn: u32) -> Vec<String> {
    let software = leaf >> 19 & SOFTWARE;
    let bits = BITS.map(|(field, bit)| with_bit(field, leaf >> bit & 1));
    let mut outcomes = bits.to_vec();
    outcomes.push(with_software(software));
    if software.is_power_of_two() {
        outcomes.push(with_one_software_bit(19 + software.ilog2()));
    }
    outcomes.push(with_pfn(leaf % (1 << 19) == pfn));
    outcomes
}

fn with_bit(field: &str, bit: u32) -> String {
    format!("{CALL} of a leaf with {field} {bit}")
}

fn with_software(bits: u32) -> String {
    let which = match bits {
        0 => "no software bit",
        SOFTWARE => "every software bit",
        _ if bits.is_power_of_two() => "one software bit",
        _ => "several software bits",
    };
    format!("{CALL} of a leaf with {which}")
}

fn with_one_software_bit(bit: u32) -> String {
    format!("{CALL} of a leaf with software bit {bit} alone")
}

fn with_pfn(same: bool) -> String {
    match same {
        true => format!("{CALL} of a leaf with the frame's pfn"),
        false => format!("{CALL} of a leaf with another pfn"),
    }
}
