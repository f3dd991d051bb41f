//! Outcomes of a table store.

use super::refused::{smallest_run, SMALLEST_RUN};
use super::sweep::{self, Judged};
use super::{refused, Runs};
use crate::protocol::Answer;
use reference::*;

const CALL: &str = "table store";
const IN_SEQUENCE: &str = "sequence, table store";
const GROUNDS: [u32; 4] = [1, 2, 3, 6];

const TEST_MODE: &str = "table store accepted in test mode";
const UNDER_63: &str = "table store accepted under context 63";
const SAME_EMPTIES: &str = "table store of the same value, empties slots";
const ALL_64: &str = "table store empties 64 slots";
const FIRST_PAST: &str = "table store refused 6, index one past the run";
const LARGEST_INDEX: &str = "table store refused 6, index 4294967295";
const NO_WORDS: &str = "table store refused 3, grounds 3 6, run of no words";
const LAST_WORD: &str = "table store to the last word of the run";

/// One of each number of slots that is told apart.
pub const EMPTIED: [u32; 5] = [0, 1, 2, 10, 16];

/// What a word is to the walks before the store.
#[derive(Clone, Copy, PartialEq, Eq)]
pub enum Target {
    Root,
    GlobalRoot,
    Directory,
    Leaf,
    DirectoryAndLeaf,
    Unused,
}

pub const TARGETS: [Target; 6] = [
    Target::Root,
    Target::GlobalRoot,
    Target::Directory,
    Target::Leaf,
    Target::DirectoryAndLeaf,
    Target::Unused,
];

pub fn all() -> Vec<String> {
    let mut all = of_each(CALL);
    all.extend(of_each(IN_SEQUENCE));
    all.extend(refused::all_fields(CALL));
    all.extend(refused::all_lengths(CALL));
    all.extend(refused::all_runs(CALL));
    all.extend(all_outside(CALL));
    let single = [
        TEST_MODE,
        UNDER_63,
        SAME_EMPTIES,
        ALL_64,
        FIRST_PAST,
        LARGEST_INDEX,
        NO_WORDS,
        LAST_WORD,
    ];
    all.extend(single.map(String::from));
    all.extend([smallest_run(CALL), last_of_smallest(), past_smallest()]);
    let in_smallest = sweep::all_without_table().into_iter();
    all.extend(in_smallest.map(judged_in_smallest));
    all
}

/// The outcomes of accepted stores on states that no sequence leads to.
pub fn all_outside(call: &str) -> Vec<String> {
    let mut all = vec![to_and_empties(call, Target::Unused)];
    let sweeps = sweep::all_outside().into_iter();
    all.extend(sweeps.map(|why| judged(call, why)));
    all
}

/// The outcomes that have to happen outside sequences and in them.
fn of_each(call: &str) -> Vec<String> {
    let mut all = refused::all_sets_of_grounds(call, &GROUNDS);
    all.extend(all_accepted(call));
    all
}

/// The outcomes of accepted stores that sequences lead to.
pub fn all_accepted(call: &str) -> Vec<String> {
    let mut all = Vec::new();
    for target in TARGETS {
        all.push(to(call, target));
        if target != Target::Unused {
            all.push(to_and_empties(call, target));
        }
    }
    all.extend(EMPTIED.map(|emptied| empties(call, emptied)));
    all.extend([every_used(call), same_value(call), several_ids(call)]);
    all.extend(
        sweep::all_in_sequence()
            .into_iter()
            .map(|why| judged(call, why)),
    );
    all
}

pub fn of(
    registers: Registers,
    buffer: &[u64],
    runs: Runs,
    (index, value): (u32, u32),
    expected: &Answer,
) -> Vec<String> {
    let length = runs.before.len();
    let grounds = grounds(registers, buffer, length, index);
    let mut outcomes = refused::of_fields(CALL, registers, &grounds);
    outcomes.extend(refused::of_length(CALL, buffer, &grounds));
    outcomes.extend(refused::of_run(CALL, length, &grounds));
    let emptied = expected.words[1];
    if grounds.is_empty() {
        let written = Written::by(runs, index);
        outcomes.extend(of_accepted(CALL, buffer, written, expected));
        let all = all_judged(registers, buffer, runs.after);
        if length == SMALLEST_RUN {
            outcomes.push(smallest_run(CALL));
            let by_walk = all.iter().filter(|why| why.is_by_walk());
            outcomes.extend(by_walk.map(|&why| judged_in_smallest(why)));
        }
        outcomes.extend(all.into_iter().map(|why| judged(CALL, why)));
    } else {
        outcomes.push(refused::set_of_grounds(CALL, &grounds, emptied));
    }
    let mut note = |grounds_are: &[u32], holds: bool, outcome: &str| {
        if holds && grounds == grounds_are {
            outcomes.push(outcome.to_string());
        }
    };
    note(&[], registers.test == 1, TEST_MODE);
    note(&[], registers.context == 63, UNDER_63);
    note(&[], emptied == SLOTS as u32, ALL_64);
    note(&[], index as usize + 1 == length, LAST_WORD);
    let of_smallest = |place: usize| length == SMALLEST_RUN && index as usize == place;
    note(&[], of_smallest(SMALLEST_RUN - 1), &last_of_smallest());
    note(&[6], of_smallest(SMALLEST_RUN), &past_smallest());
    note(&[3, 6], length == 0, NO_WORDS);
    note(&[6], index as usize == length, FIRST_PAST);
    note(&[6], index == u32::MAX, LARGEST_INDEX);
    let same = runs.before.get(index as usize) == Some(&value);
    note(&[], same && emptied > 0, SAME_EMPTIES);
    outcomes
}

pub fn in_sequence(
    registers: Registers,
    buffer: &[u64],
    runs: Runs,
    (index, _): (u32, u32),
    expected: &Answer,
) -> Vec<String> {
    let grounds = grounds(registers, buffer, runs.before.len(), index);
    if !grounds.is_empty() {
        let number = expected.words[1];
        return vec![refused::set_of_grounds(IN_SEQUENCE, &grounds, number)];
    }
    let written = Written::by(runs, index);
    let mut outcomes = of_accepted(IN_SEQUENCE, buffer, written, expected);
    outcomes.extend(of_sweep(IN_SEQUENCE, registers, buffer, runs.after));
    outcomes
}

/// What the sweep of these words does with the slots.
pub fn of_sweep(call: &str, registers: Registers, buffer: &[u64], words: &[u32]) -> Vec<String> {
    all_judged(registers, buffer, words)
        .into_iter()
        .map(|why| judged(call, why))
        .collect()
}

fn grounds(registers: Registers, buffer: &[u64], length: usize, index: u32) -> Vec<u32> {
    refused::grounds(&[
        check_registers(registers),
        check_buffer(buffer),
        check_tables(length),
        check_index(index, length),
    ])
}

/// The word that an accepted store writes.
#[derive(Clone, Copy)]
pub struct Written {
    pub target: Target,
    pub is_same: bool,
}

impl Written {
    pub fn by(runs: Runs, index: u32) -> Written {
        let index = index as usize;
        Written {
            target: target(runs.before, index),
            is_same: runs.before[index] == runs.after[index],
        }
    }
}

pub fn of_accepted(
    call: &str,
    buffer: &[u64],
    Written { target, is_same }: Written,
    expected: &Answer,
) -> Vec<String> {
    let emptied = expected.words[1];
    let mut outcomes = vec![to(call, target), empties(call, emptied)];
    if emptied > 0 {
        outcomes.push(to_and_empties(call, target));
    }
    if is_same {
        outcomes.push(same_value(call));
    }
    let gone: Vec<Entry> = (0..SLOTS)
        .filter(|&slot| buffer[slot] != expected.buffer[slot])
        .map(|slot| Entry::unpack(buffer[slot]))
        .collect();
    if gone.iter().any(|entry| entry.page_id != gone[0].page_id) {
        outcomes.push(several_ids(call));
    }
    let is_empty =
        |slot: usize| Entry::unpack(expected.buffer[slot]) == Entry::empty(slot / LOCATIONS);
    if emptied >= 2 && (0..SLOTS).all(is_empty) {
        outcomes.push(every_used(call));
    }
    outcomes
}

/// All that the sweep does with the 64 slots, each thing once.
fn all_judged(registers: Registers, buffer: &[u64], words: &[u32]) -> Vec<Judged> {
    let mut all = Vec::new();
    for (slot, &number) in buffer.iter().enumerate() {
        for why in sweep::judge(slot, number, words, registers.context) {
            if !all.contains(&why) {
                all.push(why);
            }
        }
    }
    all
}

pub fn target(words: &[u32], index: usize) -> Target {
    let directories: Vec<usize> = words[..64]
        .iter()
        .filter_map(|&root| stretch(words, root, 512))
        .collect();
    let in_directory = directories.contains(&(index / 512));
    let in_table = directories.iter().any(|&directory| {
        words[512 * directory..512 * (directory + 1)]
            .iter()
            .any(|&word| stretch(words, word, 1024) == Some(index / 1024))
    });
    match (index, in_directory, in_table) {
        (0..=62, _, _) => Target::Root,
        (63, _, _) => Target::GlobalRoot,
        (_, true, true) => Target::DirectoryAndLeaf,
        (_, true, false) => Target::Directory,
        (_, false, true) => Target::Leaf,
        (_, false, false) => Target::Unused,
    }
}

/// The number of the stretch that a good root or directory word names.
fn stretch(words: &[u32], word: u32, length: usize) -> Option<usize> {
    let number = (word ^ 0x8000_0000) as usize;
    let good = (1..0x1_0000).contains(&number) && length * (number + 1) <= words.len();
    good.then_some(number)
}

pub fn name(target: Target) -> &'static str {
    match target {
        Target::Root => "a root",
        Target::GlobalRoot => "the global root",
        Target::Directory => "a directory word",
        Target::Leaf => "a leaf",
        Target::DirectoryAndLeaf => "a directory word that is a leaf too",
        Target::Unused => "a word that no walk asks",
    }
}

fn to(call: &str, target: Target) -> String {
    format!("{call} to {}", name(target))
}

fn to_and_empties(call: &str, target: Target) -> String {
    format!("{call} to {}, empties slots", name(target))
}

pub fn empties(call: &str, emptied: u32) -> String {
    let slots = match emptied {
        0 => "no slot",
        1 => "1 slot",
        2..=9 => "2 to 9 slots",
        10..=15 => "10 to 15 slots",
        _ => "16 slots or more",
    };
    format!("{call} empties {slots}")
}

fn every_used(call: &str) -> String {
    format!("{call} empties every slot in use, 2 or more")
}

fn same_value(call: &str) -> String {
    format!("{call} of the same value")
}

fn several_ids(call: &str) -> String {
    format!("{call} empties slots of several page_ids")
}

fn judged(call: &str, why: Judged) -> String {
    format!("{call}, {}", why.name())
}

/// That a leaf is found is none of the outcomes that have to happen here.
fn judged_in_smallest(why: Judged) -> String {
    format!("{}, {}", smallest_run(CALL), why.name())
}

fn last_of_smallest() -> String {
    format!("{}, index {}", smallest_run(CALL), SMALLEST_RUN - 1)
}

fn past_smallest() -> String {
    format!("{CALL} refused 6, table run of {SMALLEST_RUN} words, index {SMALLEST_RUN}")
}
