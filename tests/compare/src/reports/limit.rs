//! Files whose net changes come to the limit, and past it.
//!
//! Directory 1 names the tables 1 to 15, with which it shares no word, and all their words are
//! present. Each cycle a root comes to name it under one identification and ceases to under
//! another: the first gains 15,360 leaf words and the second loses them.

use super::case::{Case, CountBy};
use super::comparison::Comparison;
use super::outcome::{AT_LIMIT_ABOVE, AT_LIMIT_BELOW, PAST_ABOVE, PAST_AND_BACK, PAST_BELOW};
use super::script;
use crate::cases::forest::PRESENT;
use crate::protocol::Call;
use crate::random::Random;
use crate::traces::record::Record;
use reference::report::LIMIT;

const DIRECTORY: u32 = 1;
const FIRST_DIRECTORY_WORD: u32 = 512;
const TABLES: u32 = 15;
const FIRST_LEAF: u32 = 1024;
const TABLE_WORDS: u32 = 1024;
const LEAVES: u32 = TABLES * TABLE_WORDS;

/// So many cycles are within the limit, and so many leaf words are left to it.
const CYCLES: usize = (LIMIT / LEAVES as i64) as usize;
const LEFT: u32 = (LIMIT % LEAVES as i64) as u32;

const RECORDS_BEHIND: usize = 100;

pub fn put(comparison: &mut Comparison, random: &mut Random) -> Result<(), String> {
    let calls = [
        vec![above(random, LEFT, AT_LIMIT_ABOVE), small(random)],
        vec![below(random, LEFT, AT_LIMIT_BELOW)],
        vec![
            small(random),
            above(random, LEFT + 1, PAST_ABOVE),
            small(random),
        ],
        vec![below(random, LEFT + 1, PAST_BELOW), small(random)],
        vec![small(random), past_and_back(random), empty(), small(random)],
    ];
    for cases in calls {
        comparison.put(cases)?;
    }
    Ok(())
}

/// The whole trace of so many cycles over so many leaf words.
pub fn see_saw(random: &mut Random, leaves: u32, cycles: usize) -> Vec<u8> {
    let mut see_saw = SeeSaw::begin(random);
    see_saw.keep(leaves);
    see_saw.swing(cycles);
    see_saw.trace
}

/// All cycles within the limit, and a last rise of so many leaf words.
fn above(random: &mut Random, leaves: u32, remark: &str) -> Case {
    let mut see_saw = SeeSaw::near_the_limit(random, leaves);
    see_saw.rise(see_saw.riser);
    see_saw.case(remark)
}

/// All cycles within the limit, and a last fall of so many leaf words. They rise under a third
/// identification, so that the first stays as it is.
fn below(random: &mut Random, leaves: u32, remark: &str) -> Case {
    let mut see_saw = SeeSaw::near_the_limit(random, leaves);
    see_saw.rise(see_saw.third);
    see_saw.fall(see_saw.faller);
    see_saw.case(remark)
}

/// One past the limit, at once back within it, and on with other records.
fn past_and_back(random: &mut Random) -> Case {
    let mut see_saw = SeeSaw::near_the_limit(random, LEFT + 1);
    see_saw.rise(see_saw.riser);
    see_saw.fall(see_saw.riser);
    let others = script::trace(random, RECORDS_BEHIND, 3);
    see_saw.trace.extend(others);
    see_saw.case(PAST_AND_BACK)
}

fn small(random: &mut Random) -> Case {
    Case::of(script::trace(random, RECORDS_BEHIND, 0), CountBy::Walks)
}

fn empty() -> Case {
    Case::of(Vec::new(), CountBy::Walks)
}

struct SeeSaw {
    trace: Vec<u8>,
    root: u32,
    riser: u32,
    faller: u32,
    third: u32,
}

impl SeeSaw {
    /// The tables are filled before a root names the directory, so that no total knows of it.
    fn begin(random: &mut Random) -> SeeSaw {
        let first = random.below(63) as u32;
        let mut see_saw = SeeSaw {
            trace: Vec::new(),
            root: random.below(64) as u32,
            riser: first,
            faller: (first + 1) % 63,
            third: (first + 2) % 63,
        };
        for table in 1..=TABLES {
            see_saw.store(FIRST_DIRECTORY_WORD + table, PRESENT | table);
        }
        for index in FIRST_LEAF..FIRST_LEAF + LEAVES {
            see_saw.store(index, PRESENT);
        }
        see_saw
    }

    /// After all cycles that are within the limit, so many leaf words are kept.
    fn near_the_limit(random: &mut Random, leaves: u32) -> SeeSaw {
        let mut see_saw = SeeSaw::begin(random);
        see_saw.swing(CYCLES);
        see_saw.keep(leaves);
        see_saw
    }

    fn swing(&mut self, cycles: usize) {
        for _ in 0..cycles {
            self.rise(self.riser);
            self.fall(self.faller);
        }
    }

    /// Keeps so many leaf words, while no root names the directory.
    fn keep(&mut self, leaves: u32) {
        let tables = leaves.div_ceil(TABLE_WORDS);
        for table in tables + 1..=TABLES {
            self.store(FIRST_DIRECTORY_WORD + table, 0);
        }
        for index in FIRST_LEAF + leaves..FIRST_LEAF + tables * TABLE_WORDS {
            self.store(index, 0);
        }
    }

    fn rise(&mut self, identification: u32) {
        self.context(identification);
        self.store(self.root, PRESENT | DIRECTORY);
    }

    fn fall(&mut self, identification: u32) {
        self.context(identification);
        self.store(self.root, 0);
    }

    fn context(&mut self, value: u32) {
        self.add(Call::Setting { number: 5, value });
    }

    fn store(&mut self, index: u32, value: u32) {
        self.add(Call::Store { index, value });
    }

    fn add(&mut self, call: Call) {
        self.trace.extend(Record::of(call).to_bytes());
    }

    fn case(self, remark: &str) -> Case {
        Case::of(self.trace, CountBy::Counts).remark(remark.to_string())
    }
}
