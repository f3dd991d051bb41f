//! The outcomes that a record of a trace belongs to, by what the second program says of it.

mod line;
mod shape;
mod stop;
pub mod whole;

use super::record::{Record, ACCESS, STORE};
use crate::expected;
use crate::outcome::served::{path, Served};
use crate::outcome::store::{self, Written};
use crate::outcome::{refused, setting};
use crate::protocol::Answer;
use reference::trace::{Line, Unit, RECORD_BYTES, TABLE_WORDS};
use reference::*;

const ACCESSES: &str = "trace, served access";
const STORES: &str = "trace, table store";
const SETTING: &str = "trace, guarded setting";

/// The kinds that a record's four bits can name.
const ALL_KINDS: u64 = 16;

pub fn all() -> Vec<String> {
    let mut all: Vec<String> = (0..ALL_KINDS).map(kind).collect();
    all.extend(shape::all());
    all.extend(line::all());
    all.extend(path::all(ACCESSES));
    all.extend(stop::all());
    all.extend((0..16).map(linear_segment));
    all.push(user_in_linear());
    all.push(other_id());
    all.extend(store::all_accepted(STORES));
    all.extend([16384, 16385, 20000, 0xFF_FFFF].map(past));
    all.push(last_word());
    all.extend(setting::all_values(SETTING));
    all.extend([&[5][..], &[7], &[5, 7]].map(refused_setting));
    all.extend(whole::all());
    all
}

/// What a record finds, as far as the record itself can change it.
pub struct Before {
    number: usize,
    record: Record,
    registers: Registers,
    buffer: [u64; SLOTS],
    written: Option<Written>,
}

impl Before {
    pub fn of(number: usize, bytes: [u8; RECORD_BYTES], unit: &Unit) -> Before {
        let record = Record::from_bytes(bytes);
        let index = record.index as usize;
        let is_store = record.kind == STORE && index < TABLE_WORDS;
        Before {
            number,
            record,
            registers: unit.registers,
            buffer: unit.buffer,
            written: is_store.then(|| Written {
                target: store::target(&unit.words, index),
                is_same: unit.words[index] == record.value,
            }),
        }
    }

    /// The outcomes of the record, once the unit has made its step.
    pub fn outcomes(&self, line: Line, unit: &Unit) -> Vec<String> {
        let record = self.record;
        let mut outcomes = vec![kind(record.kind)];
        outcomes.extend(line::of(self.number, line));
        let malformed = shape::of(record, self.refused_otherwise());
        if !malformed.is_empty() {
            outcomes.extend(malformed);
            return outcomes;
        }
        let answer = Answer {
            words: expected::words_of_outcome(line.outcome, line.loads),
            registers: unit.registers.to_words(),
            pool: None,
            state: None,
            buffer: unit.buffer.to_vec(),
            tables: Vec::new(),
        };
        outcomes.extend(match record.kind {
            ACCESS => self.of_access(unit, &answer),
            STORE => self.of_store(unit, &answer),
            _ => self.of_setting(&answer),
        });
        outcomes
    }

    fn of_access(&self, unit: &Unit, answer: &Answer) -> Vec<String> {
        let access = Access {
            address: self.record.value,
            user: self.record.modes & 8 != 0,
            write: self.record.modes & 4 != 0,
            draw: (self.record.modes & 3) as u32,
        };
        let found = (self.registers, &self.buffer[..]);
        let mut outcomes = path::of(ACCESSES, &Served::new(found, &unit.words, access, answer));
        let segment = segment(access.address);
        let is_linear = self.registers.segment_is_linear(segment);
        match (self.registers.enable, is_linear, access.user) {
            (1, true, false) => outcomes.push(linear_segment(segment)),
            (1, true, true) => outcomes.push(user_in_linear()),
            _ => {}
        }
        let page = vpn(access.address);
        if translate(self.registers, &self.buffer[..], access) == Translation::Miss
            && self.registers.enable == 1
        {
            outcomes.extend(stop::of(&unit.words, self.registers.context, page));
        }
        let is_of_another = slots_of(location(page)).into_iter().any(|slot| {
            let entry = Entry::unpack(self.buffer[slot]);
            entry.vpn15 == vpn15(page) && !is_of_page(self.registers, entry, page)
        });
        if answer.words[2] == 1 && is_of_another {
            outcomes.push(other_id());
        }
        outcomes
    }

    fn of_store(&self, unit: &Unit, answer: &Answer) -> Vec<String> {
        let index = self.record.index as usize;
        let Some(written) = self.written else {
            return vec![past(index)];
        };
        let mut outcomes = store::of_accepted(STORES, &self.buffer, written, answer);
        let (registers, buffer) = (self.registers, &self.buffer);
        outcomes.extend(store::of_sweep(STORES, registers, buffer, &unit.words));
        if index + 1 == TABLE_WORDS {
            outcomes.push(last_word());
        }
        outcomes
    }

    fn of_setting(&self, answer: &Answer) -> Vec<String> {
        let (grounds, call) = self.setting().expect("the other kinds are settings");
        setting::of_either(SETTING, &grounds, call, answer)
    }

    /// The grounds to refuse the setting that the record's kind names, and its number and value.
    fn setting(&self) -> Option<(Vec<u32>, (u32, u32))> {
        let value = self.record.value;
        let number = self.record.setting()?;
        let grounds = setting::grounds(self.registers, number, value);
        Some((grounds, (number, value)))
    }

    /// What the record's call would be refused with, were it well formed.
    fn refused_otherwise(&self) -> Option<u32> {
        match self.record.kind {
            STORE => (self.record.index as usize >= TABLE_WORDS).then_some(6),
            _ => self.setting()?.0.first().copied(),
        }
    }
}

fn kind(kind: u64) -> String {
    format!("record of kind {kind}")
}

fn linear_segment(segment: u32) -> String {
    format!("{ACCESSES}, linear in segment {segment}")
}

fn user_in_linear() -> String {
    format!("{ACCESSES}, user in a segment set to linear")
}

fn other_id() -> String {
    format!("{ACCESSES}, load beside the page's entry of another page_id")
}

fn past(index: usize) -> String {
    match index {
        16384 | 16385 | 0xFF_FFFF => format!("{STORES} refused 6, index {index}"),
        _ => format!("{STORES} refused 6, another index"),
    }
}

fn last_word() -> String {
    format!("{STORES} to word {}", TABLE_WORDS - 1)
}

fn refused_setting(grounds: &[u32]) -> String {
    refused::set_of_grounds(SETTING, grounds, grounds[0])
}
