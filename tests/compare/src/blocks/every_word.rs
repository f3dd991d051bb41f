//! A trace that stores every leaf word that one directory leads to, and then reads every page.

use super::Reads;
use crate::cases::forest::{DIRECTORY_WORDS, PRESENT, TABLE_WORDS};
use crate::protocol::Call;
use crate::traces::record::Record;
use reference::Access;

/// Directory 1 shares no word with the tables 1 to 15.
const DIRECTORY: usize = 1;
const TABLES: std::ops::Range<usize> = 1..16;
const VALID_AND_WE: u32 = 5 << 28;

pub fn outcome(Reads { what, .. }: Reads) -> String {
    format!("{what} across blocks, every leaf word is stored in one and needed in another")
}

pub fn trace() -> Vec<u8> {
    let leaves = TABLES.start * TABLE_WORDS..TABLES.end * TABLE_WORDS;
    let pages = leaves.clone();
    let mut calls = vec![store(0, PRESENT | DIRECTORY as u32)];
    calls.extend(TABLES.map(|table| {
        let index = DIRECTORY_WORDS * DIRECTORY + table;
        store(index, PRESENT | table as u32)
    }));
    calls.extend(leaves.map(|index| store(index, PRESENT | VALID_AND_WE | index as u32)));
    calls.push(Call::Setting {
        number: 2,
        value: 1,
    });
    calls.extend(pages.map(|page| {
        Call::Served(Access {
            address: (page as u32) << 13,
            user: true,
            write: true,
            draw: page as u32 / 16 % 4,
        })
    }));
    let records = calls.into_iter().map(Record::of);
    records.flat_map(Record::to_bytes).collect()
}

fn store(index: usize, value: u32) -> Call {
    Call::Store {
        index: index as u32,
        value,
    }
}
