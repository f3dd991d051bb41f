//! The traces: a short preparation, and a million records in all.

use super::record::*;

const RECORDS: usize = 1_000_000;

/// Two programs that share a table; 80 pages have a leaf there, five for each location.
const PROGRAMS: [u32; 2] = [5, 6];
const FIRST_LEAF: u32 = 1024;
const LEAF: u32 = 0xD000_0100;
const PAGES: u32 = 80;

/// All tables that 16,384 words hold, and their words.
const TABLES: u32 = 15;
const LEAVES: u32 = 1024 * TABLES;

/// Pages that the preparation loads, one into each slot.
const HELD: u32 = 64;

const PRESENT: u32 = 0x8000_0000;

/// A present root or directory word that names number 1.
const NAMES_FIRST: u32 = PRESENT | 1;

/// The held pages in turn: every access hits.
pub fn hits() -> Vec<u8> {
    with_preparation(|i| user_read(i % HELD, 0))
}

/// Each of 80 pages is driven out before its next turn comes: every access is a miss with a load.
pub fn misses() -> Vec<u8> {
    with_preparation(|i| user_read((HELD + i) % PAGES, i / 16 % 4))
}

/// Of 64 records 44 are accesses of 64 pages, 10 of all pages and some without a leaf, 6 are stores,
/// 2 settings and 2 refused. About half the accesses hit. The generator begins the same each time.
pub fn mixed() -> Vec<u8> {
    let mut random = Random(100);
    with_preparation(|_| {
        let page = random.below(HELD);
        let draw = random.below(4);
        match random.below(64) {
            0..=33 => user_read(page, draw),
            34..=43 => user_write(page, draw),
            44..=53 => user_read(random.below(PAGES + 8), draw),
            54..=57 => store(FIRST_LEAF + page, LEAF + page + (random.below(512) << 19)),
            58 => store(FIRST_LEAF + page, LEAF + page + random.below(2)),
            59 => store(FIRST_LEAF + page, LEAF + page - (random.below(2) << 30)),
            60 => context(PROGRAMS[random.below(2) as usize]),
            61 => ctrl(random.below(8)),
            62 => context(63),
            _ => MALFORMED,
        }
    })
}

/// Of 64 records 52 are stores to leaves of all fifteen tables, 4 to words of a directory that names
/// them, 2 to roots, 2 settings of CONTEXT and 4 accesses, so that the buffer has entries to judge.
pub fn stores() -> Vec<u8> {
    let mut random = Random(200);
    with_preparation(|_| {
        let page = random.below(HELD);
        let present = random.below(2) << 31;
        match random.below(64) {
            0..=51 => store(FIRST_LEAF + random.below(LEAVES), present | page),
            52..=55 => store(512 + random.below(64), present | (1 + random.below(TABLES))),
            56 | 57 => store(random.below(64), present | 1),
            58 | 59 => context(PROGRAMS[random.below(2) as usize]),
            _ => user_read(page, random.below(4)),
        }
    })
}

/// A root that comes and goes; its directory names all fifteen tables, whose words are all present.
pub fn root_of_all_tables() -> Vec<u8> {
    let mut records: Vec<u64> = (1..=TABLES)
        .map(|table| store(512 + table, PRESENT | table))
        .collect();
    records.extend((0..LEAVES).map(|leaf| store(FIRST_LEAF + leaf, PRESENT | leaf)));
    filled_up(records, |i| {
        let word = if i % 2 == 0 { NAMES_FIRST } else { 0 };
        store(PROGRAMS[0], word)
    })
}

fn with_preparation(record: impl FnMut(u32) -> u64) -> Vec<u8> {
    filled_up(preparation(), record)
}

fn filled_up(mut records: Vec<u64>, mut record: impl FnMut(u32) -> u64) -> Vec<u8> {
    records.extend((0..(RECORDS - records.len()) as u32).map(&mut record));
    records.into_iter().flat_map(u64::to_be_bytes).collect()
}

fn preparation() -> Vec<u64> {
    let mut records = PROGRAMS.map(|root| store(root, NAMES_FIRST)).to_vec();
    records.push(store(512, NAMES_FIRST));
    records.extend((0..PAGES).map(|page| store(FIRST_LEAF + page, LEAF + page)));
    records.extend([ctrl(7), context(PROGRAMS[0]), enable(1)]);
    records.extend((0..HELD).map(|page| user_read(page, page / 16)));
    records
}

/// Numbers that look random: xorshift.
struct Random(u64);

impl Random {
    fn below(&mut self, limit: u32) -> u32 {
        self.0 ^= self.0 << 13;
        self.0 ^= self.0 >> 7;
        self.0 ^= self.0 << 17;
        (self.0 >> 32) as u32 % limit
    }
}
