//! Makes one of the calls over words so many times, to be timed from outside.
//!
//! Standard input is a scenario and a count, two words of 32 bits; standard output the sum of the
//! answers, modulo 2^64; both most significant byte first.

use reference::collector::by_tables;
use reference::heap::{by_words, new_pool, Pool};
use reference::mups16::{self, Mapping, State};
use reference::*;
use std::io::{self, Error, Read, Write};

const TABLE_WORDS: usize = 16384;
const OWN_ROOT: u32 = 5;
const OWN_DIRECTORY: u32 = 512;
const FIRST_LEAF: u32 = 1024;
const LEAF: u32 = 0xD000_0100;

/// A root or directory word that names number 1.
const NAMES_FIRST: u32 = 0x8000_0001;

/// Pages with a leaf: five for each location, one more than it has slots.
const PAGES: u32 = 80;
const PAGE_BYTES: u32 = 8192;

/// A pool of as many frames as one can have, most of them taken.
const FIRST_PFN: u32 = 100_000;
const FRAMES: u32 = 4096;
const TAKEN: u32 = 3000;

/// The pool that passes are made with begins at the frame of the first page.
const COLLECTED_PFN: u32 = 256;

/// Words of the directory that name tables 2 to 4, for the pages behind the first table's.
const MORE_TABLES: [(u32, u32); 3] = [
    (OWN_DIRECTORY + 1, 0x8000_0002),
    (OWN_DIRECTORY + 2, 0x8000_0003),
    (OWN_DIRECTORY + 3, 0x8000_0004),
];

/// Valid and writable, for any frame.
const MAPPED_LEAF: u32 = 0xD000_0000;

/// Number and value of each guarded setting: CTRL, CONTEXT, ENABLE.
const SETTINGS: [(u32, u32); 3] = [(1, 7), (5, OWN_ROOT), (2, 1)];

struct Unit {
    registers: Registers,
    buffer: [u64; SLOTS],
    words: Vec<u32>,
}

impl Unit {
    /// Every slot holds one of the first 64 pages.
    fn prepared() -> Unit {
        let mut buffer = [0; SLOTS];
        let (_, registers) = start(&mut buffer);
        let mut unit = Unit {
            registers,
            buffer,
            words: vec![0; TABLE_WORDS],
        };
        unit.store(OWN_ROOT, NAMES_FIRST);
        unit.store(OWN_DIRECTORY, NAMES_FIRST);
        for page in 0..PAGES {
            unit.store(FIRST_LEAF + page, LEAF + page);
        }
        for (number, value) in SETTINGS {
            unit.registers = guarded_setting(unit.registers, number, value).registers;
        }
        for page in 0..SLOTS as u32 {
            unit.serve(page * PAGE_BYTES, page / 16);
        }
        unit
    }

    fn access(&mut self, address: u32) -> u64 {
        let (answer, registers) = raw_access(self.registers, &self.buffer, user_read(address, 0));
        self.registers = registers;
        match answer {
            Ok(answer) => answer.address.unwrap_or(0).into(),
            Err(refusal) => worth(Outcome::Refused(refusal)),
        }
    }

    fn serve(&mut self, address: u32, draw: u32) -> u64 {
        let access = user_read(address, draw);
        let reply = served_access(self.registers, &mut self.buffer, &self.words, access);
        self.take(reply)
    }

    fn store(&mut self, index: u32, value: u32) -> u64 {
        let (buffer, words) = (&mut self.buffer, &mut self.words);
        let reply = table_store(self.registers, buffer, words, index, value);
        self.take(reply)
    }

    /// Both halves of the entry that a slot holds.
    fn look(&mut self, slot: u32) -> u64 {
        (_, self.registers) = write_register(self.registers, &mut self.buffer, SELECT, slot);
        self.read(TLB_HI) + self.read(TLB_LO)
    }

    fn read(&self, number: u32) -> u64 {
        match read_register(self.registers, &self.buffer, number) {
            Ok(value) => u64::from(value) + 1,
            Err(refusal) => worth(Outcome::Refused(refusal)),
        }
    }

    fn take(&mut self, reply: Reply) -> u64 {
        self.registers = reply.registers;
        worth(reply.outcome) + u64::from(reply.loads)
    }
}

struct Heap {
    unit: Unit,
    pool: Pool,
}

impl Heap {
    fn prepared(unit: Unit) -> Heap {
        Heap::of(unit, FIRST_PFN, TAKEN)
    }

    /// A new pool from this pfn on, of which so many frames are taken.
    fn of(unit: Unit, first: u32, taken: u32) -> Heap {
        let (_, pool) = new_pool(first, FRAMES);
        let mut heap = Heap { unit, pool };
        for _ in 0..taken {
            heap.take();
        }
        heap
    }

    /// The frames of the prepared pages are held.
    fn with_pages_held(unit: Unit) -> Heap {
        Heap::of(unit, COLLECTED_PFN, PAGES)
    }

    /// Every frame of the pool is mapped.
    fn with_all_mapped(mut unit: Unit) -> Heap {
        for (index, value) in MORE_TABLES {
            unit.store(index, value);
        }
        let mut heap = Heap::of(unit, COLLECTED_PFN, 0);
        heap.map_pages(FRAMES);
        heap
    }

    fn take(&mut self) -> u64 {
        match by_words::take(&mut self.pool) {
            Ok(pfn) => u64::from(pfn) + 1,
            Err(refusal) => worth(Outcome::Refused(refusal)),
        }
    }

    fn give(&mut self, pfn: u32) -> u64 {
        match by_words::give(&mut self.pool, pfn) {
            Ok(()) => 1,
            Err(refusal) => worth(Outcome::Refused(refusal)),
        }
    }

    fn give_and_take(&mut self, pfn: u32) -> u64 {
        self.give(pfn) + self.take()
    }

    fn map_and_give(&mut self, index: u32) -> u64 {
        let (worth, pfn) = self.map(index);
        worth + self.give(pfn)
    }

    /// What a map adds to the sum, and its frame.
    fn map(&mut self, index: u32) -> (u64, u32) {
        let Unit {
            registers,
            buffer,
            words,
        } = &mut self.unit;
        let pool = &mut self.pool;
        let mapping = by_words::map(*registers, buffer, words, pool, index, MAPPED_LEAF);
        *registers = mapping.reply.registers;
        let worth = worth(mapping.reply.outcome) + u64::from(mapping.pfn);
        (worth, mapping.pfn)
    }

    /// A map of each page below this one.
    fn map_pages(&mut self, pages: u32) -> u64 {
        (0..pages).map(|page| self.map(FIRST_LEAF + page).0).sum()
    }

    fn pass(&mut self) -> u64 {
        let Unit {
            registers,
            buffer,
            words,
        } = &mut self.unit;
        let pass = by_tables::collect(*registers, buffer, words, &mut self.pool, OWN_ROOT);
        *registers = pass.reply.registers;
        worth(pass.reply.outcome) + u64::from(pass.given)
    }

    /// The pages are aged, taken away and mapped again.
    fn collect_and_map(&mut self, pages: u32) -> u64 {
        self.pass() + self.pass() + self.map_pages(pages)
    }
}

/// The MUPS/16 unit.
struct SecondUnit {
    state: State,
    entries: Vec<u32>,
}

impl SecondUnit {
    /// The entries count up by 64, so that every status comes.
    fn prepared() -> SecondUnit {
        let mut unit = SecondUnit {
            state: State::default(),
            entries: vec![0; mups16::ENTRIES],
        };
        for at in 0..mups16::ENTRIES as u32 {
            unit.set_entry(at, 64 * at);
        }
        unit
    }

    /// The address and the faults that a user gets under a table index.
    fn map(&mut self, index: u32, address: u16, write: bool) -> u64 {
        self.state = mups16::set_table_index(self.state, index);
        let mapping = Mapping {
            address,
            user: true,
            write,
        };
        let (mapped, state) = mups16::map(self.state, &self.entries, mapping);
        self.state = state;
        match mapped {
            Ok(mapped) => u64::from(mapped.address) + u64::from(mapped.faults.number()),
            Err(refusal) => worth(Outcome::Refused(refusal)),
        }
    }

    fn set_entry(&mut self, at: u32, entry: u32) -> u64 {
        match mups16::set_entry(&mut self.entries, at, mups16::Entry::unpack(entry)) {
            Ok(()) => 1,
            Err(refusal) => worth(Outcome::Refused(refusal)),
        }
    }

    /// An entry is set, and the words of another are read.
    fn set_and_read(&mut self, at: u32, entry: u32, other: u32) -> u64 {
        let read = |word: Result<u16, Refusal>| match word {
            Ok(word) => u64::from(word) + 1,
            Err(refusal) => worth(Outcome::Refused(refusal)),
        };
        self.set_entry(at, entry)
            + read(mups16::low_word(&self.entries, other))
            + read(mups16::high_word(self.state, &self.entries, other))
    }
}

fn user_read(address: u32, draw: u32) -> Access {
    Access {
        address,
        user: true,
        write: false,
        draw,
    }
}

/// What an outcome adds to the sum.
fn worth(outcome: Outcome) -> u64 {
    match outcome {
        Outcome::At(address) => address.into(),
        Outcome::Fault(value) => value.into(),
        Outcome::Done(emptied) => u64::from(emptied) + 1,
        Outcome::Refused(refusal) => 1_000_000 * u64::from(refusal.number()),
    }
}

/// A page that has a slot, all 64 of them in turn.
fn held_address(i: u32) -> u32 {
    (7 * (i % 64)) % 64 * PAGE_BYTES + 0x123
}

/// The page that lost its slot longest ago, and the draw that takes the oldest slot from another.
fn missing(i: u32) -> (u32, u32) {
    let page = (64 + i % PAGES) % PAGES;
    (page * PAGE_BYTES, i / 16 % 4)
}

/// A leaf that changes in its software bits alone.
fn restored(i: u32) -> (u32, u32) {
    let page = i % 64;
    let software = i / 64 % 512;
    (FIRST_LEAF + page, LEAF + page + (software << 19))
}

/// A frame that is held, all of them in turn.
fn held_frame(i: u32) -> u32 {
    FIRST_PFN + 7 * (i % TAKEN) % TAKEN
}

/// An address whose page and offset are the same number, all 256 of them in turn.
fn doubled_byte(i: u32) -> u16 {
    (257 * (i % 256)) as u16
}

fn sum(count: u32, worth: impl FnMut(u32) -> u64) -> u64 {
    (0..count).map(worth).fold(0, u64::wrapping_add)
}

fn sum_of(scenario: u32, count: u32) -> io::Result<u64> {
    let mut unit = Unit::prepared();
    Ok(match scenario {
        0 => sum(count, |i| unit.access(held_address(i))),
        1 => sum(count, |i| unit.serve(held_address(i), 0)),
        2 => sum(count, |i| {
            let (address, draw) = missing(i);
            unit.serve(address, draw)
        }),
        3 => sum(count, |i| {
            let (index, value) = restored(i);
            unit.store(index, value)
        }),
        4 => sum(count, |i| unit.look(i % 64)),
        5 => {
            let mut heap = Heap::prepared(unit);
            sum(count, |i| heap.give_and_take(held_frame(i)))
        }
        6 => {
            let mut heap = Heap::prepared(unit);
            sum(count, |i| heap.map_and_give(FIRST_LEAF + i % 64))
        }
        7 => {
            let mut heap = Heap::with_pages_held(unit);
            sum(count, |_| heap.collect_and_map(PAGES))
        }
        8 => {
            let mut heap = Heap::with_all_mapped(unit);
            sum(count, |_| heap.collect_and_map(FRAMES))
        }
        9 => {
            let mut unit = SecondUnit::prepared();
            sum(count, |i| unit.map(i % 32, doubled_byte(i), i % 2 == 1))
        }
        10 => {
            let mut unit = SecondUnit::prepared();
            sum(count, |i| {
                unit.set_and_read(i % 8192, i % 524_288, 7 * (i % 8192) % 8192)
            })
        }
        _ => return Err(Error::other("the scenario is 0 to 10")),
    })
}

fn main() -> io::Result<()> {
    let mut request = [0; 8];
    io::stdin().read_exact(&mut request)?;
    let request = u64::from_be_bytes(request);
    let sum = sum_of((request >> 32) as u32, request as u32)?;
    io::stdout().write_all(&sum.to_be_bytes())
}
