//! The page tables that the traces across blocks use, and the accesses that tell each part.

use super::part::{Part, CONTEXT, CTRL, ENABLE, KBASE_HI, KBASE_LO, KSEG};
use crate::cases::forest::{DIRECTORY_WORDS, PRESENT, TABLE_WORDS};
use crate::protocol::Call;
use crate::traces::record::Record;
use reference::{trace, Access, Registers, GLOBAL_ROOT};

/// Two identifications, each with a directory and a table of its own.
const IDS: [u32; 2] = [5, 62];
const DIRECTORIES: [usize; 2] = [1, 2];
const TABLES: [usize; 2] = [2, 3];

/// The global tree has a table with one leaf.
const GLOBAL_DIRECTORY: usize = 3;
const GLOBAL_TABLE: usize = 4;

/// A table that both identifications share, whose leaves come and go.
const HEAP_TABLE: usize = 5;
pub const HEAP_PAGES: usize = 40;

/// Places in the directories, by what they lead to; segment 2 has none of them.
const OWN: usize = 0x155;
const HEAP: usize = 0x0A3;
const BROKEN: usize = 0x1F0;

/// A leaf's valid, kernel and we.
const FLAGS: u32 = 28;
const PLAIN: u32 = 5;
const NOT_VALID: u32 = 1;
const KERNEL: u32 = 7;
const KERNEL_ALONE: u32 = 6;
const NO_WE: u32 = 4;

/// The bit in which the two frames of a page differ.
const OTHER_FRAME: u32 = 1;

/// A page for each slot of the buffer, to which its draw leads. The last three bits of its number
/// are its leaf's flags.
pub const PAGES: usize = 64;

/// Other pages in the same tables.
const GLOBAL_PAGE: usize = 777;
const ABSENT_PAGE: usize = 900;
const ENTRY_PAGE: usize = 1000;
const WORD_PAGE: usize = 1001;

/// The segments in which the linear addresses go by KSEG and by each base.
pub const SEGMENTS: u32 = 16;
const OF_KSEG: u32 = 2;
const OF_KBASE_LO: u32 = 1;
const OF_KBASE_HI: u32 = 8;

/// The two values that a setting goes between. CTRL has all bits at first, or all but inv_exc.
fn values(number: u32) -> [u32; 2] {
    match number {
        KSEG => [0xFFFF, 0xA5C3],
        CTRL => [7, 3],
        ENABLE => [1, 0],
        KBASE_LO => [0x8765_4321, 0xFEDC_BA98],
        KBASE_HI => [0xFEDC_BA98, 0x8765_4321],
        _ => IDS,
    }
}

/// All settings, each to the first of its values.
pub fn settings() -> impl Iterator<Item = Record> {
    (KSEG..=CONTEXT).map(first_setting)
}

pub fn first_setting(number: u32) -> Record {
    set(number, values(number)[0])
}

pub fn without_inv_exc() -> Record {
    set(CTRL, values(CTRL)[1])
}

/// The setting to the value that it does not have; of CTRL one bit.
pub fn other_setting(part: Part, registers: Registers) -> Option<Record> {
    let (number, bits) = part.setting()?;
    let now = registers.to_words()[number as usize];
    let value = match (number, values(number)) {
        (CTRL, _) => now ^ bits,
        (_, [first, other]) if now == first => other,
        (_, [first, _]) => first,
    };
    Some(set(number, value))
}

/// The stores that make the tables, for both identifications alike but for the frames.
pub fn tables() -> Vec<Record> {
    let global = DIRECTORY_WORDS * GLOBAL_DIRECTORY + OWN;
    let mut stores = vec![
        store(GLOBAL_ROOT, PRESENT | GLOBAL_DIRECTORY as u32),
        store(global, PRESENT | GLOBAL_TABLE as u32),
        store(
            TABLE_WORDS * GLOBAL_TABLE + GLOBAL_PAGE,
            leaf(PLAIN, GLOBAL_PAGE),
        ),
    ];
    for (place, id) in IDS.into_iter().enumerate() {
        let directory = DIRECTORY_WORDS * DIRECTORIES[place];
        stores.extend([
            store(id as usize, PRESENT | DIRECTORIES[place] as u32),
            store(directory + OWN, PRESENT | TABLES[place] as u32),
            store(directory + HEAP, PRESENT | HEAP_TABLE as u32),
            store(directory + BROKEN, PRESENT),
        ]);
        let pages = (0..PAGES).map(|page| {
            let leaf = leaf(page as u32 % 8, frame(place, page));
            store(own_index(id, page), leaf)
        });
        stores.extend(pages);
        let others = [ENTRY_PAGE, WORD_PAGE];
        stores.extend(others.map(|low| store(own_index(id, low), leaf(PLAIN, frame(place, low)))));
    }
    stores
}

/// A record that is refused by each number there is: 5, 6, 7 and 8.
pub fn refused() -> [Record; 4] {
    let too_large = set(CTRL, 8);
    [
        set(CONTEXT, 63),
        store(trace::TABLE_WORDS, PRESENT),
        too_large,
        Record {
            index: 1,
            ..too_large
        },
    ]
}

/// The identification's table goes with all its leaves, and comes again.
pub fn away_and_back(id: u32) -> [Record; 2] {
    let place = place_of(id);
    let index = DIRECTORY_WORDS * DIRECTORIES[place] + OWN;
    [
        store(index, 0),
        store(index, PRESENT | TABLES[place] as u32),
    ]
}

/// Another frame for the leaf from which an entry is loaded.
pub fn entry_store(words: &[u32], id: u32) -> Record {
    let index = own_index(id, ENTRY_PAGE);
    store(index, words[index] ^ OTHER_FRAME)
}

/// A plain leaf becomes the kernel's with another frame, and plain again.
pub fn word_store(words: &[u32], id: u32) -> Record {
    let index = own_index(id, WORD_PAGE);
    let other_flags = (PLAIN ^ KERNEL_ALONE) << FLAGS;
    store(index, words[index] ^ other_flags ^ OTHER_FRAME)
}

/// A leaf of the heap comes with these flags, or goes where there is one.
pub fn heap_store(words: &[u32], page: usize, flags: u32) -> Record {
    let index = TABLE_WORDS * HEAP_TABLE + page;
    match words[index] {
        0 => store(index, leaf(flags, index)),
        _ => store(index, 0),
    }
}

/// The access whose line tells the part.
pub fn probe(part: Part) -> Record {
    let own_page = |flags, write| access(own_page(flags as usize), true, write, 0);
    match part {
        Part::Kseg => linear(OF_KSEG),
        Part::KbaseLo => linear(OF_KBASE_LO),
        Part::KbaseHi => linear(OF_KBASE_HI),
        Part::Context => own_page(PLAIN, false),
        Part::Enable => access(absent_page(), true, false, 0),
        Part::InvExc => own_page(NOT_VALID, false),
        Part::AccExc => own_page(KERNEL, false),
        Part::WeExc => own_page(NO_WE, true),
        Part::Entries => access(page(OWN, ENTRY_PAGE), true, false, 0),
        Part::Words => access(page(OWN, WORD_PAGE), true, true, 0),
    }
}

/// A supervisor's access to the segment.
pub fn linear(segment: u32) -> Record {
    access(segment << 15, false, false, 0)
}

/// A user's write to the page of each slot.
pub fn own_writes() -> impl Iterator<Item = Record> {
    (0..PAGES).map(|slot| access(own_page(slot), true, true, slot as u32 / 16))
}

pub fn own_page(slot: usize) -> u32 {
    page(OWN, slot)
}

pub fn heap_page(place: usize) -> u32 {
    page(HEAP, place)
}

pub fn absent_page() -> u32 {
    page(OWN, ABSENT_PAGE)
}

pub fn broken_page() -> u32 {
    page(BROKEN, 0)
}

pub fn global_page() -> u32 {
    page(OWN, GLOBAL_PAGE)
}

pub fn access(page: u32, user: bool, write: bool, draw: u32) -> Record {
    Record::of(Call::Served(Access {
        address: page << 13 | page % 8192,
        user,
        write,
        draw,
    }))
}

fn page(top: usize, low: usize) -> u32 {
    (TABLE_WORDS * top + low) as u32
}

fn own_index(id: u32, low: usize) -> usize {
    TABLE_WORDS * TABLES[place_of(id)] + low
}

/// Two frames for each page of each identification: this one, and the other.
fn frame(place: usize, low: usize) -> usize {
    0x4_0000 * place + 2 * low
}

fn leaf(flags: u32, frame: usize) -> u32 {
    PRESENT | flags << FLAGS | frame as u32
}

fn set(number: u32, value: u32) -> Record {
    Record::of(Call::Setting { number, value })
}

fn store(index: usize, value: u32) -> Record {
    Record::of(Call::Store {
        index: index as u32,
        value,
    })
}

fn place_of(id: u32) -> usize {
    usize::from(id == IDS[1])
}
