//! The cases: what each finds and does.

use super::unit::{read, Setting, Store, Unit, FIRST_LEAF, LEAF, PAGES};
use super::work::Work;
use reference::host::{LEAST_TABLE_BYTES, MOST_TABLE_BYTES};
use reference::Access;

pub struct Case {
    pub name: &'static str,
    pub unit: Unit,
    pub work: Work,
}

/// The least length that holds a directory and a table.
const LEAST_WITH_LEAVES: usize = 8192;

/// Pages that have a slot at first.
const HELD: u32 = 64;

impl Case {
    /// The length of the tables as it is printed.
    pub fn tables(&self) -> String {
        match self.work {
            Work::Starts(_) | Work::Settings(_) | Work::Raw(_) => "none".to_string(),
            _ => self.unit.table_bytes().to_string(),
        }
    }
}

pub fn all() -> Vec<Case> {
    let mut cases = Vec::new();
    let mut add = |name, table_bytes: &[usize], work: fn() -> Work| {
        for &bytes in table_bytes {
            cases.push(Case {
                name,
                unit: Unit::with_full_buffer(bytes),
                work: work(),
            });
        }
    };
    let (most, least) = (MOST_TABLE_BYTES, LEAST_TABLE_BYTES);
    let with_leaves = [most, LEAST_WITH_LEAVES];
    add("start", &[most], || Work::Starts(16));
    add("guarded setting", &[most], || Work::Settings(contexts()));
    add("raw access, hit", &[most], || Work::Raw(held_pages()));
    add("raw access, miss", &[most], || Work::Raw(other_pages()));
    add("served access, hit", &[most, least], || {
        Work::Served(held_pages())
    });
    add("served access, miss with a load", &with_leaves, || {
        Work::Served(pages_that_miss())
    });
    add(
        "served access, directory word absent",
        &[most, least],
        || Work::Served(absent_pages()),
    );
    add("store, empties nothing", &with_leaves, || {
        Work::Stores(stores_of_software_bits())
    });
    add(
        "store, empties one slot; access that loads it",
        &with_leaves,
        || Work::Pairs(stores_of_frames()),
    );
    cases
}

/// A switch to each identification.
fn contexts() -> Vec<Setting> {
    (0..63).map(|value| Setting { number: 5, value }).collect()
}

fn held_pages() -> Vec<Access> {
    (0..HELD).map(|page| read(page, 0)).collect()
}

/// Pages of the same locations that no slot holds.
fn other_pages() -> Vec<Access> {
    (0..HELD)
        .map(|page| read(2 * HELD + page, page % 4))
        .collect()
}

/// 80 pages in turn, each loaded into the slot that was loaded longest ago: what an access asks for
/// was driven out by the one before it at its location. After 320 the slots are as at first.
fn pages_that_miss() -> Vec<Access> {
    (0..4 * PAGES)
        .map(|i| read((HELD + i) % PAGES, i / 16 % 4))
        .collect()
}

/// The directory's second word is absent.
fn absent_pages() -> Vec<Access> {
    (0..HELD).map(|page| read(1024 + page, page % 4)).collect()
}

/// Each store changes software bits.
fn stores_of_software_bits() -> Vec<Store> {
    let rounds = (0..8).flat_map(|software| (0..HELD).map(move |page| (software, page)));
    rounds
        .map(|(software, page)| Store {
            index: FIRST_LEAF + page,
            value: LEAF + page + (software << 19),
        })
        .collect()
}

/// Each store gives the page another frame, and the next round the first one back.
fn stores_of_frames() -> Vec<(Store, Access)> {
    let rounds = [0x1000, 0]
        .into_iter()
        .flat_map(|frame| (0..HELD).map(move |page| (frame, page)));
    rounds
        .map(|(frame, page)| {
            let store = Store {
                index: FIRST_LEAF + page,
                value: LEAF + page + frame,
            };
            (store, read(page, page / 16))
        })
        .collect()
}
