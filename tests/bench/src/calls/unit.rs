//! A unit's three runs as bytes.

use super::second::CALLS;
use super::Calls;
use reference::host::{BUFFER_BYTES, REGISTER_BYTES};
use reference::{start, Access, SLOTS};

#[derive(Clone, PartialEq, Eq)]
pub struct Unit {
    registers: [u8; REGISTER_BYTES],
    buffer: [u8; BUFFER_BYTES],
    tables: Vec<u8>,
}

#[derive(Clone, Copy)]
pub struct Store {
    pub index: u32,
    pub value: u32,
}

#[derive(Clone, Copy)]
pub struct Setting {
    pub number: u32,
    pub value: u32,
}

/// Where the leaf of page 0 stands, and its value without software bits.
pub const FIRST_LEAF: u32 = 1024;
pub const LEAF: u32 = 0xD000_0100;

/// Pages with a leaf: five for each location, one more than it has slots.
pub const PAGES: u32 = 80;

const CONTEXT: u32 = 5;

/// The number of each register that is set, and its value: CTRL, ENABLE, CONTEXT.
const SETTINGS: [(usize, u32); 3] = [(1, 7), (2, 1), (5, CONTEXT)];

/// A present root or directory word that names number 1.
const NAMES_FIRST: u32 = 0x8000_0001;

impl Unit {
    /// An enabled unit whose 64 slots hold the first 64 pages. The tables hold 80 leaves; they are
    /// cut to their length at last, and the global tree is absent.
    pub fn with_full_buffer(table_bytes: usize) -> Unit {
        let mut unit = Unit {
            registers: [0; REGISTER_BYTES],
            buffer: empty_buffer(),
            tables: vec![0; table_bytes.max(8192)],
        };
        for (number, value) in SETTINGS {
            put(&mut unit.registers, number, value);
        }
        put(&mut unit.tables, CONTEXT as usize, NAMES_FIRST);
        put(&mut unit.tables, 512, NAMES_FIRST);
        for page in 0..PAGES {
            put(&mut unit.tables, (FIRST_LEAF + page) as usize, LEAF + page);
        }
        for page in 0..SLOTS as u32 {
            unit.serve(CALLS, read(page, page / 16));
        }
        unit.tables.truncate(table_bytes);
        unit
    }

    pub fn table_bytes(&self) -> usize {
        self.tables.len()
    }

    pub fn start(&mut self, calls: Calls) -> u64 {
        let (registers, buffer) = (&mut self.registers, &mut self.buffer);
        // SAFETY: each run is handed over with its own length.
        unsafe {
            (calls.start)(
                registers.as_mut_ptr(),
                registers.len(),
                buffer.as_mut_ptr(),
                buffer.len(),
            )
        }
    }

    pub fn set(&mut self, calls: Calls, setting: Setting) -> u64 {
        let registers = &mut self.registers;
        // SAFETY: the run is handed over with its own length.
        unsafe {
            (calls.guarded_setting)(
                registers.as_mut_ptr(),
                registers.len(),
                setting.number,
                setting.value,
            )
        }
    }

    pub fn access(&mut self, calls: Calls, access: Access) -> u64 {
        let Access {
            address,
            user,
            write,
            draw,
        } = access;
        let (registers, buffer) = (&mut self.registers, &self.buffer);
        // SAFETY: each run is handed over with its own length.
        unsafe {
            (calls.raw_access)(
                registers.as_mut_ptr(),
                registers.len(),
                buffer.as_ptr(),
                buffer.len(),
                address,
                user,
                write,
                draw,
            )
        }
    }

    pub fn serve(&mut self, calls: Calls, access: Access) -> u64 {
        let Access {
            address,
            user,
            write,
            draw,
        } = access;
        let (registers, buffer) = (&mut self.registers, &mut self.buffer);
        // SAFETY: each run is handed over with its own length.
        unsafe {
            (calls.served_access)(
                registers.as_mut_ptr(),
                registers.len(),
                buffer.as_mut_ptr(),
                buffer.len(),
                self.tables.as_ptr(),
                self.tables.len(),
                address,
                user,
                write,
                draw,
            )
        }
    }

    pub fn store(&mut self, calls: Calls, store: Store) -> u64 {
        let (registers, buffer) = (&self.registers, &mut self.buffer);
        // SAFETY: each run is handed over with its own length.
        unsafe {
            (calls.table_store)(
                registers.as_ptr(),
                registers.len(),
                buffer.as_mut_ptr(),
                buffer.len(),
                self.tables.as_mut_ptr(),
                self.tables.len(),
                store.index,
                store.value,
            )
        }
    }
}

/// A user's read within a page.
pub fn read(page: u32, draw: u32) -> Access {
    Access {
        address: page * 8192 + 0x123,
        user: true,
        write: false,
        draw,
    }
}

fn empty_buffer() -> [u8; BUFFER_BYTES] {
    let mut numbers = [0; SLOTS];
    let (done, _) = start(&mut numbers);
    done.expect("the buffer has its length");
    let mut bytes = [0; BUFFER_BYTES];
    for (eight, number) in bytes.chunks_exact_mut(8).zip(numbers) {
        eight.copy_from_slice(&number.to_be_bytes());
    }
    bytes
}

fn put(bytes: &mut [u8], word: usize, value: u32) {
    bytes[4 * word..4 * word + 4].copy_from_slice(&value.to_be_bytes());
}
