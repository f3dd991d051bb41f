//! What the tests of the calls share: a small unit with tables that are easily told.
#![allow(dead_code)]

pub mod numbers;

use reference::*;

pub const VALID: u32 = 1 << 30;
pub const KERNEL: u32 = 1 << 29;
pub const WE: u32 = 1 << 28;
pub const PRESENT: u32 = 1 << 31;

/// The page whose leaf `Unit::new` plants.
pub const PAGE: u32 = 0x21;
pub const ID: u32 = 5;

#[derive(Clone)]
pub struct Unit {
    pub registers: Registers,
    pub buffer: Vec<u64>,
    pub words: Vec<u32>,
}

impl Unit {
    /// Enabled under ID after a start. For the pages below 1,024, root ID names directory 1 and
    /// that table 1; the global root names directory 4 and that table 3.
    pub fn new() -> Unit {
        let mut buffer = vec![0; SLOTS];
        let (done, registers) = start(&mut buffer);
        assert_eq!(done, Ok(()));
        let mut words = vec![0; 4096];
        words[ID as usize] = PRESENT | 1;
        words[512] = PRESENT | 1;
        words[GLOBAL_ROOT] = PRESENT | 4;
        words[2048] = PRESENT | 3;
        Unit {
            registers: Registers {
                enable: 1,
                context: ID,
                ..registers
            },
            buffer,
            words,
        }
    }

    /// The index of the own leaf of a page below 1,024.
    pub fn own(page: u32) -> usize {
        1024 + page as usize
    }

    /// The index of the global leaf of a page below 1,024.
    pub fn global(page: u32) -> usize {
        3072 + page as usize
    }

    pub fn access(&mut self, access: Access) -> (Outcome, u32) {
        let reply = served_access(self.registers, &mut self.buffer, &self.words, access);
        self.registers = reply.registers;
        (reply.outcome, reply.loads)
    }

    pub fn store(&mut self, index: usize, value: u32) -> Outcome {
        let reply = table_store(
            self.registers,
            &mut self.buffer,
            &mut self.words,
            index as u32,
            value,
        );
        assert_eq!((reply.loads, reply.registers), (0, self.registers));
        reply.outcome
    }

    pub fn entry(&self, slot: usize) -> Entry {
        Entry::unpack(self.buffer[slot])
    }
}

/// A supervisor's read of a page's first byte.
pub fn read(page: u32, draw: u32) -> Access {
    Access {
        address: page * 8192,
        user: false,
        write: false,
        draw,
    }
}

/// A valid, writable entry of frame 7 for PAGE.
pub fn entry(page_id: u32, global: bool) -> Entry {
    Entry {
        vpn15: vpn15(PAGE),
        page_id,
        global,
        valid: true,
        kernel: false,
        we: true,
        pfn: 7,
    }
}
