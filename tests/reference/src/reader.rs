//! The reader, who sees the calls and has no buffer.
//!
//! It "is fed each call's arguments, never an answer; registers and runs handed in serve it only
//! to decide a refusal". Shared with the served access, the store and the guarded setting are the
//! walk, the fields of a leaf, the value of a walk's fault, the register fields with their widths
//! and the arguments of an access. The refusals, the linear rule, the exceptions, the address and
//! the writes are said here once more, by themselves.

use crate::fault;
use crate::leaf::Leaf;
use crate::raw::Access;
use crate::registers::{Registers, FIELD_BITS};
use crate::walk::{walk, Walk};

pub const SETTINGS: usize = 6;

const KSEG: usize = 0;
const CTRL: usize = 1;
const ENABLE: usize = 2;
const KBASE_LO: usize = 3;
const KBASE_HI: usize = 4;
const CONTEXT: usize = 5;

/// The calls of a sequence.
#[derive(Clone, Copy, Debug, PartialEq, Eq)]
pub enum GuardedCall {
    Access(Access),
    Store { index: u32, value: u32 },
    Setting { number: u32, value: u32 },
}

/// What a call is handed besides its own arguments; of the runs, their lengths.
#[derive(Clone, Copy, Debug, PartialEq, Eq)]
pub struct Handed {
    pub registers: Registers,
    pub buffer: usize,
    pub tables: usize,
}

/// What the reader says of a call.
#[derive(Clone, Copy, Debug, PartialEq, Eq)]
pub enum Said {
    Refused(u32),
    At(u32),
    Fault(u32),
    /// An accepted store or setting.
    Written,
}

/// It holds "table words, at first those of the table run, and a value for each guarded setting,
/// at first 0".
#[derive(Clone, Debug)]
pub struct Reader {
    words: Vec<u32>,
    settings: [u32; SETTINGS],
}

impl Reader {
    pub fn begin(words: Vec<u32>) -> Reader {
        Reader {
            words,
            settings: [0; SETTINGS],
        }
    }

    pub fn words(&self) -> &[u32] {
        &self.words
    }

    /// The settings by their register numbers 0 to 5.
    pub fn settings(&self) -> [u32; SETTINGS] {
        self.settings
    }

    /// "A refused call changes nothing. An accepted store writes its word. An accepted guarded
    /// setting writes its value. An accepted access gets the answer without a buffer from these
    /// words and values, and changes none."
    pub fn hear(&mut self, handed: Handed, call: GuardedCall) -> Said {
        if let Some(number) = refusal(handed, call) {
            return Said::Refused(number);
        }
        match call {
            GuardedCall::Access(access) => self.answer(access),
            GuardedCall::Store { index, value } => {
                self.words[index as usize] = value;
                Said::Written
            }
            GuardedCall::Setting { number, value } => {
                self.settings[number as usize] = value;
                Said::Written
            }
        }
    }

    pub fn is_enabled(&self) -> bool {
        self.settings[ENABLE] == 1
    }

    pub fn inv_exc(&self) -> bool {
        self.settings[CTRL] >> 2 == 1
    }

    pub fn context(&self) -> u32 {
        self.settings[CONTEXT]
    }

    /// The base of the access's segment where the linear rule applies to the access.
    pub fn linear_base(&self, access: Access) -> Option<u32> {
        let segment = access.address / 0x1000_0000;
        if access.user || (self.settings[KSEG] >> segment) & 1 == 0 {
            return None;
        }
        let bases = u64::from(self.settings[KBASE_HI]) << 32 | u64::from(self.settings[KBASE_LO]);
        Some((bases >> (4 * segment) & 15) as u32)
    }

    /// "The reader's walk is the walk over these words under its CONTEXT."
    pub fn walk(&self, access: Access) -> Walk {
        walk(&self.words[..], self.context(), access.address / 8192)
    }

    /// "The answer without a buffer: enable off gives the virtual address; then the linear rule;
    /// then the walk; absent, broken, and valid 0 without inv_exc give 16, 32, 8; else the
    /// exceptions of the leaf, or its address." The 16 and the 32 carry where the walk stopped.
    fn answer(&self, access: Access) -> Said {
        if !self.is_enabled() {
            return Said::At(access.address);
        }
        if let Some(base) = self.linear_base(access) {
            return Said::At(base * 0x1000_0000 + access.address % 0x1000_0000);
        }
        let leaf = match self.walk(access) {
            Walk::Absent(word) => return Said::Fault(fault::absent(word)),
            Walk::Broken(word, _) => return Said::Fault(fault::broken(word)),
            Walk::Leaf(decided) => Leaf::from_word(decided),
        };
        if !leaf.valid && !self.inv_exc() {
            return Said::Fault(8);
        }
        match self.exceptions(leaf, access) {
            0 => Said::At(leaf.pfn * 8192 + access.address % 8192),
            sum => Said::Fault(sum),
        }
    }

    /// Write error 1, access violation 2, invalid page 4, added up.
    fn exceptions(&self, leaf: Leaf, access: Access) -> u32 {
        let ctrl = self.settings[CTRL];
        let write_error = u32::from(access.write && !leaf.we);
        let access_violation = u32::from(access.user && leaf.kernel);
        let invalid_page = u32::from(!leaf.valid);
        ctrl & (write_error + 2 * access_violation + 4 * invalid_page)
    }
}

/// The first number of the table whose ground is given; "checked in this order, as far as the
/// call has the argument".
fn refusal(handed: Handed, call: GuardedCall) -> Option<u32> {
    (1..=7).find(|&number| is_given(number, handed, call))
}

fn is_given(number: u32, handed: Handed, call: GuardedCall) -> bool {
    use GuardedCall::{Access, Setting, Store};
    match (number, call) {
        (1, _) => a_field_exceeds_its_bits(handed.registers),
        (2, Access(_) | Store { .. }) => handed.buffer != 64,
        (3, Access(_) | Store { .. }) => {
            let kilowords = handed.tables / 1024;
            !handed.tables.is_multiple_of(1024) || !(1..=65_536).contains(&kilowords)
        }
        (4, Access(access)) => access.draw >= 4,
        (5, Access(_)) => handed.registers.test == 1 || handed.registers.context == 63,
        (5, Setting { number, value }) => number as usize == CONTEXT && value >= 63,
        (6, Store { index, .. }) => handed.tables <= index as usize,
        (7, Setting { number, value }) => match FIELD_BITS[..SETTINGS].get(number as usize) {
            Some(&bits) => exceeds(value, bits),
            None => true,
        },
        _ => false,
    }
}

fn a_field_exceeds_its_bits(registers: Registers) -> bool {
    let words = registers.to_words();
    (0..words.len()).any(|n| exceeds(words[n], FIELD_BITS[n]))
}

fn exceeds(value: u32, bits: u32) -> bool {
    bits < 32 && value >> bits != 0
}
