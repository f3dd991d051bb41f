//! Reads and sets of entries.

use super::{Fault, Unit, ENTRY, RUN, TABLE};

impl Unit<'_> {
    pub fn low_word(&mut self, a: u32) -> u32 {
        let place = self.place(a);
        let word = self.entries[place];
        if self.fault == Fault::JunkClearedByLowWord {
            self.clear_junk(place);
        }
        match self.fault {
            Fault::LowWordOf15Bits => word & 0x7FFF,
            Fault::LowWordWithStatus => word & ENTRY,
            Fault::LowWordWithJunk => word & !(7 << 16),
            Fault::LowWordIsHigh => word >> 16 & 7,
            Fault::LowWordReadAsZeroUnmapped if word >> 18 & 1 == 0 => 0,
            _ => word & 0xFFFF,
        }
    }

    pub fn high_word(&mut self, a: u32) -> u32 {
        let index = self.index;
        let place = match self.fault {
            Fault::HighWordUnderIndex => TABLE * index as usize + a as usize % TABLE,
            _ => self.place(a),
        };
        let word = self.entries[place];
        match self.fault {
            Fault::JunkClearedByHighWord => self.clear_junk(place),
            Fault::HighWordClearsIndex => self.index = 0,
            _ => {}
        }
        let status = match self.fault {
            Fault::HighWordWithoutMapped => word >> 16 & 3,
            Fault::HighWordWithoutWritable => word >> 16 & 6,
            Fault::HighWordWithJunk => word >> 16 & 0xFF,
            Fault::HighWordStatusReversed => reversed(word >> 16 & 7),
            _ => word >> 16 & 7,
        };
        let index = match self.fault {
            Fault::HighWordWithoutIndex => 0,
            Fault::HighWordIndexOf4Bits => index % 16,
            Fault::HighWordOfItsOwnTable => (place / TABLE) as u32,
            Fault::HighWordIndexZeroInBootMode if self.is_in_boot_mode() => 0,
            _ => index,
        };
        match self.fault {
            Fault::HighWordBytesSwapped => 256 * status + index,
            _ => 256 * index + status,
        }
    }

    pub fn set_entry(&mut self, a: u32, b: u32) -> u32 {
        let place = match self.fault {
            Fault::SetUnderIndex => TABLE * self.index as usize + a as usize % TABLE,
            _ => self.place(a),
        };
        let old = self.entries[place];
        let entry = match self.fault {
            Fault::SetStatusFromAddress => (a >> 13 & 7) << 16 | b & 0xFFFF,
            _ => self.entry(b, old),
        };
        if self.is_made(place, b, old) {
            self.put(place, entry);
            for other in self.others(place) {
                self.put(other, entry);
            }
            self.clear_others(place);
        }
        match self.fault {
            Fault::SetClearsFaultAddress => self.fault_address = 0,
            Fault::SetMovesIndex => self.index = (place / TABLE) as u32,
            Fault::SetEndsBootMode => self.boot_mode = 0,
            _ => {}
        }
        match self.fault {
            Fault::SetAnswersTheEntry => entry,
            Fault::SetAnswersTheOldEntry => old & ENTRY,
            _ => 0,
        }
    }

    /// The place that an entry address names.
    pub fn place(&self, a: u32) -> usize {
        let a = a as usize;
        let place = match self.fault {
            Fault::EntryAddressOf12Bits => a % 4096,
            Fault::EntryAddressOf14Bits => (a % 16384).min(RUN - 1),
            Fault::EntryAddressOf16BitsAtMost => match a % 65536 {
                kept if a > 65535 => kept.min(RUN - 1),
                _ => a % RUN,
            },
            Fault::EntryAddressAtMost8191 => a.min(RUN - 1),
            Fault::EntryAddressModulo8191 => a % (RUN - 1),
            Fault::EntryAddressUnderIndex => TABLE * self.index as usize + a % TABLE,
            _ => a % RUN,
        };
        self.reachable(place)
    }

    pub fn reachable(&self, place: usize) -> usize {
        match self.fault {
            Fault::LastEntryUnreachable => place.min(RUN - 2),
            _ => place,
        }
    }

    /// The word that a set puts.
    fn entry(&self, b: u32, old: u32) -> u32 {
        match self.fault {
            Fault::SetMakesMapped => b & ENTRY | 1 << 18,
            Fault::SetWithoutStatus => b & 0xFFFF,
            Fault::SetStatusReversed => reversed(b >> 16 & 7) << 16 | b & 0xFFFF,
            Fault::SetStatusFromTopBits => b >> 29 << 16 | b & 0xFFFF,
            Fault::SetPageOf15Bits => b & 0x7_7FFF,
            Fault::SetWritesJunk => b,
            Fault::SetKeepsJunk => old & !ENTRY | b & ENTRY,
            _ => b & ENTRY,
        }
    }

    fn is_made(&self, place: usize, b: u32, old: u32) -> bool {
        let is_mapped = |word: u32| word >> 18 & 1 == 1;
        match self.fault {
            Fault::SetMadeByNextCall => false,
            Fault::SetNeverInBootMode => !self.is_in_boot_mode(),
            Fault::SetNeverOfLastEntry => place != RUN - 1,
            Fault::SetOfUnmappedIgnored => is_mapped(b),
            Fault::SetOverUnmappedOnly => !is_mapped(old),
            _ => true,
        }
    }

    /// Places that are set too.
    fn others(&self, place: usize) -> Vec<usize> {
        let off = |distance: usize| vec![(place + distance) % RUN];
        match self.fault {
            Fault::SetChangesNextEntry => off(1),
            Fault::SetChangesEntryBefore => off(RUN - 1),
            Fault::SetChangesNextTable => off(TABLE),
            Fault::SetChangesTableBefore => off(RUN - TABLE),
            Fault::SetChangesEntry4096Off => off(4096),
            Fault::SetChangesAllTables => (place % TABLE..RUN).step_by(TABLE).collect(),
            _ => Vec::new(),
        }
    }

    fn clear_others(&mut self, place: usize) {
        let table = place / TABLE * TABLE;
        let cleared = match self.fault {
            Fault::SetClearsJunkOfTable => table..table + TABLE,
            Fault::SetClearsJunkOfRun => 0..RUN,
            _ => return,
        };
        cleared.for_each(|place| self.clear_junk(place));
    }
}

fn reversed(status: u32) -> u32 {
    status >> 2 | status & 2 | (status & 1) << 2
}
