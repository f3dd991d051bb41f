//! Maps.

use super::super::call::UnitCall;
use super::{Fault, Unit, ENTRY, TABLE};

impl Unit<'_> {
    pub fn map(&mut self, call: UnitCall) -> [u32; 4] {
        if self.is_in_boot_mode() && self.fault != Fault::BootModeIgnored {
            return self.map_in_boot_mode(call);
        }
        let place = self.place_of_map(call.a);
        let word = match self.entries[place] {
            word if self.fault == Fault::UnmappedGoesByFirstTable && word >> 18 & 1 == 0 => {
                self.entries[place % TABLE]
            }
            word => word,
        };
        let faults = self.violations(word, call);
        let address = self.physical(word, call.a, faults);
        self.keep_fault_address(call, faults, address);
        match self.fault {
            Fault::JunkClearedByMap => self.clear_junk(place),
            Fault::MapCutsIndexTo4Bits => self.index %= 16,
            _ => {}
        }
        let reported = match self.fault {
            Fault::FaultIsOneNumber => u32::from(faults != 0),
            _ => faults,
        };
        [0, address, reported, 0]
    }

    /// The place of the entry that a virtual address goes by.
    pub fn place_of_map(&self, a: u32) -> usize {
        let (upper, lower) = (a as usize / 256, a as usize % 256);
        let page = match self.fault {
            Fault::PageFromLowerByte => lower,
            Fault::PageOf7Bits => upper % 128,
            Fault::LastPageIsFirst if upper == 255 => 0,
            _ => upper,
        };
        let table = match self.fault {
            Fault::TableIndexIgnored => 0,
            Fault::TableOneMore => (self.index as usize + 1) % 32,
            Fault::TableOf4Bits => self.index as usize % 16,
            _ => self.index as usize % 32,
        };
        self.reachable(match self.fault {
            Fault::IndexAndPageSwapped => 32 * page + table,
            Fault::TablesOf255 => 255 * table + page,
            _ => TABLE * table + page,
        })
    }

    fn physical(&self, word: u32, a: u32, faults: u32) -> u32 {
        let page = match self.fault {
            Fault::PhysicalPageOf15Bits => word & 0x7FFF,
            Fault::PhysicalPageBytesSwapped => (word as u16).swap_bytes().into(),
            Fault::StatusInAddress => word & ENTRY,
            Fault::JunkInAddress => word & !(7 << 16),
            _ => word & 0xFFFF,
        };
        let offset = match self.fault {
            Fault::OffsetLost => 0,
            Fault::OffsetFromUpperByte => a / 256,
            _ => a % 256,
        };
        match self.fault {
            Fault::FaultingAddressIsZero if faults != 0 => 0,
            Fault::FaultingAddressIsVirtual if faults != 0 => a,
            Fault::UnmappedAddressIsZero if faults & 1 != 0 => 0,
            Fault::ViolatingAddressIsZero if faults & 6 != 0 => 0,
            _ => page << 8 | offset,
        }
    }

    fn keep_fault_address(&mut self, call: UnitCall, faults: u32, address: u32) {
        let is_kept = match self.fault {
            Fault::FirstFaultAddressKept => faults != 0 && self.fault_address == 0,
            Fault::LargestFaultAddressKept => faults != 0 && call.a > self.fault_address,
            Fault::FaultAddressOnEveryMap => true,
            Fault::FaultAddressNever => false,
            Fault::FaultAddressNotOfNoMappingAlone => faults > 1,
            Fault::FaultAddressNotOfWriteAlone => ![0, 2].contains(&faults),
            Fault::FaultAddressNotOfProtectionAlone => ![0, 4].contains(&faults),
            Fault::FaultAddressNotOfSeveral => faults.is_power_of_two(),
            Fault::FaultAddressOfUsersOnly => faults != 0 && call.user,
            Fault::FaultAddressOfWritesOnly => faults != 0 && call.write,
            _ => faults != 0,
        };
        if is_kept {
            self.fault_address = match self.fault {
                Fault::FaultAddressWithoutOffset => call.a & 0xFF00,
                Fault::FaultAddressIsPhysical => address & 0xFFFF,
                _ => call.a,
            };
        } else if self.fault == Fault::FaultAddressClearedByGoodMap {
            self.fault_address = 0;
        }
    }

    fn map_in_boot_mode(&mut self, call: UnitCall) -> [u32; 4] {
        let place = self.place_of_map(call.a);
        let word = self.entries.get(place).copied().unwrap_or(0);
        let would_be = self.violations(word, call);
        let faults = match self.fault {
            Fault::BootMapFaults => would_be,
            Fault::BootMapFaultsWithoutMapping => would_be & 1,
            _ => 0,
        };
        match self.fault {
            Fault::BootMapSetsFaultAddress => self.fault_address = call.a,
            Fault::BootMapSetsAddressOfFault if would_be != 0 => self.fault_address = call.a,
            Fault::BootMapClearsFaultAddress => self.fault_address = 0,
            Fault::BootMapClearsJunk => self.clear_junk(place),
            Fault::BootModeEndedByMap => self.boot_mode = 0,
            _ => {}
        }
        let top = match self.fault {
            Fault::BootTopByte40 => 0x40,
            Fault::BootTopByte81 => 0x81,
            Fault::BootTopByteZero => 0,
            _ => 0x80,
        };
        let rest = match self.fault {
            Fault::BootPageLost => call.a % 256,
            _ => call.a,
        };
        [0, top << 16 | rest, faults, 0]
    }
}
