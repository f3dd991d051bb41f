//! The three checks of a map.

use super::super::call::UnitCall;
use super::{Fault, Unit, ENTRY};

impl Unit<'_> {
    /// 1 no mapping, 2 write violation and 4 protection violation, added up.
    pub fn violations(&self, word: u32, call: UnitCall) -> u32 {
        let [mapped, system, writable] = self.status(word);
        let (user, write) = match self.fault {
            Fault::UserAndWriteSwapped => (call.write, call.user),
            _ => (call.user, call.write),
        };
        let no_mapping = match self.fault {
            Fault::NoMappingNever => false,
            _ => !mapped,
        };
        let write_violation = match self.fault {
            Fault::WriteViolationNever => false,
            Fault::ReadNeedsWritable => !writable,
            Fault::SystemWritesAnywhere => user && write && !writable,
            _ => write && !writable,
        };
        let protection = match self.fault {
            Fault::ProtectionViolationNever => false,
            Fault::SystemPagesClosedToSystem => system,
            Fault::UserPagesClosedToSystem => system == user,
            Fault::SystemPagesOpenToReads => system && user && write,
            _ => system && user,
        };
        let all = [no_mapping, write_violation, protection].map(u32::from);
        self.counted(all[0] + 2 * all[1] + 4 * all[2])
    }

    /// The bits mapped, system and writable.
    fn status(&self, word: u32) -> [bool; 3] {
        let [mapped, system, writable] = [18, 17, 16].map(|bit| word >> bit & 1 == 1);
        let has_junk = word & !ENTRY != 0;
        match self.fault {
            Fault::MappedAndSystemSwapped => [system, mapped, writable],
            Fault::MappedAndWritableSwapped => [writable, system, mapped],
            Fault::SystemAndWritableSwapped => [mapped, writable, system],
            Fault::StatusRotated => [system, writable, mapped],
            Fault::JunkCountsAsMapped => [mapped || has_junk, system, writable],
            Fault::JunkCountsAsSystem => [mapped, system || has_junk, writable],
            _ => [mapped, system, writable],
        }
    }

    fn counted(&self, faults: u32) -> u32 {
        match (self.fault, faults) {
            (Fault::NoMappingAloneIsNoFault, 1) => 0,
            (Fault::WriteViolationAloneIsNoFault, 2) => 0,
            (Fault::ProtectionViolationAloneIsNoFault, 4) => 0,
            (Fault::AllThreeAreNoFault, 7) => 0,
            (Fault::UnmappedFaultsAlone, 1 | 3 | 5 | 7) => 1,
            (Fault::FirstFaultOnly, 1..) => 1 << faults.trailing_zeros(),
            (Fault::LastFaultOnly, 1..) => 1 << faults.ilog2(),
            (Fault::WriteHidesProtection, 6 | 7) => faults - 4,
            (Fault::FaultNumbersSwapped, _) => faults & 1 | (faults & 2) << 1 | (faults & 4) >> 1,
            _ => faults,
        }
    }
}
