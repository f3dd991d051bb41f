//! The table index and the fault address.

use super::{Fault, Unit};

impl Unit<'_> {
    pub fn set_index(&mut self, a: u32) -> u32 {
        let old = self.index;
        self.index = match self.fault {
            Fault::IndexOf4Bits => a % 16,
            Fault::IndexModulo31 => a % 31,
            Fault::IndexOf6Bits => a % 64,
            Fault::IndexOf8Bits => a % 256,
            Fault::IndexNotCut => a,
            Fault::IndexAtMost31 => a.min(31),
            Fault::IndexAbove31Ignored if a > 31 => old,
            Fault::IndexNeverInBootMode if self.is_in_boot_mode() => old,
            _ => a % 32,
        };
        match self.fault {
            Fault::IndexSetEndsBootMode => self.boot_mode = 0,
            Fault::IndexSetBeginsBootMode => self.boot_mode = 1,
            Fault::IndexSetClearsFaultAddress => self.fault_address = 0,
            _ => {}
        }
        match self.fault {
            Fault::IndexSetAnswersIt => self.index,
            Fault::IndexSetAnswersOldOne => old,
            _ => 0,
        }
    }

    pub fn read_fault_address(&mut self) -> u32 {
        let address = self.fault_address;
        let in_boot_mode = self.is_in_boot_mode();
        match self.fault {
            Fault::FaultAddressClearedByItsRead => self.fault_address = 0,
            Fault::BootModeEndedByFaultAddressRead => self.boot_mode = 0,
            _ => {}
        }
        match self.fault {
            Fault::FaultAddressReadOf15Bits => address % (1 << 15),
            Fault::FaultAddressReadAsZeroInBootMode if in_boot_mode => 0,
            _ => address,
        }
    }
}
