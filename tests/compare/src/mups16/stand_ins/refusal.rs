//! Which calls a stand-in refuses, and what comes of them.

use super::super::call::{Operation, UnitCall};
use super::{Fault, Unit, ENTRY, RUN};
use std::rc::Rc;

impl Unit<'_> {
    pub fn is_refused(&self, call: UnitCall) -> bool {
        let needs_run = !matches!(
            call.operation,
            Operation::FaultAddress | Operation::SetIndex
        );
        let is_at_entry = needs_run && call.operation != Operation::Map;
        match self.fault {
            Fault::BootModeRefused if self.is_in_boot_mode() => return true,
            Fault::EntryAddressAbove8191Refused if is_at_entry && call.a > 8191 => return true,
            _ => {}
        }
        needs_run && self.entries.len() != RUN && !self.takes_wrong_run(call)
    }

    /// Whether the fault takes the run nevertheless.
    fn takes_wrong_run(&self, call: UnitCall) -> bool {
        let length = self.entries.len();
        let is_inside = self.place_of(call) < length;
        let boots = |operation: Operation| self.is_in_boot_mode() && call.operation == operation;
        match self.fault {
            Fault::LongerRunTaken => length > RUN,
            Fault::RunOf8193Taken => length == 8193,
            Fault::RunOf16384Taken => length == 16384,
            Fault::ShorterRunTaken => is_inside && length < RUN,
            Fault::RunOf8191Taken => is_inside && length == 8191,
            Fault::RunOfWholeTablesTaken => is_inside && length.is_multiple_of(256),
            Fault::BootMapOfWrongRunTaken => boots(Operation::Map),
            Fault::BootMapWithoutRunTaken => boots(Operation::Map) && length == 0,
            Fault::BootReadOfWrongRunTaken => {
                is_inside && (boots(Operation::LowWord) || boots(Operation::HighWord))
            }
            Fault::BootSetOfWrongRunTaken => is_inside && boots(Operation::SetEntry),
            _ => false,
        }
    }

    /// The place of the entry that the call is about.
    fn place_of(&self, call: UnitCall) -> usize {
        match call.operation {
            Operation::Map => self.place_of_map(call.a),
            _ => self.place(call.a),
        }
    }

    /// What a refused call answers and leaves.
    pub fn refused(&mut self, call: UnitCall) -> [u32; 4] {
        let place = self.place_of(call);
        let is_inside = place < self.entries.len();
        let is_map = call.operation == Operation::Map;
        match (self.fault, call.operation) {
            (Fault::RefusedMapSetsFaultAddress, Operation::Map) => self.fault_address = call.a,
            (Fault::RefusedClearsFaultAddress, _) => self.fault_address = 0,
            (Fault::RefusedClearsIndex, _) => self.index = 0,
            (Fault::RefusedEndsBootMode, _) => self.boot_mode = 0,
            (Fault::RefusedDropsRun, _) => *self.entries = Rc::default(),
            (Fault::RefusedSetMade, Operation::SetEntry) if is_inside => {
                self.put(place, call.b & ENTRY)
            }
            (Fault::RefusedReadClearsJunk, Operation::LowWord | Operation::HighWord)
                if is_inside =>
            {
                self.clear_junk(place)
            }
            _ => {}
        }
        match self.fault {
            Fault::RefusedAs1 => [1, 1, 0, 0],
            Fault::RefusedAs3 => [1, 3, 0, 0],
            Fault::RefusedFormIsDone => [0, 2, 0, 0],
            Fault::RefusedAnswersFaults if is_map => [1, 2, 1, 0],
            Fault::RefusedMapAnswersItsAddress if is_map => [1, call.a, 0, 0],
            _ => [1, 2, 0, 0],
        }
    }
}
