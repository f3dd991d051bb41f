//! The fields of a record.

use crate::protocol::Call;
use reference::trace::RECORD_BYTES;
use reference::SETTINGS;

pub const ACCESS: u64 = 0;
pub const STORE: u64 = 1;

/// The kind that sets each register number.
pub const SETTING_KINDS: [u64; SETTINGS] = [4, 3, 7, 5, 6, 2];

pub const USER: u64 = 8;
pub const WRITE: u64 = 4;
pub const DRAW: u64 = 3;

#[derive(Clone, Copy, Debug)]
pub struct Record {
    /// 4 bits.
    pub kind: u64,
    /// User, write and the two bits of the draw.
    pub modes: u64,
    /// 24 bits.
    pub index: u64,
    pub value: u32,
}

impl Record {
    pub fn of(call: Call) -> Record {
        let (kind, modes, index, value) = match call {
            Call::Served(access) => {
                let user = USER * u64::from(access.user);
                let write = WRITE * u64::from(access.write);
                let modes = user + write + u64::from(access.draw);
                (ACCESS, modes, 0, access.address)
            }
            Call::Store { index, value } => (STORE, 0, u64::from(index), value),
            Call::Setting { number, value } => (SETTING_KINDS[number as usize], 0, 0, value),
            other => panic!("no record asks for {other:?}"),
        };
        Record {
            kind,
            modes,
            index,
            value,
        }
    }

    pub fn from_bytes(bytes: [u8; RECORD_BYTES]) -> Record {
        let number = u64::from_be_bytes(bytes);
        Record {
            kind: number >> 60,
            modes: number >> 56 & 0xF,
            index: number >> 32 & 0xFF_FFFF,
            value: number as u32,
        }
    }

    pub fn to_bytes(self) -> [u8; RECORD_BYTES] {
        let first = self.kind << 60 | self.modes << 56 | self.index << 32;
        (first | u64::from(self.value)).to_be_bytes()
    }

    /// The register number that the kind sets.
    pub fn setting(self) -> Option<u32> {
        let number = SETTING_KINDS.iter().position(|&kind| kind == self.kind)?;
        Some(number as u32)
    }
}

#[cfg(test)]
mod tests {
    use super::*;
    use reference::trace::call_of;
    use reference::{Access, GuardedCall};

    #[test]
    fn a_call_and_the_record_that_asks_for_it() {
        let access = Access {
            address: 0x1234_5678,
            user: true,
            write: false,
            draw: 2,
        };
        let record = Record::of(Call::Served(access)).to_bytes();
        assert_eq!(call_of(record), Ok(GuardedCall::Access(access)));
        for number in 0..SETTINGS as u32 {
            let record = Record::of(Call::Setting { number, value: 9 });
            let setting = GuardedCall::Setting { number, value: 9 };
            assert_eq!(call_of(record.to_bytes()), Ok(setting));
            assert_eq!(record.setting(), Some(number));
        }
        let (index, value) = (0x12_3456, 7);
        let record = Record::of(Call::Store { index, value }).to_bytes();
        assert_eq!(call_of(record), Ok(GuardedCall::Store { index, value }));
        assert_eq!(Record::from_bytes(record).to_bytes(), record);
    }
}
