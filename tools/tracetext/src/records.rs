//! Records: the eight bytes of each, and what they ask for.
//!
//! A record is, most significant first: kind 4 bits, user 1, write 1, draw 2, index 24, value 32.

/// Bytes of a record.
pub const LENGTH: usize = 8;
/// The largest store index that the record's field holds.
pub const MAX_INDEX: u32 = 0xFF_FFFF;
/// The largest draw that the record's field holds.
pub const MAX_DRAW: u8 = 3;

const ACCESS: u8 = 0;
const STORE: u8 = 1;

/// A guarded setting: its name in the text and the kind of its records.
#[derive(Clone, Copy, Debug, PartialEq, Eq)]
pub struct Setting {
    pub name: &'static str,
    kind: u8,
}

/// All guarded settings.
pub const SETTINGS: [Setting; 6] = [
    Setting {
        name: "context",
        kind: 2,
    },
    Setting {
        name: "ctrl",
        kind: 3,
    },
    Setting {
        name: "kseg",
        kind: 4,
    },
    Setting {
        name: "kbase_lo",
        kind: 5,
    },
    Setting {
        name: "kbase_hi",
        kind: 6,
    },
    Setting {
        name: "enable",
        kind: 7,
    },
];

impl Setting {
    /// The setting with this name.
    pub fn named(name: &[u8]) -> Option<Setting> {
        SETTINGS.into_iter().find(|s| s.name.as_bytes() == name)
    }

    /// The setting whose records have this kind.
    fn of_kind(kind: u8) -> Option<Setting> {
        SETTINGS.into_iter().find(|s| s.kind == kind)
    }
}

/// A record, taken apart. Whether the unit refuses its values is not asked here.
#[derive(Clone, Copy, Debug, PartialEq, Eq)]
pub enum Record {
    Access {
        write: bool,
        user: bool,
        address: u32,
        draw: u8,
    },
    Store {
        index: u32,
        value: u32,
    },
    Setting {
        setting: Setting,
        value: u32,
    },
    /// Eight bytes as they are. Taking bytes apart gives this only where they are malformed.
    Plain([u8; LENGTH]),
}

impl Record {
    /// The record's eight bytes. Fields must fit: index up to MAX_INDEX, draw up to MAX_DRAW.
    pub fn to_bytes(self) -> [u8; LENGTH] {
        match self {
            Record::Access {
                write,
                user,
                address,
                draw,
            } => {
                let flags = u8::from(user) << 3 | u8::from(write) << 2 | draw;
                join(ACCESS, flags, 0, address)
            }
            Record::Store { index, value } => join(STORE, 0, index, value),
            Record::Setting { setting, value } => join(setting.kind, 0, 0, value),
            Record::Plain(bytes) => bytes,
        }
    }

    /// Takes eight bytes apart: document 01's rule of well-formed records decides.
    pub fn from_bytes(bytes: [u8; LENGTH]) -> Record {
        let word = u64::from_be_bytes(bytes);
        let kind = bytes[0] >> 4;
        let flags = bytes[0] & 0xF;
        let index = (word >> 32) as u32 & MAX_INDEX;
        let value = word as u32;
        match (kind, flags, index) {
            (ACCESS, _, 0) => Record::Access {
                write: flags & 4 != 0,
                user: flags & 8 != 0,
                address: value,
                draw: flags & MAX_DRAW,
            },
            (STORE, 0, _) => Record::Store { index, value },
            (_, 0, 0) => match Setting::of_kind(kind) {
                Some(setting) => Record::Setting { setting, value },
                None => Record::Plain(bytes),
            },
            _ => Record::Plain(bytes),
        }
    }
}

/// Puts the fields together; `flags` are user, write and draw.
fn join(kind: u8, flags: u8, index: u32, value: u32) -> [u8; LENGTH] {
    let first = u64::from(kind << 4 | flags);
    (first << 56 | u64::from(index) << 32 | u64::from(value)).to_be_bytes()
}

#[cfg(test)]
mod tests {
    use super::*;

    fn take(word: u64) -> Record {
        Record::from_bytes(word.to_be_bytes())
    }

    #[test]
    fn the_worked_example_is_taken_apart() {
        let access = |write, address, draw| Record::Access {
            write,
            user: true,
            address,
            draw,
        };
        let store = |index, value| Record::Store { index, value };
        let setting = |name: &str, value| Record::Setting {
            setting: Setting::named(name.as_bytes()).unwrap(),
            value,
        };
        for (word, record) in [
            (0x1000_0005_8000_0001, store(5, 0x8000_0001)),
            (0x1000_0401_D000_0123, store(0x401, 0xD000_0123)),
            (0x2000_0000_0000_0005, setting("context", 5)),
            (0x7000_0000_0000_0001, setting("enable", 1)),
            (0x0A00_0000_0000_2ABC, access(false, 0x2ABC, 2)),
            (0x0C00_0000_0000_2ABC, access(true, 0x2ABC, 0)),
            (0x0900_0000_0000_4000, access(false, 0x4000, 1)),
        ] {
            assert_eq!(take(word), record);
            assert_eq!(record.to_bytes(), u64::to_be_bytes(word));
        }
    }

    #[test]
    fn every_kind_and_flag_with_and_without_index() {
        for first in 0..=255u64 {
            for index in [0u64, 1, 0x80_0000] {
                let word = first << 56 | index << 32 | 7;
                let (kind, flags) = (first >> 4, first & 15);
                let good = match kind {
                    0 => index == 0,
                    1 => flags == 0,
                    2..=7 => flags == 0 && index == 0,
                    _ => false,
                };
                let record = take(word);
                assert_eq!(matches!(record, Record::Plain(_)), !good, "{word:016X}");
                assert_eq!(record.to_bytes(), word.to_be_bytes());
            }
        }
    }

    #[test]
    fn each_setting_has_its_kind() {
        let names = ["context", "ctrl", "kseg", "kbase_lo", "kbase_hi", "enable"];
        for (kind, name) in (2..).zip(names) {
            let setting = Setting { name, kind };
            assert_eq!(Setting::named(name.as_bytes()), Some(setting));
            assert_eq!(Setting::of_kind(kind), Some(setting));
        }
        assert_eq!(Setting::named(b"select"), None);
        assert_eq!(Setting::of_kind(1), None);
        assert_eq!(Setting::of_kind(8), None);
    }
}
