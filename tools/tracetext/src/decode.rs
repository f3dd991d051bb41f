//! Records to text, in the form that every text of the same records has: its canonical text.

use crate::records::{LENGTH, Record};

/// The text of a trace. Every byte string has one, and encoding it gives the same bytes.
pub fn decode(bytes: &[u8]) -> String {
    let mut text = String::new();
    for piece in bytes.chunks(LENGTH) {
        match piece.try_into() {
            Ok(record) => text += &line(Record::from_bytes(record)),
            Err(_) => text += &format!("tail {}", hex(piece)),
        }
        text.push('\n');
    }
    text
}

/// A record's line, without its end.
fn line(record: Record) -> String {
    match record {
        Record::Access {
            write,
            user,
            address,
            draw,
        } => {
            let command = if write { "write" } else { "read" };
            let mode = if user { "user" } else { "supervisor" };
            format!("{command} {mode} {address:08X} draw {draw}")
        }
        Record::Store { index, value } => format!("store {index:X} {value:08X}"),
        Record::Setting { setting, value } => format!("{} {value:X}", setting.name),
        Record::Plain(bytes) => format!("record {}", hex(&bytes)),
    }
}

/// Bytes as capital digits, two each.
fn hex(bytes: &[u8]) -> String {
    bytes.iter().map(|byte| format!("{byte:02X}")).collect()
}

#[cfg(test)]
mod tests {
    use super::*;

    #[test]
    fn each_command_at_its_limits() {
        for (word, line) in [
            (0x1000_0000_0000_0000u64, "store 0 00000000"),
            (0x1000_0001_0000_000A, "store 1 0000000A"),
            (0x10FF_FFFF_FFFF_FFFF, "store FFFFFF FFFFFFFF"),
            (0, "read supervisor 00000000 draw 0"),
            (0x0B00_0000_FFFF_FFFF, "read user FFFFFFFF draw 3"),
            (0x0500_0000_0000_2ABC, "write supervisor 00002ABC draw 1"),
            (0x0E00_0000_ABCD_EF01, "write user ABCDEF01 draw 2"),
            (0x2000_0000_0000_0000, "context 0"),
            (0x2000_0000_0000_003F, "context 3F"),
            (0x3000_0000_0000_0008, "ctrl 8"),
            (0x4000_0000_0000_FFFF, "kseg FFFF"),
            (0x5000_0000_0123_4567, "kbase_lo 1234567"),
            (0x6000_0000_FFFF_FFFF, "kbase_hi FFFFFFFF"),
            (0x7000_0000_0000_0001, "enable 1"),
            (0x0000_0001_0000_0000, "record 0000000100000000"),
            (0x0080_0000_0000_0000, "record 0080000000000000"),
            (0x1100_0000_0000_0000, "record 1100000000000000"),
            (0x1400_0000_0000_0000, "record 1400000000000000"),
            (0x1800_0000_0000_0000, "record 1800000000000000"),
            (0x2000_0001_0000_0000, "record 2000000100000000"),
            (0x7200_0000_0000_0001, "record 7200000000000001"),
            (0x8000_0000_0000_0000, "record 8000000000000000"),
            (u64::MAX, "record FFFFFFFFFFFFFFFF"),
        ] {
            assert_eq!(decode(&word.to_be_bytes()), format!("{line}\n"));
        }
    }

    #[test]
    fn a_last_piece_is_a_tail() {
        assert_eq!(decode(&[]), "");
        assert_eq!(decode(&[0]), "tail 00\n");
        assert_eq!(
            decode(&[0x70, 0, 0, 0, 0, 0, 0, 1, 0x0A, 0xBC]),
            "enable 1\ntail 0ABC\n"
        );
        assert_eq!(decode(&[0xFE; 7]), "tail FEFEFEFEFEFEFE\n");
    }
}
