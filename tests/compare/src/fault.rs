//! The values that the fault of a served access can have.

/// Those of walks without a leaf, in hex: 10 absent or 20 broken, before it the level of the word
/// that decided, and 1000 where that word stands in the global tree. No other is possible: absent
/// in the global tree the walk goes on, and a leaf is never broken.
pub const OF_WALKS: [u32; 7] = [0x0110, 0x0210, 0x0310, 0x0120, 0x0220, 0x1120, 0x1220];

/// The largest of the others, which carry nothing besides.
const LARGEST_OTHER: u32 = 8;

/// A point on which each fault of the program under test is judged, whatever the second one says.
pub const POSSIBLE: &str = "fault of the program: its value is at most 8 or one of a walk's seven";

pub fn is_possible(value: u32) -> bool {
    value <= LARGEST_OTHER || OF_WALKS.contains(&value)
}

/// The value as outcomes name it.
pub fn name(value: u32) -> String {
    match value {
        0..=LARGEST_OTHER => format!("fault {value}"),
        _ => format!("fault {value:04X}"),
    }
}

#[cfg(test)]
mod tests {
    use super::*;

    #[test]
    fn a_kind_without_its_level_and_a_level_without_its_kind_are_impossible() {
        for value in [9, 16, 32, 0x100, 0x108, 0x308, 0x320, 0x410, 0x1110, 0x1310] {
            assert!(!is_possible(value), "{value:X}");
        }
        assert_eq!(
            (0..=u16::MAX.into()).filter(|&n| is_possible(n)).count(),
            16
        );
        assert!(!is_possible(0x8000_0310));
    }
}
