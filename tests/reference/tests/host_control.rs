//! The start and the guarded setting over bytes: what they write, and what they refuse.

use reference::host::{guarded_setting, start, BUFFER_BYTES, REGISTER_BYTES};
use reference::*;

const REFUSED_5: u64 = 5 << 56;
const REFUSED_7: u64 = 7 << 56;

/// The largest value that each setting takes.
const LARGEST: [u32; SETTINGS] = [0xFFFF, 7, 1, u32::MAX, u32::MAX, 62];

/// Registers whose every field is at its largest value.
fn full() -> Vec<u8> {
    let words = FIELD_BITS.map(|bits| ((1u64 << bits) - 1) as u32);
    words.iter().flat_map(|word| word.to_be_bytes()).collect()
}

#[test]
fn a_start_writes_every_byte_whatever_stood_there() {
    for dirt in [0x00, 0x5A, 0xFF] {
        let mut registers = [dirt; REGISTER_BYTES];
        let mut buffer = [dirt; BUFFER_BYTES];
        assert_eq!(start(&mut registers, &mut buffer), 0);
        assert_eq!(registers, [0; REGISTER_BYTES]);
        for (slot, eight) in buffer.chunks_exact(8).enumerate() {
            let set = slot as u64 / 16;
            let number = u64::from_be_bytes(eight.try_into().unwrap());
            assert_eq!(number, set << 29 | 63 << 23, "slot {slot}");
        }
        assert_eq!(buffer[8 * 16..8 * 17], 1_065_353_216u64.to_be_bytes());
        assert_eq!(buffer[8 * 63..], 2_139_095_040u64.to_be_bytes());
    }
}

#[test]
fn a_start_is_the_start_over_words() {
    let mut registers = full();
    let mut buffer = vec![0xA5; BUFFER_BYTES];
    let mut numbers = vec![0xA5; SLOTS];
    let (done, fields) = reference::start(&mut numbers);
    assert_eq!(done, Ok(()));
    assert_eq!(start(&mut registers, &mut buffer), 0);
    let words = fields.to_words();
    let words: Vec<u8> = words.iter().flat_map(|word| word.to_be_bytes()).collect();
    let numbers: Vec<u8> = numbers.iter().flat_map(|n| n.to_be_bytes()).collect();
    assert_eq!((registers, buffer), (words, numbers));
}

#[test]
fn a_start_is_refused_for_its_lengths_alone_and_then_leaves_every_byte() {
    for (registers, buffer, number) in [
        (0, 512, 1),
        (43, 512, 1),
        (45, 512, 1),
        (512, 44, 1),
        (43, 511, 1),
        (44, 0, 2),
        (44, 44, 2),
        (44, 511, 2),
        (44, 513, 2),
    ] {
        let mut registers = vec![0xC3; registers];
        let mut buffer = vec![0x3C; buffer];
        let before = (registers.clone(), buffer.clone());
        assert_eq!(start(&mut registers, &mut buffer), number << 56);
        assert_eq!((registers, buffer), before);
    }
}

#[test]
fn each_setting_writes_its_four_bytes_alone() {
    for (number, largest) in (0..).zip(LARGEST) {
        for value in [0, largest] {
            let mut registers = full();
            let mut expected = full();
            let at = 4 * number as usize;
            expected[at..at + 4].copy_from_slice(&value.to_be_bytes());
            assert_eq!(guarded_setting(&mut registers, number, value), 0);
            assert_eq!(registers, expected, "{number} {value}");
        }
    }
}

#[test]
fn a_refused_setting_has_its_number_and_leaves_every_byte() {
    let refused = [
        (0, 0x1_0000, REFUSED_7),
        (1, 8, REFUSED_7),
        (2, 2, REFUSED_7),
        (5, 63, REFUSED_5),
        (5, 64, REFUSED_5),
        (5, u32::MAX, REFUSED_5),
        (6, 0, REFUSED_7),
        (10, 0, REFUSED_7),
        (11, 0, REFUSED_7),
        (u32::MAX, u32::MAX, REFUSED_7),
    ];
    for (number, value, answer) in refused {
        let mut registers = full();
        assert_eq!(guarded_setting(&mut registers, number, value), answer);
        assert_eq!(registers, full(), "{number} {value}");
    }
}

#[test]
fn number_1_comes_first_by_length_and_by_every_field() {
    for (number, value) in [(0, 0), (5, 63), (11, 0)] {
        for length in [0, 43, 45, 512] {
            let mut registers = vec![0; length];
            assert_eq!(guarded_setting(&mut registers, number, value), 1 << 56);
            assert_eq!(registers, vec![0; length]);
        }
        for (field, bits) in FIELD_BITS.into_iter().enumerate() {
            if bits == 32 {
                continue;
            }
            let mut registers = full();
            registers[4 * field..4 * field + 4].copy_from_slice(&(1u32 << bits).to_be_bytes());
            let before = registers.clone();
            assert_eq!(guarded_setting(&mut registers, number, value), 1 << 56);
            assert_eq!(registers, before, "{}", FIELD_NAMES[field]);
        }
    }
}
