//! Both directions, one after the other: on random byte strings, and on texts in any form.

use std::collections::BTreeMap;
use tracetext::{decode::decode, encode::encode};

/// A small generator with a fixed seed, so that every run tries the same strings.
struct Random(u64);

impl Random {
    /// A number below `n`.
    fn below(&mut self, n: u64) -> u64 {
        self.0 ^= self.0 << 13;
        self.0 ^= self.0 >> 7;
        self.0 ^= self.0 << 17;
        (self.0 >> 11) % n
    }

    /// A 32-bit number: small, a single bit, or any.
    fn value(&mut self) -> u64 {
        match self.below(3) {
            0 => self.below(16),
            1 => 1 << self.below(32),
            _ => self.below(1 << 32),
        }
    }

    /// A record and the line that it must become. The line is made here, not by the tool.
    fn record(&mut self) -> (u64, String) {
        let value = self.value();
        match self.below(12) {
            0..=2 => {
                let (user, write, draw) = (self.below(2), self.below(2), self.below(4));
                let command = ["read", "write"][write as usize];
                let mode = ["supervisor", "user"][user as usize];
                (
                    user << 59 | write << 58 | draw << 56 | value,
                    format!("{command} {mode} {value:08X} draw {draw}"),
                )
            }
            3..=5 => {
                let index = self.value() & 0xFF_FFFF;
                (
                    1 << 60 | index << 32 | value,
                    format!("store {index:X} {value:08X}"),
                )
            }
            6..=9 => {
                let kind = 2 + self.below(6);
                let names = ["context", "ctrl", "kseg", "kbase_lo", "kbase_hi", "enable"];
                let name = names[kind as usize - 2];
                (kind << 60 | value, format!("{name} {value:X}"))
            }
            10 => {
                // One bit too many: a setting with an index or with user, write or draw.
                let word = (2 + self.below(6)) << 60 | 1 << (32 + self.below(28)) | value;
                (word, format!("record {word:016X}"))
            }
            _ => {
                // A kind above 7, with anything behind.
                let word = 1 << 63 | self.below(1 << 31) << 32 | value;
                (word, format!("record {word:016X}"))
            }
        }
    }
}

#[test]
fn random_byte_strings_come_back() {
    let mut random = Random(0x0C1E_1A50_0100_0001);
    let mut seen: BTreeMap<String, usize> = BTreeMap::new();
    for round in 0..20_000 {
        let length = if round <= 200 {
            round
        } else {
            random.below(201) as usize
        };
        let mut bytes = Vec::new();
        let mut text = String::new();
        while bytes.len() < length {
            let (word, mut line) = random.record();
            let piece = &word.to_be_bytes()[..8.min(length - bytes.len())];
            if piece.len() < 8 {
                let digits = format!("{word:016X}");
                line = format!("tail {}", &digits[..2 * piece.len()]);
            }
            bytes.extend(piece);
            *seen
                .entry(line.split(' ').next().unwrap().to_string())
                .or_default() += 1;
            text += &line;
            text += "\n";
        }
        assert_eq!(bytes.len(), length);
        assert_eq!(decode(&bytes), text, "{bytes:02X?}");
        assert_eq!(encode(text.as_bytes()), Ok(bytes), "{text}");
    }
    // Every command came, and often.
    assert_eq!(seen.len(), 11, "{seen:?}");
    assert!(seen.values().all(|&n| n > 5_000), "{seen:?}");
}

#[test]
fn bytes_without_any_form_come_back() {
    let mut random = Random(0x0C1E_1A50_0200_0001);
    for round in 0..20_000 {
        let bytes: Vec<u8> = (0..round % 201)
            .map(|i| match random.below(4) {
                // First bytes of every kind, and zeros behind, so that some are well-formed.
                0 if i % 8 == 0 => (random.below(9) << 4) as u8,
                0 | 1 => 0,
                _ => random.below(256) as u8,
            })
            .collect();
        let text = decode(&bytes);
        assert_eq!(encode(text.as_bytes()), Ok(bytes), "{text}");
    }
}

#[test]
fn texts_become_canonical() {
    for (text, canonical) in [
        ("", ""),
        ("# nothing\n\n", ""),
        ("read user 2abc", "read user 00002ABC draw 0\n"),
        (
            "write supervisor 0x0000000fff draw 0003",
            "write supervisor 00000FFF draw 3\n",
        ),
        ("store 0x0004 d0", "store 4 000000D0\n"),
        ("store ffffff 0", "store FFFFFF 00000000\n"),
        ("context 03f # 63\r\nctrl 8", "context 3F\nctrl 8\n"),
        ("kseg 0", "kseg 0\n"),
        ("kbase_lo 00ABCDEF", "kbase_lo ABCDEF\n"),
        ("kbase_hi ffffffff", "kbase_hi FFFFFFFF\n"),
        ("enable\t01", "enable 1\n"),
        ("record 1000000580000001", "store 5 80000001\n"),
        ("record 0f00000000000000", "write user 00000000 draw 3\n"),
        ("record 0f00000100000000", "record 0F00000100000000\n"),
        (
            "record f000000000000000\ntail 0a",
            "record F000000000000000\ntail 0A\n",
        ),
    ] {
        let bytes = encode(text.as_bytes()).expect(text);
        assert_eq!(decode(&bytes), canonical, "{text}");
        assert_eq!(encode(canonical.as_bytes()), Ok(bytes), "{text}");
    }
}
