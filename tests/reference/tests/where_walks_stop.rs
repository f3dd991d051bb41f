//! Where a walk stopped, in the fault's value: of the served access, the reader, the C call, the
//! trace's line, and the report, which counts by kind alone.

mod common;

use common::*;
use reference::report::{ByCounts, Report};
use reference::*;

/// The root, the directory word and the leaf on PAGE's way.
const OWN: [usize; 3] = [ID as usize, 512, 1024 + PAGE as usize];
const GLOBAL: [usize; 3] = [GLOBAL_ROOT, 2048, 3072 + PAGE as usize];

/// Present words that are broken as a root or as a directory word: by number, by reserved bits and
/// by the stretch, which lies outside the trace program's tables too.
const BROKEN: [u32; 3] = [PRESENT, PRESENT | 1 << 16 | 1, PRESENT | 0xFFFF];
const ABSENT: [u32; 3] = [0, 1, 0x7FFF_FFFF];

/// Both trees have a leaf, valid in neither.
fn two_leaves() -> Vec<u32> {
    let mut words = Unit::new().words;
    words[OWN[2]] = PRESENT | 7;
    words[GLOBAL[2]] = PRESENT | 9;
    words
}

/// A user's write: no mode of the access matters to its walk.
fn access() -> Access {
    Access {
        address: PAGE * 8192 + 5,
        user: true,
        write: true,
        draw: 3,
    }
}

/// The fault's value in which the served access, the reader, the C call and the trace agree.
fn value(words: &[u32]) -> u32 {
    let value = value_served(words);
    assert_eq!(value_read(words), value);
    assert_eq!(answer_in_c(words) >> 32, 1 << 22 | u64::from(value));
    let text = String::from_utf8(trace::text_of(&trace_of(words))).unwrap();
    let last = text.lines().last().unwrap();
    assert!(last.ends_with(&format!(" fault {value:08X} 0")), "{last}");
    value
}

fn value_served(words: &[u32]) -> u32 {
    let mut unit = Unit::new();
    unit.words = words.to_vec();
    match unit.access(access()) {
        (Outcome::Fault(value), 0) => value,
        other => panic!("{other:?}"),
    }
}

fn value_read(words: &[u32]) -> u32 {
    let handed = Handed {
        registers: Registers::default(),
        buffer: SLOTS,
        tables: words.len(),
    };
    let mut reader = Reader::begin(words.to_vec());
    for (number, value) in [(2, 1), (5, ID)] {
        reader.hear(handed, GuardedCall::Setting { number, value });
    }
    match reader.hear(handed, GuardedCall::Access(access())) {
        Said::Fault(value) => value,
        other => panic!("{other:?}"),
    }
}

fn answer_in_c(words: &[u32]) -> u64 {
    let unit = Unit::new();
    let bytes = |words: &[u32]| -> Vec<u8> { words.iter().flat_map(|n| n.to_be_bytes()).collect() };
    let mut buffer: Vec<u8> = unit.buffer.iter().flat_map(|n| n.to_be_bytes()).collect();
    let Access { address, draw, .. } = access();
    host::served_access(
        &mut bytes(&unit.registers.to_words()),
        &mut buffer,
        &bytes(words),
        address,
        true,
        true,
        draw,
    )
}

/// Stores the words, then makes the access under ID.
fn trace_of(words: &[u32]) -> Vec<u8> {
    let stores = words
        .iter()
        .enumerate()
        .filter(|(_, &word)| word != 0)
        .map(|(index, &word)| 1 << 60 | (index as u64) << 32 | u64::from(word));
    let last = [
        2 << 60 | u64::from(ID),
        7 << 60 | 1,
        0xF << 56 | u64::from(access().address),
    ];
    stores.chain(last).flat_map(u64::to_be_bytes).collect()
}

/// How often the report counts 16 and 32 under ID.
fn counted(words: &[u32]) -> [i64; 2] {
    let Report::Totals(totals) = Report::of::<ByCounts>(&trace_of(words)[..]) else {
        panic!("no totals");
    };
    let columns = totals[ID as usize].columns();
    let faults: i64 = columns[2..12].iter().sum();
    assert_eq!((columns[0], columns[1], faults), (1, 0, 1));
    [columns[10], columns[11]]
}

/// Each of these words at each level of the own tree gives these faults, behind a global tree that
/// is absent by that word at each of its levels.
fn own_tree_stops(in_global: u32, in_own: &[u32], faults: &[u32], columns: [i64; 2]) {
    for global in GLOBAL {
        for (own, &expected) in OWN.into_iter().zip(faults) {
            for &word in in_own {
                let mut words = two_leaves();
                words[global] = in_global;
                words[own] = word;
                assert_eq!(value(&words), expected, "{global} {own} {word:X}");
                assert_eq!(counted(&words), columns);
            }
        }
    }
}

#[test]
fn absent_at_each_level_of_the_own_tree() {
    own_tree_stops(0, &ABSENT, &[0x110, 0x210, 0x310], [1, 0]);
}

#[test]
fn broken_at_either_level_of_the_own_tree() {
    own_tree_stops(0x7FFF_FFFF, &BROKEN, &[0x120, 0x220], [0, 1]);
}

#[test]
fn broken_at_either_level_of_the_global_tree_whatever_the_own_one_holds() {
    for (global, expected) in GLOBAL.into_iter().zip([0x1120, 0x1220]) {
        for word in BROKEN {
            for own in OWN {
                for in_own in [PRESENT | 1, 0, PRESENT] {
                    let mut words = two_leaves();
                    words[global] = word;
                    words[own] = in_own;
                    assert_eq!(value(&words), expected, "{global} {word:X} {own}");
                    assert_eq!(counted(&words), [0, 1]);
                }
            }
        }
    }
}

#[test]
fn a_fault_8_carries_no_place_in_either_tree() {
    for global in [PRESENT | 9, 0] {
        let mut unit = Unit::new();
        unit.words = two_leaves();
        unit.words[GLOBAL[2]] = global;
        assert_eq!(unit.access(access()), (Outcome::Fault(8), 1));
        assert_eq!(value_read(&unit.words), 8);
        assert_eq!(answer_in_c(&unit.words), 0x0041_0008_0000_0000);
    }
}
