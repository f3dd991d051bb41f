//! The program that is timed: its sums, by their formulas.

use std::io::{Read, Write};
use std::process::{Command, Stdio};

/// What the program writes, or none where it ends badly.
fn sum(scenario: u32, count: u32) -> Option<u64> {
    let mut child = Command::new(env!("CARGO_BIN_EXE_pace"))
        .stdin(Stdio::piped())
        .stdout(Stdio::piped())
        .stderr(Stdio::null())
        .spawn()
        .expect("the program starts");
    let mut input = child.stdin.take().expect("the input is a pipe");
    let request = [scenario.to_be_bytes(), count.to_be_bytes()].concat();
    input.write_all(&request).expect("the program reads");
    drop(input);
    let mut written = Vec::new();
    let mut output = child.stdout.take().expect("the output is a pipe");
    output
        .read_to_end(&mut written)
        .expect("the program writes");
    let ended_well = child.wait().expect("the program ends").success();
    match ended_well {
        true => Some(u64::from_be_bytes(written.try_into().expect("8 bytes"))),
        false => None,
    }
}

/// The frames' first addresses of the pages below a number, added up.
fn frames(pages: u64) -> u64 {
    (0..pages).map(|page| (0x100 + page) * 8192).sum()
}

#[test]
fn nothing_is_added_for_no_calls() {
    for scenario in 0..11 {
        assert_eq!(sum(scenario, 0), Some(0), "{scenario}");
    }
    assert_eq!(sum(11, 0), None);
}

#[test]
fn hits_add_the_addresses_and_no_load() {
    let once = frames(64) + 64 * 0x123;
    for scenario in [0, 1] {
        assert_eq!(sum(scenario, 64), Some(once), "{scenario}");
        assert_eq!(sum(scenario, 6400), Some(100 * once), "{scenario}");
    }
    assert_eq!(sum(0, 2), Some(2 * 0x123 + (0x200 + 7) * 8192));
}

#[test]
fn every_access_of_80_pages_in_turn_is_a_load() {
    assert_eq!(sum(2, 1), Some((0x100 + 64) * 8192 + 1));
    assert_eq!(sum(2, 80), Some(frames(80) + 80));
    assert_eq!(sum(2, 8000), Some(100 * (frames(80) + 80)));
}

#[test]
fn stores_of_software_bits_empty_nothing() {
    assert_eq!(sum(3, 100_000), Some(100_000));
}

#[test]
fn looks_add_both_halves_of_each_entry() {
    let looks = |slots: u64| -> u64 {
        (0..slots)
            .map(|page| (page * 64 + 5 + 1) + (0x28_0100 + page + 1))
            .sum()
    };
    assert_eq!(sum(4, 1), Some(looks(1)));
    assert_eq!(sum(4, 3), Some(looks(3)));
    assert_eq!(sum(4, 64), Some(looks(64)));
    assert_eq!(sum(4, 6400), Some(100 * looks(64)));
}

#[test]
fn each_take_gives_the_frame_that_was_given_just_before() {
    let all: u64 = (100_000..103_000).map(|pfn| 1 + pfn + 1).sum();
    assert_eq!(sum(5, 1), Some(1 + 100_000 + 1));
    assert_eq!(sum(5, 2), Some(2 * (1 + 100_000 + 1) + 7));
    assert_eq!(sum(5, 3000), Some(all));
    assert_eq!(sum(5, 30_000), Some(10 * all));
}

#[test]
fn the_first_maps_empty_a_slot_each_and_all_map_the_lowest_free_frame() {
    let once = 64 * (103_000 + 1 + 1);
    assert_eq!(sum(6, 1), Some(103_000 + 2 + 1));
    assert_eq!(sum(6, 64), Some(once + 64));
    assert_eq!(sum(6, 6400), Some(100 * once + 64));
}

/// What two passes and the maps of these pages add: the pages are aged, and nothing is emptied;
/// they are given back; each is mapped to its frame again.
fn round(pages: u64) -> u64 {
    let maps: u64 = (256..256 + pages).map(|pfn| pfn + 1).sum();
    1 + (1 + pages) + maps
}

#[test]
fn the_first_pass_alone_empties_the_64_slots() {
    assert_eq!(sum(7, 1), Some(round(80) + 64));
    assert_eq!(sum(7, 100), Some(100 * round(80) + 64));
}

/// The first map of each page that has a slot keeps its slot: the leaf is the same.
#[test]
fn so_it_is_with_as_many_pages_as_a_pool_has_frames() {
    assert_eq!(sum(8, 1), Some(round(4096) + 64));
    assert_eq!(sum(8, 3), Some(3 * round(4096) + 64));
}

/// The entry at a is 64a: mapped from 4,096 on, system and writable by the two bits below.
#[test]
fn maps_of_the_second_unit_add_addresses_and_faults() {
    let map = |i: u64| {
        let page = i % 256;
        let at = 256 * (i % 32) + page;
        let address = (64 * at) % 65_536 * 256 + page;
        let (mapped, system, writable) = (at / 4096, at / 2048 % 2, at / 1024 % 2);
        let write_violation = (1 - writable) * (i % 2);
        address + (1 - mapped) + 2 * write_violation + 4 * system
    };
    let maps = |count: u64| -> u64 { (0..count).map(map).sum() };
    assert_eq!(sum(9, 1), Some(1));
    assert_eq!(sum(9, 2), Some(1 + 0x40_4001 + 3));
    assert_eq!(sum(9, 256), Some(maps(256)));
    assert_eq!(sum(9, 25_600), Some(100 * maps(256)));
}

/// The entry at 7i mod 8,192 was last set in this round over the 8,192 entries where it lies at or
/// before the one that is set now, else in the round before.
#[test]
fn entries_of_the_second_unit_are_read_as_they_were_set() {
    let entry = |i: u64, other: u64| match (i / 8192 * 8192 + other).cmp(&i) {
        std::cmp::Ordering::Greater if i < 8192 => 64 * other,
        std::cmp::Ordering::Greater => i / 8192 * 8192 + other - 8192,
        _ => i / 8192 * 8192 + other,
    };
    let read = |i: u64| {
        let e = entry(i, 7 * i % 8192) % 524_288;
        1 + (e % 65_536 + 1) + (e / 65_536 + 1)
    };
    assert_eq!(sum(10, 1), Some(3));
    assert_eq!(sum(10, 2), Some(3 + 3 + 64 * 7));
    assert_eq!(sum(10, 70_000), Some((0..70_000).map(read).sum()));
    assert_eq!(sum(10, 600_000), Some((0..600_000).map(read).sum()));
}
