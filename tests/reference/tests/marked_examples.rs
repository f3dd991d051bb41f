//! Document 01's marked examples, by their numbers there.

use reference::*;

const ALL_ENABLES: u32 = 7;

fn start_buffer() -> Vec<u64> {
    let mut buffer = vec![u64::MAX; SLOTS];
    assert_eq!(start(&mut buffer), (Ok(()), Registers::default()));
    buffer
}

fn matching_entry(valid: bool) -> Entry {
    Entry {
        vpn15: 2,
        page_id: 5,
        global: false,
        valid,
        kernel: true,
        we: false,
        pfn: 0x123,
    }
}

/// The value of a user write to page 0x21 with the given entries in sets 0, 1, and so on.
fn value_of_user_write(ctrl: u32, entries: &[Entry]) -> u32 {
    let registers = Registers {
        ctrl,
        enable: 1,
        context: 5,
        ..Registers::default()
    };
    let mut buffer = start_buffer();
    for (set, entry) in entries.iter().enumerate() {
        buffer[slot(set, 1)] = entry.pack();
    }
    let access = Access {
        address: 0x21 * 8192,
        user: true,
        write: true,
        draw: 3,
    };
    let (answer, _) = raw_access(registers, &buffer, access);
    let answer = answer.unwrap();
    assert!(answer.exception && answer.interrupt && answer.address.is_none());
    answer.value
}

fn access_of_examples_6_to_8(address: u32, user: bool) -> (RawAnswer, Registers) {
    let registers = Registers {
        kseg: 0x1800,
        kbase_hi: 0x0007_B000,
        enable: 1,
        ..Registers::default()
    };
    let access = Access {
        address,
        user,
        write: false,
        draw: 2,
    };
    let (answer, registers) = raw_access(registers, &start_buffer(), access);
    (answer.unwrap(), registers)
}

#[test]
fn examples_1_and_2_slots_of_a_page() {
    assert_eq!(slots_of(location(15)), [15, 31, 47, 63]);
    assert_eq!(slots_of(location(16)), [0, 16, 32, 48]);
}

#[test]
fn examples_3_and_4_empty_slots() {
    let buffer = start_buffer();
    assert_eq!(buffer[16], 1_065_353_216);
    assert_eq!(buffer[63], 2_139_095_040);
}

#[test]
fn example_5_an_own_leaf_loaded() {
    let mut words = vec![0; 2048];
    words[5] = 0x8000_0001;
    words[512] = 0x8000_0001;
    words[1025] = 0xD000_0123;
    let registers = Registers {
        enable: 1,
        context: 5,
        ..Registers::default()
    };
    let mut buffer = start_buffer();
    let access = Access {
        address: 8192,
        user: false,
        write: false,
        draw: 1,
    };
    let reply = served_access(registers, &mut buffer, &words, access);
    assert_eq!((reply.outcome, reply.loads), (Outcome::At(0x123 * 8192), 1));
    assert_eq!(buffer[slot(1, 1)], 0x02A8_0123);
}

#[test]
fn examples_6_and_7_linear_segments() {
    let (answer, _) = access_of_examples_6_to_8(0xC000_1234, false);
    assert_eq!(answer.address, Some(0x7000_1234));
    let (answer, _) = access_of_examples_6_to_8(0xB000_0010, false);
    assert_eq!(answer.address, Some(0xB000_0010));
}

#[test]
fn example_8_user_mode_ignores_the_segments() {
    let (answer, registers) = access_of_examples_6_to_8(0xC000_1234, true);
    assert_eq!(answer.value, 8);
    assert_eq!(registers.shared_vpn(), 0x60000);
    assert_eq!(registers.select, 32);
}

#[test]
fn examples_9_to_11_one_matching_entry() {
    assert_eq!(value_of_user_write(ALL_ENABLES, &[matching_entry(true)]), 3);
    assert_eq!(
        value_of_user_write(ALL_ENABLES, &[matching_entry(false)]),
        7
    );
    assert_eq!(value_of_user_write(3, &[matching_entry(false)]), 8);
}

#[test]
fn example_12_two_matching_entries() {
    assert_eq!(
        value_of_user_write(ALL_ENABLES, &[matching_entry(true); 2]),
        0
    );
}

#[test]
fn example_13_the_location_comes_from_select() {
    let registers = Registers {
        enable: 1,
        select: 18,
        ..Registers::default()
    };
    let mut buffer = start_buffer();
    let (done, registers) = write_register(registers, &mut buffer, 7, 0x12345 * 64);
    assert_eq!(done, Ok(()));
    let valid_frame_9 = (1 << 21) | 9;
    let (done, registers) = write_register(registers, &mut buffer, 8, valid_frame_9);
    assert_eq!(done, Ok(()));
    for page in 0x12340..0x12350 {
        let access = Access {
            address: page * 8192 + 7,
            user: false,
            write: false,
            draw: 0,
        };
        let answer = raw_access(registers, &buffer, access).0.unwrap();
        let expected = (page == 0x12342).then_some(9 * 8192 + 7);
        assert_eq!(answer.address, expected, "page {page:X}");
    }
}
