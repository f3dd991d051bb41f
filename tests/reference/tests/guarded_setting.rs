//! The guarded settings: what is taken and what is refused with which number.

use reference::*;

fn set(number: u32, value: u32) -> (Outcome, u32) {
    let before = Registers {
        test: 1,
        cause: 31,
        ..Registers::default()
    };
    let reply = guarded_setting(before, number, value);
    assert_eq!(reply.loads, 0);
    let mut words = before.to_words();
    if reply.outcome == Outcome::Done(0) {
        words[number as usize] = value;
    }
    assert_eq!(reply.registers, Registers::from_words(words));
    match reply.outcome {
        Outcome::Refused(refusal) => (reply.outcome, refusal.number()),
        outcome => (outcome, 0),
    }
}

#[test]
fn each_setting_takes_0_and_its_largest_value() {
    let largest = [0xFFFF, 7, 1, u32::MAX, u32::MAX, 62];
    for (number, largest) in (0..6).zip(largest) {
        assert_eq!(set(number, 0).0, Outcome::Done(0));
        assert_eq!(set(number, largest).0, Outcome::Done(0));
    }
}

#[test]
fn a_switch_above_62_is_5_and_stands_before_7() {
    for value in [63, 64, 0x8000_0000, u32::MAX] {
        assert_eq!(set(5, value).1, 5);
    }
}

#[test]
fn a_value_too_large_and_every_other_number_are_7() {
    for (number, value) in [(0, 0x10000), (1, 8), (2, 2), (2, u32::MAX)] {
        assert_eq!(set(number, value).1, 7);
    }
    for number in [6, 7, 8, 9, 10, u32::MAX] {
        assert_eq!(set(number, 0).1, 7);
        assert_eq!(set(number, u32::MAX).1, 7);
    }
}

#[test]
fn a_register_field_too_large_comes_first() {
    let registers = Registers {
        test: 2,
        ..Registers::default()
    };
    for (number, value) in [(0, 0), (5, 64), (9, 0)] {
        let reply = guarded_setting(registers, number, value);
        assert_eq!(reply.outcome, Outcome::Refused(Refusal::RegisterField));
        assert_eq!(reply.registers, registers);
    }
}
