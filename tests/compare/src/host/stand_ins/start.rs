//! Faulty starts.

use super::{all_show, cases, is_accepted, refuse, Fault};
use crate::host::case::{bytes_of_numbers, Answer};
use crate::protocol::Call;
use reference::FIELDS;

/// The slots that the fault makes of an accepted start, by their sets and locations.
fn fill(answer: &mut Answer, slot: fn(u64, u64) -> u64) {
    if is_accepted(answer) {
        let numbers: Vec<u64> = (0..64).map(|n| slot(n / 16, n % 16)).collect();
        answer.runs.buffer = bytes_of_numbers(&numbers);
    }
}

#[test]
fn every_faulty_start_shows() {
    let faults: [(&str, Fault); 14] = [
        ("set 0's empty entry in every set", |_, answer| {
            fill(answer, |_, _| 63 << 23)
        }),
        ("slots of zeros", |_, answer| fill(answer, |_, _| 0)),
        ("the location for the set", |_, answer| {
            fill(answer, |_, location| location << 29 | 63 << 23)
        }),
        ("bytes of a slot the other way round", |_, answer| {
            fill(answer, |set, _| (set << 29 | 63 << 23).swap_bytes())
        }),
        ("unused bits stay", |case, answer| {
            if is_accepted(answer) {
                for slot in 0..64 {
                    answer.runs.buffer[8 * slot] = case.runs.buffer[8 * slot];
                }
            }
        }),
        ("the last slot stays", |case, answer| {
            if is_accepted(answer) {
                answer.runs.buffer[504..].copy_from_slice(&case.runs.buffer[504..]);
            }
        }),
        ("the settings alone are made 0", |case, answer| {
            if is_accepted(answer) {
                answer.runs.registers[24..].copy_from_slice(&case.runs.registers[24..]);
            }
        }),
        ("2 before 1", |case, answer| {
            if case.runs.buffer.len() != 512 {
                answer.number = 2 << 56;
            }
        }),
        ("a field that is too large is refused", |case, answer| {
            if is_accepted(answer) && case.runs.registers[0] != 0 {
                refuse(case, answer, 1);
            }
        }),
        ("refused 1, registers made 0", |_, answer| {
            if answer.number == 1 << 56 {
                answer.runs.registers.fill(0);
            }
        }),
        ("refused 2, registers made 0", |_, answer| {
            if answer.number == 2 << 56 {
                answer.runs.registers.fill(0);
            }
        }),
        ("refused, buffer made 0", |_, answer| {
            if !is_accepted(answer) {
                answer.runs.buffer.fill(0);
            }
        }),
        ("registers of one byte more are taken", |case, answer| {
            if case.runs.registers.len() == 45 && case.runs.buffer.len() == 512 {
                answer.number = 0;
            }
        }),
        ("the refusal's number one bit too low", |_, answer| {
            answer.number >>= 1
        }),
    ];
    all_show(&faults, |call| matches!(call, Call::Start));
}

#[test]
fn a_start_that_leaves_any_register_shows() {
    let cases = cases();
    for register in 0..FIELDS {
        let bytes = 4 * register..4 * register + 4;
        let shown = cases.0.iter().any(|(case, right)| {
            matches!(case.call, Call::Start)
                && is_accepted(right)
                && case.runs.registers[bytes.clone()] != right.runs.registers[bytes.clone()]
        });
        assert!(shown, "register {register}");
    }
}
