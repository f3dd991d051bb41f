//! Faulty settings.

use super::{all_show, is_accepted, refuse, Fault};
use crate::cases::state;
use crate::host::case::{Answer, Case};
use crate::protocol::Call;
use reference::FIELD_BITS;

const KBASE_HI: u32 = 4;
const CONTEXT: u32 = 5;

fn number_and_value(case: &Case) -> (u32, u32) {
    match case.call {
        Call::Setting { number, value } => (number, value),
        other => panic!("{other:?} is no setting"),
    }
}

/// The registers with this value at this number, where they have such bytes.
fn set(answer: &mut Answer, number: usize, value: u32) {
    if let Some(four) = answer.runs.registers.get_mut(4 * number..4 * number + 4) {
        four.copy_from_slice(&value.to_be_bytes());
    }
}

/// The setting as it would be accepted.
fn accept(answer: &mut Answer, number: u32, value: u32) {
    answer.number = 0;
    set(answer, number as usize, value);
}

#[test]
fn every_faulty_setting_shows() {
    let faults: [(&str, Fault); 14] = [
        ("CONTEXT 63 is taken", |case, answer| {
            if answer.number == 5 << 56 && number_and_value(case) == (CONTEXT, 63) {
                accept(answer, CONTEXT, 63);
            }
        }),
        ("CONTEXT 62 is refused", |case, answer| {
            if is_accepted(answer) && number_and_value(case) == (CONTEXT, 62) {
                refuse(case, answer, 5);
            }
        }),
        ("7 before 5", |case, answer| {
            if answer.number == 5 << 56 && number_and_value(case).1 > 63 {
                answer.number = 7 << 56;
            }
        }),
        ("KBASE_HI has 16 bits", |case, answer| {
            let (number, value) = number_and_value(case);
            if is_accepted(answer) && number == KBASE_HI && value > 0xFFFF {
                refuse(case, answer, 7);
            }
        }),
        ("SELECT is a setting", |case, answer| {
            if let (7, (6, value @ 0..=63)) = (answer.number >> 56, number_and_value(case)) {
                accept(answer, 6, value);
            }
        }),
        ("a value one too large is taken", |case, answer| {
            let (number, value) = number_and_value(case);
            let is_refused = answer.number == 7 << 56 && number < CONTEXT;
            if is_refused && value == 1 << FIELD_BITS[number as usize] {
                accept(answer, number, value);
            }
        }),
        ("a value is cut to its bits", |case, answer| {
            let (number, value) = number_and_value(case);
            if answer.number == 7 << 56 && number < CONTEXT {
                accept(
                    answer,
                    number,
                    value & state::largest(FIELD_BITS[number as usize]),
                );
            }
        }),
        ("a number is cut to eight bits", |case, answer| {
            let (number, value) = number_and_value(case);
            if answer.number == 7 << 56 && number > 0xFF && number & 0xFF < 3 && value == 0 {
                accept(answer, number & 0xFF, value);
            }
        }),
        ("the fields are not looked at", |case, answer| {
            let (number, value) = number_and_value(case);
            if answer.number == 1 << 56 && case.runs.registers.len() == 44 && number < 5 {
                accept(answer, number, value);
            }
        }),
        ("registers of one byte more are taken", |case, answer| {
            let (number, value) = number_and_value(case);
            if case.runs.registers.len() == 45 && number < 5 {
                accept(answer, number, value);
            }
        }),
        ("bytes the other way round", |case, answer| {
            let (number, value) = number_and_value(case);
            if is_accepted(answer) {
                accept(answer, number, value.swap_bytes());
            }
        }),
        ("the next register is written too", |case, answer| {
            let (number, value) = number_and_value(case);
            if is_accepted(answer) {
                set(answer, number as usize + 1, value);
            }
        }),
        ("a refused setting is written", |case, answer| {
            let (number, value) = number_and_value(case);
            if !is_accepted(answer) && number <= CONTEXT {
                set(answer, number as usize, value);
            }
        }),
        ("the answer is the value", |case, answer| {
            if is_accepted(answer) {
                answer.number = number_and_value(case).1.into();
            }
        }),
    ];
    all_show(&faults, |call| matches!(call, Call::Setting { .. }));
}
