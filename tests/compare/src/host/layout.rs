//! The 64-bit answer of a C call, made from the answer that the same call on numbers gives and taken
//! apart to it, and the fault that a served access's answer tells of.

use super::case::{self, numbers_of_bytes, words_of_bytes};
use crate::expected::{AT, DONE, FAULT, REFUSED};
use crate::protocol::{Answer, Call};

/// "Bits 0 to 31 the address, or the slots emptied by a store; 32 to 47 the exception or fault
/// value; 48 to 51 the loads; 52 there is an address; 53 it interrupts; 54 there was an exception
/// or fault; 56 to 63 the refusal's number, all else then 0."
pub fn number_of(call: Call, answer: &Answer) -> u64 {
    let [form, value, third, fourth] = answer.words.map(u64::from);
    match call {
        Call::Raw(_) => match form {
            0 | 1 => (form << 52) + value + (third << 53) + (fourth << 32),
            _ => value << 56,
        },
        _ => match answer.words[0] {
            AT => (1 << 52) + (third << 48) + value,
            FAULT => (1 << 54) + (third << 48) + (value << 32),
            DONE => value,
            _ => value << 56,
        },
    }
}

/// What a call of a sequence on numbers would have answered, but for the tables.
pub fn answer_of(answer: &case::Answer) -> Answer {
    let number = answer.number;
    let low = number as u32;
    let value = (number >> 32) as u32 & 0xFFFF;
    let loads = (number >> 48) as u32 & 15;
    let registers = words_of_bytes(&answer.runs.registers);
    Answer {
        words: match number >> 52 {
            1 => [AT, low, loads, 0],
            4 => [FAULT, value, loads, 0],
            0 => [DONE, low, loads, 0],
            _ => [REFUSED, (number >> 56) as u32, 0, 0],
        },
        registers: registers.try_into().expect("the registers are 44 bytes"),
        pool: None,
        state: None,
        buffer: numbers_of_bytes(&answer.runs.buffer),
        tables: Vec::new(),
    }
}

/// The fault's value in an answer of the program under test, where the call is a served access and
/// the answer tells of a fault.
pub fn fault_of(call: Call, number: u64) -> Option<u32> {
    let is_fault = number >> 54 == 1;
    match call {
        Call::Served(_) if is_fault => Some((number >> 32) as u32 & 0xFFFF),
        _ => None,
    }
}

#[cfg(test)]
mod tests {
    use super::*;
    use reference::Access;

    #[test]
    fn an_answer_is_taken_apart_to_that_of_the_call_on_numbers() {
        for (number, words) in [
            (0x0011_0000_0000_2ABC, [AT, 0x2ABC, 1, 0]),
            (0x0041_0008_0000_0000, [FAULT, 8, 1, 0]),
            (0x0040_1220_0000_0000, [FAULT, 0x1220, 0, 0]),
            (0x0000_0000_0000_0040, [DONE, 64, 0, 0]),
            (0x0500_0000_0000_0000, [REFUSED, 5, 0, 0]),
        ] {
            let runs = case::Runs {
                registers: (0..44).collect(),
                buffer: (1..9).collect(),
                tables: vec![1],
            };
            let answer = answer_of(&case::Answer { number, runs });
            assert_eq!(answer.words, words, "{number:X}");
            assert_eq!(answer.registers[10], 0x2829_2A2B);
            assert_eq!(answer.buffer, [0x0102_0304_0506_0708]);
        }
    }

    #[test]
    fn a_fault_is_told_of_by_bit_54_of_a_served_access_that_is_not_refused() {
        let access = Access {
            address: 0,
            user: false,
            write: false,
            draw: 0,
        };
        for (number, fault) in [
            (0x0040_1220_0000_0000, Some(0x1220)),
            (0x0041_0008_0000_0000, Some(8)),
            (0x0040_F310_0000_0000, Some(0xF310)),
            (0x0011_0000_0000_2ABC, None),
            (0x0300_0000_0000_0000, None),
        ] {
            assert_eq!(fault_of(Call::Served(access), number), fault, "{number:X}");
            assert_eq!(fault_of(Call::Raw(access), number), None);
        }
    }
}
