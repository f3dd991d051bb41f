//! Outcomes of a register write.

use super::refused;
use reference::{check_number, fits, Refusal, Registers, FIELD_BITS, SLOTS};

const CALL: &str = "register write";
const OVER_HIGH_BITS: &str = "register write 8 over a number with high bits";

pub fn all() -> Vec<String> {
    let mut all = refused::all_sets_of_grounds(CALL, &[1, 2, 7]);
    all.extend(refused::all_fields(CALL));
    all.extend(refused::all_lengths(CALL));
    for (number, &bits) in (0..10).zip(&FIELD_BITS) {
        all.push(accepted(number));
        all.push(largest(number));
        if bits < 32 {
            all.push(first_too_large(number));
        }
    }
    all.extend(refused::all_unknown_numbers(CALL));
    all.extend((0..SLOTS as u32).map(at_select));
    all.push(OVER_HIGH_BITS.to_string());
    all
}

pub fn of(
    registers: Registers,
    buffer: &[u64],
    (number, value): (u32, u32),
    refused_with: u32,
) -> Vec<String> {
    let checks = refused::checks_1_and_2(registers, buffer);
    let grounds = refused::grounds(&[checks[0], checks[1], check_value(number, value)]);
    let mut outcomes = refused::of_fields(CALL, registers, &grounds);
    outcomes.extend(refused::of_length(CALL, buffer, &grounds));
    if grounds.is_empty() {
        outcomes.extend(of_accepted(registers, buffer, number, value));
        return outcomes;
    }
    outcomes.push(refused::set_of_grounds(CALL, &grounds, refused_with));
    if grounds == [7] && number > 9 {
        outcomes.push(refused::unknown_number(CALL, number));
    }
    if grounds == [7] && number <= 9 && value == 1 << FIELD_BITS[number as usize] {
        outcomes.push(first_too_large(number));
    }
    outcomes
}

fn of_accepted(registers: Registers, buffer: &[u64], number: u32, value: u32) -> Vec<String> {
    let mut outcomes = vec![accepted(number)];
    if u64::from(value) + 1 == 1u64 << FIELD_BITS[number as usize] {
        outcomes.push(largest(number));
    }
    if number == 8 {
        outcomes.push(at_select(registers.select));
        if buffer[registers.select as usize] >> 44 != 0 {
            outcomes.push(OVER_HIGH_BITS.to_string());
        }
    }
    outcomes
}

/// The ground 7, asked by itself.
fn check_value(number: u32, value: u32) -> Result<(), Refusal> {
    check_number(number)?;
    match fits(value, FIELD_BITS[number as usize]) {
        true => Ok(()),
        false => Err(Refusal::RegisterNumber),
    }
}

fn accepted(number: u32) -> String {
    format!("register write {number} accepted")
}

fn largest(number: u32) -> String {
    format!("register write {number} accepted, its largest value")
}

fn first_too_large(number: u32) -> String {
    format!("register write {number} refused 7, one past its bits")
}

fn at_select(select: u32) -> String {
    format!("register write 8 at SELECT {select}")
}
