//! Outcomes of a register read.

use super::refused;
use reference::*;

const CALL: &str = "register read";
const NOT_CONTEXTS: &str = "register read 7, the slot's page_id is not the context's";
const NOT_CAUSES: &str = "register read 7, the slot's page_id is not the cause's";
const OWN_LOCATION: &str = "register read 7, SELECT's location is not that of the cause's vpn";
const CAUSES_LOCATION: &str = "register read 7, SELECT's location is that of the cause's vpn";

pub fn all() -> Vec<String> {
    let mut all = refused::all_sets_of_grounds(CALL, &[1, 2, 7]);
    all.extend(refused::all_fields(CALL));
    all.extend(refused::all_lengths(CALL));
    all.extend((0..10).map(without_buffer));
    all.extend(refused::all_unknown_numbers(CALL));
    all.extend((0..10).map(accepted));
    for number in [TLB_HI, TLB_LO] {
        all.extend((0..SLOTS as u32).map(|select| at_select(number, select)));
        all.extend([true, false].map(|same| as_in_registers(number, same)));
        all.extend([of_high_bits(number), of_empty(number)]);
    }
    all.extend([NOT_CONTEXTS, NOT_CAUSES, OWN_LOCATION, CAUSES_LOCATION].map(String::from));
    all
}

pub fn of(registers: Registers, buffer: &[u64], number: u32, answered: u32) -> Vec<String> {
    let checks = refused::checks_1_and_2(registers, buffer);
    let grounds = refused::grounds(&[checks[0], checks[1], check_number(number)]);
    let mut outcomes = refused::of_fields(CALL, registers, &grounds);
    outcomes.extend(refused::of_length(CALL, buffer, &grounds));
    if grounds.is_empty() {
        outcomes.push(accepted(number));
        if number == TLB_HI || number == TLB_LO {
            outcomes.extend(of_slot(registers, buffer, number, answered));
        }
        return outcomes;
    }
    outcomes.push(refused::set_of_grounds(CALL, &grounds, answered));
    match grounds[..] {
        [2] => outcomes.push(without_buffer(number)),
        [7] => outcomes.push(refused::unknown_number(CALL, number)),
        _ => {}
    }
    outcomes
}

/// The outcomes of a read that gives a part of the slot at SELECT.
fn of_slot(registers: Registers, buffer: &[u64], number: u32, answered: u32) -> Vec<String> {
    let slot = registers.select as usize;
    let entry = Entry::unpack(buffer[slot]);
    let field = registers.to_words()[number as usize];
    let mut outcomes = vec![
        at_select(number, registers.select),
        as_in_registers(number, answered == field),
    ];
    let mut note = |holds: bool, outcome: String| {
        if holds {
            outcomes.push(outcome);
        }
    };
    note(buffer[slot] >> 44 != 0, of_high_bits(number));
    note(entry == Entry::empty(slot / LOCATIONS), of_empty(number));
    if number == TLB_HI {
        let is_causes = slot % LOCATIONS == location(registers.shared_vpn());
        let page_id = entry.page_id;
        note(page_id != registers.context, NOT_CONTEXTS.to_string());
        note(
            page_id != registers.shared_page_id(),
            NOT_CAUSES.to_string(),
        );
        note(is_causes, CAUSES_LOCATION.to_string());
        note(!is_causes, OWN_LOCATION.to_string());
    }
    outcomes
}

fn accepted(number: u32) -> String {
    format!("register read {number} accepted")
}

fn without_buffer(number: u32) -> String {
    format!("register read {number} refused 2")
}

fn at_select(number: u32, select: u32) -> String {
    format!("register read {number} at SELECT {select}")
}

fn as_in_registers(number: u32, same: bool) -> String {
    let name = FIELD_NAMES[number as usize];
    match same {
        true => format!("register read {number}, the same as the registers' {name}"),
        false => format!("register read {number}, not the registers' {name}"),
    }
}

fn of_high_bits(number: u32) -> String {
    format!("register read {number} of a number with high bits")
}

fn of_empty(number: u32) -> String {
    format!("register read {number} of an empty slot")
}
