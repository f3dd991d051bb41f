//! Outcomes of a raw access.

use super::refused;
use reference::*;

const CALL: &str = "raw access";
const USER_IN_LINEAR: &str = "raw access, user in a segment set to linear";
const SUPERVISOR_PAGED: &str = "raw access, supervisor in a segment not set to linear";
const CONTEXT_63: &str = "raw access, context 63 asks the buffer";
const GLOBAL: &str = "raw access, one hit on a global entry of another page_id";
const EMPTY: &str = "raw access, one hit on an empty slot";
const HIGH_BITS: &str = "raw access, one hit on a number with high bits";
const NOT_VALID: &str = "raw access, one hit on an entry not valid";
const NOT_VALID_MISS: &str = "raw access, miss over an entry not valid, inv_exc off";
const ELSEWHERE: &str = "raw access, miss with a matching entry at another location";

pub fn all() -> Vec<String> {
    let mut all = refused::all_sets_of_grounds(CALL, &[1, 2, 4]);
    all.extend(refused::all_fields(CALL));
    all.extend(refused::all_lengths(CALL));
    all.extend(refused::all_draws(CALL));
    for row in [(0, 0), (0, 1), (1, 0), (1, 1)] {
        all.push(in_row(row));
        all.extend(all_translations().map(|translation| translation_in_row(row, translation)));
    }
    all.extend((0..16).map(linear_segment));
    all.extend((0..4).map(mode));
    all.extend((0..SETS).map(hit_in_set));
    all.extend((0..SETS as u32).map(miss_with_draw));
    all.extend((2..=SETS).map(several_hits));
    all.extend((0..15).map(|bit| miss_by("vpn15", bit)));
    all.extend((0..6).map(|bit| miss_by("page_id", bit)));
    let single = [
        USER_IN_LINEAR,
        SUPERVISOR_PAGED,
        CONTEXT_63,
        GLOBAL,
        EMPTY,
        HIGH_BITS,
        NOT_VALID,
        NOT_VALID_MISS,
        ELSEWHERE,
    ];
    all.extend(single.map(String::from));
    all
}

/// One of each kind of translation, with every sum on one hit.
fn all_translations() -> impl Iterator<Item = Translation> {
    let (slot, address) = (0, 0);
    let one_hit = move |value| Translation::OneHit {
        slot,
        address,
        value,
    };
    [
        Translation::Linear { address },
        Translation::Miss,
        Translation::SeveralHits,
    ]
    .into_iter()
    .chain((0..8).map(one_hit))
}

pub fn of(registers: Registers, buffer: &[u64], access: Access, number: u32) -> Vec<String> {
    let checks = refused::checks_1_and_2(registers, buffer);
    let grounds = refused::grounds(&[checks[0], checks[1], check_draw(access.draw)]);
    let mut outcomes = refused::of_fields(CALL, registers, &grounds);
    outcomes.extend(refused::of_length(CALL, buffer, &grounds));
    if grounds.is_empty() {
        outcomes.extend(of_accepted(registers, buffer, access));
        return outcomes;
    }
    outcomes.push(refused::set_of_grounds(CALL, &grounds, number));
    if grounds == [4] {
        outcomes.push(refused::draw_of(CALL, access.draw));
    }
    outcomes
}

fn of_accepted(registers: Registers, buffer: &[u64], access: Access) -> Vec<String> {
    let row = (registers.enable, registers.test);
    let translation = translate(registers, buffer, access);
    let mut outcomes = vec![
        in_row(row),
        translation_in_row(row, translation),
        mode(2 * u32::from(access.user) + u32::from(access.write)),
    ];
    let segment = segment(access.address);
    match (registers.segment_is_linear(segment), access.user) {
        (true, false) => {
            outcomes.push(linear_segment(segment));
            return outcomes;
        }
        (true, true) => outcomes.push(USER_IN_LINEAR.to_string()),
        (false, false) => outcomes.push(SUPERVISOR_PAGED.to_string()),
        (false, true) => {}
    }
    if registers.context == 63 {
        outcomes.push(CONTEXT_63.to_string());
    }
    let hits = hits(registers, buffer, vpn(access.address));
    match hits[..] {
        [] => outcomes.extend(of_miss(registers, buffer, access)),
        [slot] => outcomes.extend(of_one_hit(registers, buffer, slot)),
        _ => outcomes.push(several_hits(hits.len())),
    }
    outcomes
}

fn of_one_hit(registers: Registers, buffer: &[u64], slot: usize) -> Vec<String> {
    let set = slot / LOCATIONS;
    let entry = Entry::unpack(buffer[slot]);
    let mut outcomes = vec![hit_in_set(set)];
    let mut note = |holds: bool, outcome: &str| {
        if holds {
            outcomes.push(outcome.to_string());
        }
    };
    note(entry.page_id != registers.context, GLOBAL);
    note(entry == Entry::empty(set), EMPTY);
    note(buffer[slot] >> 44 != 0, HIGH_BITS);
    note(!entry.valid, NOT_VALID);
    outcomes
}

fn of_miss(registers: Registers, buffer: &[u64], access: Access) -> Vec<String> {
    let mut outcomes = Vec::new();
    if registers.enable + registers.test > 0 {
        outcomes.push(miss_with_draw(access.draw));
    }
    let vpn = vpn(access.address);
    for slot in slots_of(location(vpn)) {
        let entry = Entry::unpack(buffer[slot]);
        outcomes.extend(nearly_hit(registers, entry, vpn));
    }
    if buffer
        .iter()
        .any(|&number| is_hit(registers, Entry::unpack(number), vpn))
    {
        outcomes.push(ELSEWHERE.to_string());
    }
    outcomes
}

/// The one thing that keeps a slot of the page's location from being a hit.
fn nearly_hit(registers: Registers, entry: Entry, vpn: u32) -> Option<String> {
    let may_answer = entry.valid || registers.inv_exc();
    let vpn15_bits = entry.vpn15 ^ vpn15(vpn);
    let page_id_bits = match entry.global {
        true => 0,
        false => entry.page_id ^ registers.context,
    };
    match (may_answer, vpn15_bits, page_id_bits) {
        (false, 0, 0) => Some(NOT_VALID_MISS.to_string()),
        (true, bits, 0) if bits.is_power_of_two() => Some(miss_by("vpn15", bits.ilog2())),
        (true, 0, bits) if bits.is_power_of_two() => Some(miss_by("page_id", bits.ilog2())),
        _ => None,
    }
}

fn in_row((enable, test): (u32, u32)) -> String {
    format!("raw access, row {enable} {test}")
}

fn translation_in_row(row: (u32, u32), translation: Translation) -> String {
    let translation = match translation {
        Translation::Linear { .. } => "linear".to_string(),
        Translation::OneHit { value, .. } => format!("one hit, sum {value}"),
        Translation::Miss => "miss".to_string(),
        Translation::SeveralHits => "several hits".to_string(),
    };
    format!("{}, {translation}", in_row(row))
}

fn linear_segment(segment: u32) -> String {
    format!("raw access, linear segment {segment}")
}

fn mode(mode: u32) -> String {
    let names = [
        "supervisor read",
        "supervisor write",
        "user read",
        "user write",
    ];
    format!("raw access, {}", names[mode as usize])
}

fn hit_in_set(set: usize) -> String {
    format!("raw access, one hit in set {set}")
}

fn several_hits(hits: usize) -> String {
    format!("raw access, {hits} hits")
}

fn miss_with_draw(draw: u32) -> String {
    format!("raw access, miss selects by draw {draw}")
}

fn miss_by(field: &str, bit: u32) -> String {
    format!("raw access, miss by {field} bit {bit} alone")
}
