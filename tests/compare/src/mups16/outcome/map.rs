//! Outcomes of maps.

use super::{mode, Case};
use reference::mups16::{map, Entry, State, ENTRIES, PAGES, TABLES};

/// Statuses of an entry, and who maps for what: user + 2 x write.
const STATUSES: u32 = 8;
const LINES: u32 = 4;

/// The first of so many, the last, or one between.
const ENDS: [&str; 3] = ["first", "last", "middle"];

pub fn all() -> Vec<String> {
    let mut all = Vec::new();
    for boot_mode in [false, true] {
        for status in 0..STATUSES {
            all.extend((0..LINES).map(|lines| of_entry(boot_mode, status, lines)));
        }
        for table in ENDS {
            for page in ENDS {
                all.extend(ENDS.map(|offset| at(boot_mode, [table, page, offset])));
            }
        }
    }
    all
}

pub fn of(case: &Case) -> Vec<String> {
    let (call, state) = (case.call, case.state);
    let (page, offset) = (call.a / PAGES, call.a % PAGES);
    let entry = case.entry().expect("a map needs an entry");
    let status = Entry::unpack(entry).status();
    let lines = u32::from(call.user) + 2 * u32::from(call.write);
    let ends = [
        end(state.table_index, TABLES),
        end(page, PAGES),
        end(offset, PAGES),
    ];
    assert_eq!(case.faults(), faults(state.boot_mode, status, lines));
    vec![
        of_entry(state.boot_mode, status, lines),
        at(state.boot_mode, ends),
    ]
}

/// The faults that the same map would have out of boot mode.
pub fn would_be(case: &Case) -> u32 {
    let state = State {
        boot_mode: false,
        ..case.state
    };
    match map(state, case.entries, case.call.mapping()).0 {
        Ok(mapped) => mapped.faults.number(),
        Err(_) => panic!("the run is {ENTRIES} long"),
    }
}

fn of_entry(boot_mode: bool, status: u32, lines: u32) -> String {
    let [mapped, system, writable] = bits(status);
    format!(
        "map {}, mapped {mapped}, system {system}, writable {writable}, by {} {}: faults {}",
        mode(boot_mode),
        ["the system's", "a user's"][lines as usize & 1],
        ["read", "write"][lines as usize >> 1],
        faults(boot_mode, status, lines),
    )
}

fn faults(boot_mode: bool, status: u32, lines: u32) -> u32 {
    let [mapped, system, writable] = bits(status);
    let (user, write) = (lines & 1, lines >> 1);
    match boot_mode {
        true => 0,
        false => (1 - mapped) + 2 * write * (1 - writable) + 4 * user * system,
    }
}

fn bits(status: u32) -> [u32; 3] {
    [status >> 2, status >> 1 & 1, status & 1]
}

fn end(number: u32, of: u32) -> &'static str {
    match number {
        0 => ENDS[0],
        _ if number == of - 1 => ENDS[1],
        _ => ENDS[2],
    }
}

fn at(boot_mode: bool, [table, page, offset]: [&str; 3]) -> String {
    format!(
        "map {}, {table} table, {page} page, {offset} byte",
        mode(boot_mode)
    )
}
