//! A difference between the two programs, for a reader.

use crate::expected::walk_is_possible;
use crate::protocol::{Answer, Call, Request};
use reference::heap::Pool;
use reference::mups16::STATE_WORDS;
use reference::{location, slots_of, vpn, walk, Access, Walk, FIELDS, FIELD_NAMES, SELECT, SLOTS};

/// What is worth telling of the table run that a call found.
pub struct Found {
    words: usize,
    walk: Option<Walk>,
    /// The entry of the MUPS/16 unit that a call is about.
    entry: Option<u32>,
}

impl Found {
    pub fn by(request: &Request, tables: &[u32]) -> Found {
        let page = match request.call {
            Call::Walk { page_id, vpn } => Some((page_id, vpn)),
            Call::Served(access) => Some((request.registers[5], vpn(access.address))),
            _ => None,
        };
        let place = match request.call {
            Call::Mups16(call) => call.place(request.state()),
            _ => None,
        };
        Found {
            entry: place.and_then(|place| tables.get(place).copied()),
            words: tables.len(),
            walk: page
                .filter(|&(page_id, vpn)| walk_is_possible(page_id, vpn, tables))
                .map(|(page_id, vpn)| walk(tables, page_id, vpn)),
        }
    }
}

pub fn print(case: usize, request: &Request, found: &Found, expected: &Answer, got: &Answer) {
    println!("difference at case {case}: {:X?}", request.call);
    println!("  registers before: {}", registers(&request.registers));
    if let Some(pool) = &request.pool {
        println!("  pool of {} frames from pfn {} on", pool.size, pool.first);
    }
    if let Some(state) = request.state {
        println!("  state before: {}", state_text(state));
    }
    println!("  buffer of {} numbers", request.buffer.len());
    println!("  table run of {} words", found.words);
    match request.call {
        Call::Raw(access) | Call::Served(access) if request.buffer.len() == SLOTS => {
            print_slots(access, &request.buffer)
        }
        Call::Read { .. } => {
            let select = request.registers[SELECT as usize] as usize;
            if let Some(number) = request.buffer.get(select) {
                println!("  buffer[{select}] is {number:X}");
            }
        }
        _ => {}
    }
    if let Some(entry) = found.entry {
        println!("  entry before: {entry:X}");
    }
    if let Some(walk) = found.walk {
        println!("  reference walks to {walk:X?}");
    }
    println!("  reference answers {:X?}", expected.words);
    println!("  program answers   {:X?}", got.words);
    for (n, name) in FIELD_NAMES.iter().enumerate() {
        let (ours, theirs) = (expected.registers[n], got.registers[n]);
        if ours != theirs {
            println!("  {name} after: reference {ours:X}, program {theirs:X}");
        }
    }
    if let (Some(before), Some(ours), Some(theirs)) = (&request.pool, &expected.pool, &got.pool) {
        print_pool(before, ours, theirs);
    }
    if let (Some(ours), Some(theirs)) = (expected.state, got.state) {
        if ours != theirs {
            println!("  state after: reference {}", state_text(ours));
            println!("               program {}", state_text(theirs));
        }
    }
    for (n, before) in request.buffer.iter().enumerate() {
        let (ours, theirs) = (expected.buffer[n], got.buffer[n]);
        if ours != theirs {
            println!("  buffer[{n}] was {before:X}, after: reference {ours:X}, program {theirs:X}");
        }
    }
    for (n, (ours, theirs)) in expected.tables.iter().zip(&got.tables).enumerate() {
        if ours != theirs {
            println!("  table word {n}: reference {ours:X}, program {theirs:X}");
        }
    }
}

fn state_text([index, boot_mode, fault_address]: [u32; STATE_WORDS]) -> String {
    format!("table index {index:X}, boot mode {boot_mode:X}, fault address {fault_address:X}")
}

fn print_pool(before: &Pool, ours: &Pool, theirs: &Pool) {
    if (ours.first, ours.size) != (theirs.first, theirs.size) {
        println!(
            "  pool after: reference {} frames from pfn {} on, program {} from {} on",
            ours.size, ours.first, theirs.size, theirs.first
        );
    }
    for (n, before) in before.bits.iter().enumerate() {
        let (ours, theirs) = (ours.bits[n], theirs.bits[n]);
        if ours != theirs {
            println!("  bits[{n}] were {before:X}, after: reference {ours:X}, program {theirs:X}");
        }
    }
}

/// The four slots that the access searches.
fn print_slots(access: Access, buffer: &[u64]) {
    for slot in slots_of(location(vpn(access.address))) {
        println!("  buffer[{slot}] is {:X}", buffer[slot]);
    }
}

fn registers(words: &[u32; FIELDS]) -> String {
    let fields: Vec<String> = FIELD_NAMES
        .iter()
        .zip(words)
        .map(|(name, word)| format!("{name} {word:X}"))
        .collect();
    fields.join(", ")
}
