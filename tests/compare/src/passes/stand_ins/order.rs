//! What a stand-in refuses, and in which order.

use super::fault::Fault;
use super::tree::{Tree, MOST_PLACES};
use reference::heap::{Pool, PFNS};
use reference::*;

#[derive(Clone, Copy, PartialEq, Eq)]
enum Ground {
    Registers,
    Pool,
    Buffer,
    Tables,
    Id,
    Tree,
}

const RIGHT: [Ground; 6] = [
    Ground::Registers,
    Ground::Pool,
    Ground::Buffer,
    Ground::Tables,
    Ground::Id,
    Ground::Tree,
];

/// The grounds in the order in which the fault asks for them.
fn order(fault: Fault) -> Vec<Ground> {
    let (moved, before) = match fault {
        Fault::BufferBeforeRegisters => (Ground::Buffer, Ground::Registers),
        Fault::BufferBeforePool => (Ground::Buffer, Ground::Pool),
        Fault::TablesBeforePool => (Ground::Tables, Ground::Pool),
        Fault::TablesBeforeBuffer => (Ground::Tables, Ground::Buffer),
        Fault::IdBeforeRegisters => (Ground::Id, Ground::Registers),
        Fault::IdBeforeTables => (Ground::Id, Ground::Tables),
        Fault::TreeBeforePool => (Ground::Tree, Ground::Pool),
        Fault::TreeBeforeBuffer => (Ground::Tree, Ground::Buffer),
        Fault::TreeBeforeTables => (Ground::Tree, Ground::Tables),
        Fault::TreeBeforeId => (Ground::Tree, Ground::Id),
        _ => return RIGHT.to_vec(),
    };
    let mut order = RIGHT.to_vec();
    order.retain(|&ground| ground != moved);
    let place = order.iter().position(|&ground| ground == before);
    order.insert(place.unwrap_or(0), moved);
    order
}

/// The number that the pass is refused with.
pub fn refusal(
    fault: Fault,
    (registers, buffer, words): (Registers, &[u64], &[u32]),
    pool: &Pool,
    (id, root): (u32, u32),
) -> Option<Refusal> {
    let check = |ground| match ground {
        Ground::Registers => registers_refused(fault, registers),
        Ground::Pool => pool_refused(fault, pool),
        Ground::Buffer => check_buffer(buffer).is_err() && !buffer_is_taken(fault, buffer),
        Ground::Tables => check_tables(words.len()).is_err() && !run_is_taken(fault, words),
        Ground::Id => id_refused(fault, id),
        Ground::Tree => tree_refused(fault, words, pool, root),
    };
    let ground = order(fault).into_iter().find(|&ground| check(ground))?;
    Some(match ground {
        Ground::Registers => Refusal::RegisterField,
        Ground::Pool => Refusal::Pool,
        Ground::Buffer => Refusal::BufferLength,
        Ground::Tables => Refusal::TableLength,
        Ground::Id => Refusal::Identification,
        Ground::Tree if fault == Fault::RefusedAs11 => Refusal::NotHeld,
        Ground::Tree => Refusal::Tree,
    })
}

fn registers_refused(fault: Fault, registers: Registers) -> bool {
    match fault {
        Fault::RegistersNotLookedAt => false,
        Fault::TestModeRefused if registers.test == 1 => true,
        Fault::Context63Refused if registers.context == 63 => true,
        _ => check_registers(registers).is_err(),
    }
}

fn pool_refused(fault: Fault, pool: &Pool) -> bool {
    let end = u64::from(pool.first) + u64::from(pool.size);
    let is_past = end > u64::from(PFNS);
    match fault {
        Fault::PoolPastTheEndTaken => pool.size == 0 || pool.size > 4096,
        Fault::PoolOfNoFrameTaken => pool.size > 4096 || is_past,
        Fault::PoolOf4097FramesTaken => pool.size == 0 || pool.size > 4097 || is_past,
        _ => check_pool(pool).is_err(),
    }
}

fn buffer_is_taken(fault: Fault, buffer: &[u64]) -> bool {
    fault == Fault::BufferOf65Taken && buffer.len() == 65
}

fn run_is_taken(fault: Fault, words: &[u32]) -> bool {
    match fault {
        Fault::TablesOfNoMultipleTaken => words.len() > 1024,
        Fault::TablesOf1023Taken => words.len() == 1023,
        _ => false,
    }
}

fn id_refused(fault: Fault, id: u32) -> bool {
    match fault {
        Fault::Id63Taken => id > 63,
        Fault::IdCutTo6Bits => id % (1 << 6) > 62,
        Fault::IdCutTo8Bits => id % (1 << 8) > 62,
        Fault::IdCutTo16Bits => id % (1 << 16) > 62,
        Fault::Id0Refused => id == 0 || id > 62,
        Fault::Id62Refused => id > 61,
        _ => id > 62,
    }
}

/// Which root the pass goes by.
pub fn root_of(fault: Fault, registers: Registers, id: u32) -> u32 {
    match fault {
        Fault::ContextInsteadOfId => registers.context,
        Fault::IdCutTo6Bits => id % (1 << 6),
        Fault::IdCutTo8Bits => id % (1 << 8),
        Fault::IdCutTo16Bits => id % (1 << 16),
        _ => id,
    }
}

/// Only a run that has the root, and a pool that has its bits, can be looked at.
fn tree_refused(fault: Fault, words: &[u32], pool: &Pool, root: u32) -> bool {
    let has_root = words.len() >= 64 && (root as usize) < words.len();
    has_root && pool.size <= MOST_PLACES && Tree::of(fault, words, root).is_refused(pool)
}
