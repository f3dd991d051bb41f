//! Pools that are filled to the last frame and emptied again, from a new pool on.

use super::chain::Chain;
use super::comparison::Comparison;
use crate::cases::state;
use crate::comparison::Judges;
use crate::protocol::{PoolCall, Request};
use crate::random::Random;
use reference::heap::PFNS;

/// In which order the frames are given back.
#[derive(Clone, Copy)]
enum Order {
    Rising,
    Falling,
    Any,
}

const ORDERS: [Order; 3] = [Order::Rising, Order::Falling, Order::Any];

/// The words of the table run that maps go to.
const TABLE_WORDS: usize = 1024;

/// The long runs, and short ones of many sizes.
pub fn put(comparison: &mut Comparison, random: &mut Random) {
    for order in ORDERS {
        comparison.restart();
        fill_and_empty(comparison, random, 4096, order);
    }
    comparison.restart();
    for size in (1..=66).chain([126, 127, 128, 129, 130, 191, 192, 193, 1000]) {
        for order in ORDERS {
            comparison.may_restart();
            fill_and_empty(comparison, random, size, order);
        }
    }
}

fn fill_and_empty(comparison: &mut Comparison, random: &mut Random, size: u32, order: Order) {
    let mut chain = Chain::begin(comparison, random, size);
    fill(comparison, random, &mut chain);
    for call in [PoolCall::Take, PoolCall::Held] {
        chain.call(comparison, call, Vec::new());
    }
    empty(comparison, random, &mut chain, order);
    for call in [PoolCall::Held, PoolCall::Take] {
        chain.call(comparison, call, Vec::new());
    }
}

/// Takes, and some maps, until every frame is live.
fn fill(comparison: &mut Comparison, random: &mut Random, chain: &mut Chain) {
    let size = chain.pool.size;
    let mut tables = vec![0; TABLE_WORDS];
    while let Some(lowest) = chain.ours.lowest_not_live() {
        let outcomes = match chain.ours.live_frames().len() + 1 == size as usize {
            true => vec![filled(size)],
            false => Vec::new(),
        };
        if random.one_in(8) {
            let call = PoolCall::Map {
                index: random.below(TABLE_WORDS) as u32,
                leaf: random.bits(32),
            };
            let registers = state::registers(random);
            let request = Request {
                tables: std::mem::take(&mut tables),
                ..Request::on_pool(call, registers, chain.pool, state::empty_slots())
            };
            let judges = Judges {
                outcomes,
                ..Judges::default()
            };
            chain.put(comparison, judges, request);
        } else {
            chain.call(comparison, PoolCall::Take, outcomes);
        }
        match random.below(32) {
            0 | 1 => drop(chain.call(comparison, PoolCall::Held, Vec::new())),
            2 => {
                let pfn = lowest + random.bits(2);
                chain.call(comparison, PoolCall::Give { pfn }, Vec::new());
            }
            _ => {}
        }
    }
}

/// Gives, and some takes, until no frame is live.
fn empty(comparison: &mut Comparison, random: &mut Random, chain: &mut Chain, order: Order) {
    let size = chain.pool.size;
    loop {
        let live = chain.ours.live_frames();
        let pfn = match (order, &live[..]) {
            (_, []) => return,
            (Order::Rising, [first, ..]) => *first,
            (Order::Falling, [.., last]) => *last,
            (Order::Any, live) => random.pick(live),
        };
        let outcomes = match live.len() {
            1 => vec![emptied(size)],
            _ => Vec::new(),
        };
        chain.call(comparison, PoolCall::Give { pfn }, outcomes);
        let call = match random.below(32) {
            0 => PoolCall::Give { pfn },
            1 => PoolCall::Held,
            2 => PoolCall::Take,
            3 => PoolCall::Give {
                pfn: random.pick(&[0, PFNS - 1, chain.pool.first + size]),
            },
            _ => continue,
        };
        chain.call(comparison, call, Vec::new());
    }
}

pub fn all_outcomes() -> Vec<String> {
    let mut all = Vec::new();
    for size in [1, 2, 64, 65, 4096] {
        all.extend([filled(size), emptied(size)]);
    }
    all
}

fn filled(size: u32) -> String {
    format!("sequence with a pool, {} filled", name(size))
}

fn emptied(size: u32) -> String {
    format!("sequence with a pool, {} emptied again", name(size))
}

fn name(size: u32) -> &'static str {
    match size {
        1 => "one of 1 frame",
        2..=63 => "one of 2 to 63 frames",
        64 => "one of 64 frames",
        65..=4095 => "one of 65 to 4095 frames",
        _ => "one of 4096 frames",
    }
}
