//! The outcomes of calls on pools, by what the reference says of them.

mod give;
mod held;
mod map;
mod new_pool;
pub mod shape;
mod take;

use super::{fill, history, sequence};
use crate::fault;
use crate::outcome::Runs;
use crate::protocol::{Answer, Call, PoolCall, Request};
use crate::witness;
use reference::heap::Pool;
use reference::FIELDS;

const BESIDE: &str = "call on a pool alone, registers and a buffer beside it";
const ON_REFUSED: &str = "call on the pool that a refused new pool is";
const TABLES: &str = "table run asked for";

/// Every outcome that has to happen.
pub fn all() -> Vec<String> {
    let mut all = [
        new_pool::all(),
        take::all(),
        give::all(),
        held::all(),
        map::all(),
        sequence::all(),
        fill::all_outcomes(),
        history::all(),
        witness::all(),
    ]
    .concat();
    let points = [witness::MAP_EMPTIED, fault::POSSIBLE];
    let single = [BESIDE, ON_REFUSED, TABLES].into_iter().chain(points);
    all.extend(single.map(String::from));
    all
}

/// The outcomes of one call, in a sequence or not. The unit's own calls are told of elsewhere.
pub fn of(request: &Request, runs: Runs, expected: &Answer) -> Vec<String> {
    let Call::OnPool(call) = request.call else {
        return match request.call {
            Call::Tables => vec![TABLES.to_string()],
            _ => Vec::new(),
        };
    };
    let pool = request.pool();
    let answered = expected.words[1];
    let mut outcomes = match call {
        PoolCall::New { first, size } => new_pool::of((first, size), pool),
        PoolCall::Take => take::of(pool, answered),
        PoolCall::Give { pfn } => give::of(pool, pfn, answered),
        PoolCall::Held => held::of(pool, answered),
        PoolCall::Map { index, leaf } => map::of(request, (index, leaf), runs, expected),
        PoolCall::Collect { .. } => panic!("{call:?} is put by the comparison of passes"),
    };
    let is_map = matches!(call, PoolCall::Map { .. });
    let is_beside = request.registers != [0; FIELDS] && !request.buffer.is_empty();
    if !is_map && is_beside {
        outcomes.push(BESIDE.to_string());
    }
    let is_new = matches!(call, PoolCall::New { .. });
    if !is_new && *pool == Pool::ALL_ZERO {
        outcomes.push(ON_REFUSED.to_string());
    }
    outcomes
}
