//! What is done in a round: a list of calls, made in turn so many times.

use super::unit::{Setting, Store, Unit};
use super::Calls;
use reference::Access;

pub enum Work {
    /// So many starts, each over what the last one left.
    Starts(usize),
    Settings(Vec<Setting>),
    Raw(Vec<Access>),
    Served(Vec<Access>),
    Stores(Vec<Store>),
    /// A store and then a served access, counted as one.
    Pairs(Vec<(Store, Access)>),
}

impl Work {
    pub fn len(&self) -> usize {
        match self {
            Work::Starts(count) => *count,
            Work::Settings(list) => list.len(),
            Work::Raw(list) | Work::Served(list) => list.len(),
            Work::Stores(list) => list.len(),
            Work::Pairs(list) => list.len(),
        }
    }

    /// The sum of the answers, modulo 2^64.
    pub fn sum(&self, calls: Calls, unit: &mut Unit, turns: u32) -> u64 {
        match self {
            Work::Starts(count) => sum(&vec![(); *count], turns, |()| unit.start(calls)),
            Work::Settings(list) => sum(list, turns, |setting| unit.set(calls, setting)),
            Work::Raw(list) => sum(list, turns, |access| unit.access(calls, access)),
            Work::Served(list) => sum(list, turns, |access| unit.serve(calls, access)),
            Work::Stores(list) => sum(list, turns, |store| unit.store(calls, store)),
            Work::Pairs(list) => sum(list, turns, |(store, access)| {
                let emptied = unit.store(calls, store);
                emptied.wrapping_add(unit.serve(calls, access))
            }),
        }
    }
}

fn sum<T: Copy>(list: &[T], turns: u32, mut answer: impl FnMut(T) -> u64) -> u64 {
    let mut sum = 0u64;
    for _ in 0..turns {
        for &item in list {
            sum = sum.wrapping_add(answer(item));
        }
    }
    sum
}
