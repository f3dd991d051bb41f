//! The outcomes of the MUPS/16 unit, by what the reference says of them.

mod addresses;
mod beside;
mod fault_address;
mod index;
mod junk;
mod map;
mod refused;

use super::call::{Operation, UnitCall, AT_ENTRIES, OPERATIONS, WITH_RUN};
use super::unit::asked_after;
use super::{apart, at_random, entries, fault_addresses, handed, indices, maps};
use super::{pieces, refusals, sequence};
use crate::fault;
use crate::outcome::Runs;
use crate::protocol::{Answer, Call, Request};
use reference::mups16::State;

const NO_RUN: &str = "table run asked for, none given";
const RUN_WITH_JUNK: &str = "table run asked for, junk above bit 18 in it";

/// A call with what it is handed and what comes of it.
struct Case<'a> {
    call: UnitCall,
    state: State,
    /// The entry run that the call finds.
    entries: &'a [u32],
    request: &'a Request,
    expected: &'a Answer,
}

impl Case<'_> {
    fn is_refused(&self) -> bool {
        self.expected.words[0] != 0
    }

    /// The entry that an accepted call is about, where it needs one.
    fn entry(&self) -> Option<u32> {
        let place = self.call.place(self.state)?;
        Some(self.entries[place])
    }

    /// The faults of a map.
    fn faults(&self) -> u32 {
        self.expected.words[2]
    }
}

/// Every outcome that has to happen.
pub fn all() -> Vec<String> {
    let mut all = [
        accepted_in_both_modes(),
        refused::all(),
        map::all(),
        fault_address::all(),
        junk::all(),
        addresses::all(),
        index::all(),
        beside::all(),
        entries::all(),
        indices::all(),
        fault_addresses::all(),
        handed::all(),
        apart::all(),
        sequence::all(),
        pieces::all(),
    ]
    .concat();
    let kinds = [
        maps::AFTER_MAPS,
        entries::AFTER_READS,
        entries::AFTER_SET,
        entries::AFTER_NEIGHBOURS,
        indices::AFTER_SET,
        fault_addresses::AFTER_READS,
        at_random::AFTER_ANY,
    ];
    all.extend(kinds.map(asked_after));
    all.extend(WITH_RUN.map(|operation| asked_after(&refusals::after_refused(operation))));
    all.extend(OPERATIONS.map(|operation| asked_after(&handed::after(operation))));
    all.extend([NO_RUN, RUN_WITH_JUNK, fault::POSSIBLE].map(String::from));
    all
}

/// The outcomes of one call; those of the other unit's are told of elsewhere.
pub fn of(request: &Request, runs: Runs, expected: &Answer) -> Vec<String> {
    match request.call {
        Call::Tables => of_run(runs.before),
        Call::Mups16(call) => of_call(&Case {
            call,
            state: request.state(),
            entries: runs.before,
            request,
            expected,
        }),
        _ => Vec::new(),
    }
}

fn of_run(run: &[u32]) -> Vec<String> {
    let has_junk = run.iter().any(|word| word >> 19 != 0);
    match (run.len(), has_junk) {
        (0, _) => vec![NO_RUN.to_string()],
        (_, true) => vec![RUN_WITH_JUNK.to_string()],
        (_, false) => Vec::new(),
    }
}

fn of_call(case: &Case) -> Vec<String> {
    let mut outcomes = beside::of(case);
    outcomes.extend(fault_address::of(case));
    if case.is_refused() {
        outcomes.push(refused::of(case));
        return outcomes;
    }
    let Case { call, state, .. } = *case;
    outcomes.push(accepted(call.operation, state.boot_mode));
    outcomes.extend(junk::of(case));
    match call.operation {
        Operation::Map => outcomes.extend(map::of(case)),
        Operation::SetIndex => outcomes.extend(index::of(call.a)),
        operation if AT_ENTRIES.contains(&operation) => {
            outcomes.extend(addresses::of(operation, call.a))
        }
        _ => {}
    }
    outcomes
}

fn accepted_in_both_modes() -> Vec<String> {
    let both = |operation| [false, true].map(|boot_mode| accepted(operation, boot_mode));
    OPERATIONS.into_iter().flat_map(both).collect()
}

fn accepted(operation: Operation, boot_mode: bool) -> String {
    format!("{} accepted, {}", operation.name(), mode(boot_mode))
}

fn mode(boot_mode: bool) -> &'static str {
    match boot_mode {
        true => "in boot mode",
        false => "out of boot mode",
    }
}
