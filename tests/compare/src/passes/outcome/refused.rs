//! Outcomes of passes that are refused.

use super::{those_that_hold, CALL};
use crate::outcome::refused;
use crate::pools::outcome::shape;
use crate::protocol::{Answer, Request};
use reference::collector::{by_tables, grounds, Unfit};
use reference::heap::new_pool;
use reference::*;

/// The grounds that a pass can be refused on, in their order; two of them are number 1.
const GROUNDS: [&str; 6] = [BY_REGISTERS, BY_POOL, "2", "3", "5", "12"];
const BY_REGISTERS: &str = "1 by registers";
const BY_POOL: &str = "1 by pool";

/// Identifications that are refused alone.
const IDS: [u32; 6] = [63, 64, 69, 261, 65541, u32::MAX];

const NO_WORDS: &str = "pass refused 3, run of no words";
const SEVERAL: &str = "pass refused 12, several grounds of it";
const WOULD_STORE: &str = "pass refused 12, a leaf is in the pool";
const WOULD_SWEEP: &str = "pass refused 12, a sweep would empty slots";

pub fn all() -> Vec<String> {
    let mut all = refused::all_sets_of_named(CALL, &GROUNDS);
    all.extend(shape::all_misfits(CALL));
    all.extend(refused::all_fields(CALL));
    all.extend(refused::all_lengths(CALL));
    all.extend(refused::all_runs(CALL));
    all.extend(IDS.map(by_id));
    all.extend([NO_WORDS, SEVERAL, WOULD_STORE, WOULD_SWEEP].map(String::from));
    all
}

pub fn of(request: &Request, id: u32, words: &[u32], expected: &Answer) -> Vec<String> {
    let registers = Registers::from_words(request.registers);
    let (pool, buffer) = (request.pool(), &request.buffer);
    let unfit = unfit(request, id, words);
    let checks = [
        check_registers(registers),
        check_pool(pool),
        check_buffer(buffer),
        check_tables(words.len()),
        check_identification(id),
        match unfit[..] {
            [] => Ok(()),
            _ => Err(Refusal::Tree),
        },
    ];
    let numbers = refused::grounds(&checks);
    let given = refused::named_grounds(&GROUNDS, &checks);
    assert_eq!(numbers.first(), Some(&expected.words[1]));
    let mut outcomes = vec![refused::refused_on(CALL, &given)];
    outcomes.extend(refused::of_fields(CALL, registers, &numbers));
    outcomes.extend(refused::of_length(CALL, buffer, &numbers));
    outcomes.extend(refused::of_run(CALL, words.len(), &numbers));
    match given[..] {
        [BY_POOL] => outcomes.push(shape::misfit(CALL, pool.first, pool.size)),
        ["5"] if IDS.contains(&id) => outcomes.push(by_id(id)),
        ["12"] => outcomes.extend(of_unfit(request, id, words, &unfit)),
        _ => {}
    }
    outcomes
}

fn of_unfit(request: &Request, id: u32, words: &[u32], unfit: &[Unfit]) -> Vec<String> {
    let in_pool = |leaf: &Decided| request.pool().place_of(leaf.word % (1 << 19)).is_some();
    let emptied = sweep(&mut request.buffer.clone()[..], words);
    those_that_hold([
        (SEVERAL, unfit.len() > 1),
        (
            WOULD_STORE,
            by_tables::leaves(words, id).iter().any(in_pool),
        ),
        (WOULD_SWEEP, emptied > 0),
    ])
}

/// The grounds of number 12, whether or not another number comes before; none where the run has no
/// such root. A pool that is none holds all that is mapped.
fn unfit(request: &Request, id: u32, words: &[u32]) -> Vec<Unfit> {
    if words.len() < 64 || id as usize >= words.len() {
        return Vec::new();
    }
    let leaves = by_tables::leaves(words, id);
    match check_pool(request.pool()) {
        Ok(()) => grounds(words, request.pool(), id, &leaves),
        Err(_) => grounds(words, &new_pool(0, 1).1, id, &[]),
    }
}

fn by_id(id: u32) -> String {
    format!("{CALL} refused 5, identification {id}")
}
