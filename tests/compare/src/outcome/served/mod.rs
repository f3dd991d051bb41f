//! Outcomes of a served access.

mod outside;
pub mod path;
mod smallest_run;

use super::refused;
use crate::protocol::Answer;
use reference::*;

const CALL: &str = "served access";
const IN_SEQUENCE: &str = "sequence, served access";
const GROUNDS: [u32; 5] = [1, 2, 3, 4, 5];

const TEST_MODE: &str = "served access refused 5, test mode";
const CONTEXT_63: &str = "served access refused 5, context 63";
const BOTH: &str = "served access refused 5, test mode and context 63";

/// A served access, what it finds and what has to come of it.
pub struct Served<'a> {
    registers: Registers,
    buffer: &'a [u64],
    words: &'a [u32],
    access: Access,
    expected: &'a Answer,
}

impl<'a> Served<'a> {
    pub fn new(
        (registers, buffer): (Registers, &'a [u64]),
        words: &'a [u32],
        access: Access,
        expected: &'a Answer,
    ) -> Served<'a> {
        Served {
            registers,
            buffer,
            words,
            access,
            expected,
        }
    }

    /// The numbers that the access can be refused with, each asked by itself.
    fn grounds(&self) -> Vec<u32> {
        refused::grounds(&[
            check_registers(self.registers),
            check_buffer(self.buffer),
            check_tables(self.words.len()),
            check_draw(self.access.draw),
            check_served(self.registers),
        ])
    }

    fn page(&self) -> u32 {
        vpn(self.access.address)
    }

    fn first_try(&self) -> Translation {
        translate(self.registers, self.buffer, self.access)
    }

    fn walk(&self) -> Walk {
        walk(self.words, self.registers.context, self.page())
    }

    fn walk_tree(&self, tree: Tree) -> Walk {
        walk_tree(self.words, tree, self.registers.context, self.page())
    }

    fn slot_to_load(&self) -> usize {
        slot_to_load(self.registers, self.buffer, self.page(), self.access.draw)
    }

    fn is_of_page(&self, entry: Entry) -> bool {
        is_of_page(self.registers, entry, self.page())
    }
}

pub fn all() -> Vec<String> {
    let mut all = Vec::new();
    for call in [CALL, IN_SEQUENCE] {
        all.extend(refused::all_sets_of_grounds(call, &GROUNDS));
        all.extend(path::all(call));
    }
    let never_accepted = ["context", "test"].map(|name| format!(", {name} at its largest value"));
    let fields = refused::all_fields(CALL).into_iter();
    all.extend(fields.filter(|field| !never_accepted.iter().any(|end| field.ends_with(end))));
    all.extend(refused::all_lengths(CALL));
    all.extend(refused::all_runs(CALL));
    all.push(refused::wrong_run(CALL, 0));
    all.extend(refused::all_draws(CALL));
    all.extend([TEST_MODE, CONTEXT_63, BOTH].map(String::from));
    all.extend(outside::all());
    all.extend(smallest_run::all(CALL));
    all
}

pub fn of(served: &Served) -> Vec<String> {
    let registers = served.registers;
    let grounds = served.grounds();
    let mut outcomes = of_either(CALL, served, &grounds);
    outcomes.extend(refused::of_fields(CALL, registers, &grounds));
    outcomes.extend(refused::of_length(CALL, served.buffer, &grounds));
    outcomes.extend(refused::of_run(CALL, served.words.len(), &grounds));
    match grounds[..] {
        [] => {
            outcomes.extend(outside::of(served));
            outcomes.extend(smallest_run::of(CALL, served));
        }
        [4] => outcomes.push(refused::draw_of(CALL, served.access.draw)),
        [5] => outcomes.push(
            match (registers.test, registers.context) {
                (1, 63) => BOTH,
                (1, _) => TEST_MODE,
                _ => CONTEXT_63,
            }
            .to_string(),
        ),
        _ => {}
    }
    outcomes
}

pub fn in_sequence(served: &Served) -> Vec<String> {
    of_either(IN_SEQUENCE, served, &served.grounds())
}

/// The outcomes that happen in a sequence as well as outside.
fn of_either(call: &str, served: &Served, grounds: &[u32]) -> Vec<String> {
    match grounds {
        [] => path::of(call, served),
        _ => vec![refused::set_of_grounds(
            call,
            grounds,
            served.expected.words[1],
        )],
    }
}
