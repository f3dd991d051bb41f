//! The served access: try, walk, load, try again.

use crate::address::vpn;
use crate::fault;
use crate::leaf::Leaf;
use crate::load::load;
use crate::raw::{accepted_access, Access, RawAnswer, EXCEPTION_MISS};
use crate::refusal::{
    check_buffer, check_draw, check_registers, check_served, check_tables, Refusal,
};
use crate::registers::Registers;
use crate::reply::{Outcome, Reply};
use crate::run::{Run, RunMut};
use crate::walk::{walk, Walk};

/// Refusals 1 to 5 in this order. "Registers end as these steps leave them."
pub fn served_access(
    registers: Registers,
    buffer: &mut [u64],
    words: &[u32],
    access: Access,
) -> Reply {
    if let Err(refusal) = check(registers, buffer, words, access) {
        return Reply::refused(refusal, registers);
    }
    serve(registers, buffer, words, access)
}

/// A served access that nothing refuses.
pub fn serve(
    registers: Registers,
    buffer: &mut (impl RunMut<u64> + ?Sized),
    words: &(impl Run<u32> + ?Sized),
    access: Access,
) -> Reply {
    let (first, registers) = accepted_access(registers, buffer, access);
    if registers.enable == 0 || !is_miss(first) {
        return reply(final_outcome(first), 0, registers);
    }
    match walk(words, registers.context, vpn(access.address)) {
        Walk::Absent(word) => reply(Outcome::Fault(fault::absent(word)), 0, registers),
        Walk::Broken(word, _) => reply(Outcome::Fault(fault::broken(word)), 0, registers),
        Walk::Leaf(decided) => {
            let leaf = Leaf::from_word(decided);
            let vpn = vpn(access.address);
            let registers = load(registers, buffer, vpn, leaf, access.draw);
            let (second, registers) = accepted_access(registers, buffer, access);
            reply(final_outcome(second), 1, registers)
        }
    }
}

fn check(
    registers: Registers,
    buffer: &[u64],
    words: &[u32],
    access: Access,
) -> Result<(), Refusal> {
    check_registers(registers)?;
    check_buffer(buffer)?;
    check_tables(words.len())?;
    check_draw(access.draw)?;
    check_served(registers)
}

fn is_miss(answer: RawAnswer) -> bool {
    answer.exception && answer.value == EXCEPTION_MISS
}

/// Out of test mode an access has an address exactly when it has no exception.
fn final_outcome(answer: RawAnswer) -> Outcome {
    match answer.address {
        Some(address) => Outcome::At(address),
        None => Outcome::Fault(answer.value),
    }
}

fn reply(outcome: Outcome, loads: u32, registers: Registers) -> Reply {
    Reply {
        outcome,
        loads,
        registers,
    }
}
