//! The answer that the reference gives to a request.

use crate::mups16::call::{Operation, UnitCall};
use crate::protocol::{Answer, Call, PoolCall, Request};
use reference::collector::by_tables;
use reference::heap::{self, Mapping};
use reference::mups16::{self, State};
use reference::*;
use std::rc::Rc;

pub const AT: u32 = 0;
pub const FAULT: u32 = 1;
pub const DONE: u32 = 2;
pub const REFUSED: u32 = 3;

/// Whether the walk call takes these arguments at all.
pub fn walk_is_possible(page_id: u32, vpn: u32, tables: &[u32]) -> bool {
    page_id <= 63 && vpn <= 524_287 && tables.len() >= 64
}

/// The tables are those of the request, or the ones that an earlier request left.
pub fn answer(request: &Request, tables: &mut Rc<Vec<u32>>) -> Answer {
    let registers = Registers::from_words(request.registers);
    let mut pool = request.pool.clone();
    let mut state = request.state;
    let mut buffer = request.buffer.clone();
    let mut kept = Vec::new();
    let (words, registers) = match request.call {
        Call::Start => {
            let (done, registers) = start(&mut buffer);
            (words_of_done(done), registers)
        }
        Call::Raw(access) => {
            let (answer, registers) = raw_access(registers, &buffer, access);
            (words_of_raw(answer), registers)
        }
        Call::Write { number, value } => {
            let (done, registers) = write_register(registers, &mut buffer, number, value);
            (words_of_done(done), registers)
        }
        Call::Read { number } => {
            let read = read_register(registers, &buffer, number);
            (words_of_read(read), registers)
        }
        Call::Walk { page_id, vpn } if walk_is_possible(page_id, vpn, tables) => {
            (words_of_walk(walk(&tables[..], page_id, vpn)), registers)
        }
        Call::Walk { .. } => ([3, 0, 0, 0], registers),
        Call::Served(access) => {
            words_of_reply(served_access(registers, &mut buffer, tables, access))
        }
        Call::Store { index, value } => {
            let tables = Rc::make_mut(tables);
            words_of_reply(table_store(registers, &mut buffer, tables, index, value))
        }
        Call::Setting { number, value } => {
            words_of_reply(guarded_setting(registers, number, value))
        }
        Call::Tables => {
            kept = tables.to_vec();
            ([tables.len() as u32, 0, 0, 0], registers)
        }
        Call::OnPool(PoolCall::New { first, size }) => {
            let (done, after) = heap::new_pool(first, size);
            pool = Some(Box::new(after));
            (words_of_done(done), registers)
        }
        Call::OnPool(PoolCall::Take) => {
            let (taken, after) = heap::take(*request.pool());
            pool = Some(Box::new(after));
            (words_of_number(taken), registers)
        }
        Call::OnPool(PoolCall::Give { pfn }) => {
            let (done, after) = heap::give(*request.pool(), pfn);
            pool = Some(Box::new(after));
            (words_of_done(done), registers)
        }
        Call::OnPool(PoolCall::Held) => (words_of_number(heap::held(request.pool())), registers),
        Call::OnPool(PoolCall::Map { index, leaf }) => {
            let tables = Rc::make_mut(tables);
            let (Mapping { reply, pfn }, after) =
                heap::map(registers, &mut buffer, tables, *request.pool(), index, leaf);
            pool = Some(Box::new(after));
            words_of_reply_with(reply, pfn)
        }
        Call::OnPool(PoolCall::Collect { id }) => {
            let tables = Rc::make_mut(tables);
            let mut after = *request.pool();
            let pass = by_tables::collect(registers, &mut buffer, tables, &mut after, id);
            pool = Some(Box::new(after));
            words_of_reply_with(pass.reply, pass.given)
        }
        Call::Mups16(call) => {
            let (words, after) = of_mups16(call, request.state(), tables);
            state = Some(after.to_words());
            (words, registers)
        }
    };
    Answer {
        words,
        registers: registers.to_words(),
        pool,
        state,
        buffer,
        tables: kept,
    }
}

/// A call of the MUPS/16 unit: its words, and the state after it.
fn of_mups16(call: UnitCall, state: State, tables: &mut Rc<Vec<u32>>) -> ([u32; 4], State) {
    let done = |word: Result<u32, Refusal>| word.map(|value| (value, 0));
    let mut after = state;
    let answer = match call.operation {
        Operation::Map => {
            let (mapped, left) = mups16::map(state, tables, call.mapping());
            after = left;
            mapped.map(|mapped| (mapped.address, mapped.faults.number()))
        }
        Operation::LowWord => done(mups16::low_word(tables, call.a).map(u32::from)),
        Operation::HighWord => done(mups16::high_word(state, tables, call.a).map(u32::from)),
        Operation::FaultAddress => done(Ok(mups16::fault_address(state).into())),
        Operation::SetIndex => {
            after = mups16::set_table_index(state, call.a);
            done(Ok(0))
        }
        Operation::SetEntry => {
            let (entries, entry) = (Rc::make_mut(tables), mups16::Entry::unpack(call.b));
            done(mups16::set_entry(entries, call.a, entry).map(|()| 0))
        }
    };
    let words = match answer {
        Ok((value, faults)) => [0, value, faults, 0],
        Err(refusal) => [1, refusal.number(), 0, 0],
    };
    (words, after)
}

/// A reply with a number behind it.
pub fn words_of_reply_with(reply: Reply, number: u32) -> ([u32; 4], Registers) {
    let ([word, value, loads, _], registers) = words_of_reply(reply);
    ([word, value, loads, number], registers)
}

fn words_of_reply(reply: Reply) -> ([u32; 4], Registers) {
    (
        words_of_outcome(reply.outcome, reply.loads),
        reply.registers,
    )
}

pub fn words_of_outcome(outcome: Outcome, loads: u32) -> [u32; 4] {
    let (word, value) = match outcome {
        Outcome::At(address) => (AT, address),
        Outcome::Fault(value) => (FAULT, value),
        Outcome::Done(value) => (DONE, value),
        Outcome::Refused(refusal) => (REFUSED, refusal.number()),
    };
    [word, value, loads, 0]
}

fn words_of_done(done: Result<(), Refusal>) -> [u32; 4] {
    words_of_number(done.map(|()| 0))
}

fn words_of_number(number: Result<u32, Refusal>) -> [u32; 4] {
    match number {
        Ok(number) => [DONE, number, 0, 0],
        Err(refusal) => [REFUSED, refusal.number(), 0, 0],
    }
}

fn words_of_raw(answer: Result<RawAnswer, Refusal>) -> [u32; 4] {
    match answer {
        Ok(answer) => [
            u32::from(answer.address.is_some()),
            answer.address.unwrap_or(0),
            u32::from(answer.interrupt) + 2 * u32::from(answer.exception),
            answer.value,
        ],
        Err(refusal) => [2, refusal.number(), 0, 0],
    }
}

fn words_of_read(read: Result<u32, Refusal>) -> [u32; 4] {
    match read {
        Ok(value) => [0, value, 0, 0],
        Err(refusal) => [1, refusal.number(), 0, 0],
    }
}

fn words_of_walk(walk: Walk) -> [u32; 4] {
    let global = |decided: Decided| u32::from(decided.tree == Tree::Global);
    match walk {
        Walk::Leaf(leaf) => [0, leaf.word, leaf.index as u32, global(leaf)],
        Walk::Absent(word) => [1, 0, word.level.number(), global(word)],
        Walk::Broken(word, _) => [2, 0, word.level.number(), global(word)],
    }
}
