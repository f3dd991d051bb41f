//! A stand-in's pass.

use super::fault::Fault;
use super::order::{refusal, root_of};
use super::tree::Tree;
use super::visit::{stored, visits};
use crate::passes::visit::Visit;
use reference::collector::Pass;
use reference::heap::Pool;
use reference::*;

/// Registers, buffer and table run.
type Lent<'a> = (Registers, &'a mut [u64], &'a mut Vec<u32>);

pub fn collect(fault: Fault, lent: Lent, pool: Pool, id: u32) -> (Pass, Pool) {
    let (registers, buffer, words) = lent;
    let root = root_of(fault, registers, id);
    if let Some(refusal) = refusal(fault, (registers, buffer, words), &pool, (id, root)) {
        return refused(fault, (registers, buffer, words), pool, (root, refusal));
    }
    let mut pool = pool;
    let (mut emptied, mut given) = (Vec::new(), 0);
    let visits = visits(fault, words, &pool, root);
    for (n, visit) in visits.iter().enumerate() {
        let word = stored(fault, visit);
        if fault == Fault::SweepBeforeTheStore {
            emptied.push(sweep(&mut *buffer, &words[..]));
        }
        words[visit.index] = word;
        let is_last = n + 1 == visits.len();
        emptied.push(swept(
            fault,
            (registers, buffer, words),
            root,
            (visit, n, is_last),
        ));
        given += give(fault, &mut pool, visit);
    }
    let has_directory = Tree::of(fault, words, root).directory.is_some();
    let sweeps_anyway = match fault {
        Fault::SweepWithoutVisits => visits.is_empty() && has_directory,
        Fault::SweepOfAbsentRoot => !has_directory,
        _ => false,
    };
    if sweeps_anyway {
        emptied.push(sweep(&mut *buffer, &words[..]));
    }
    let aged = visits.iter().filter(|visit| visit.is_valid()).count();
    let outcome = Outcome::Done(match fault {
        Fault::EmptiedOfLastStore => emptied.last().copied().unwrap_or(0),
        Fault::EmptiedOfFirstStore => emptied.first().copied().unwrap_or(0),
        Fault::EmptiedCountsStores => emptied.iter().filter(|&&slots| slots > 0).count() as u32,
        _ => emptied.iter().sum(),
    });
    let pass = Pass {
        reply: Reply {
            outcome,
            loads: match fault {
                Fault::LoadsCounted => visits.len() as u32,
                _ => 0,
            },
            registers: left(fault, registers, id, &visits),
        },
        given: match fault {
            Fault::GivenCountsVisits => visits.len() as u32,
            Fault::GivenCountsAged => aged as u32,
            Fault::GivenOneAtMost => given.min(1),
            _ => given,
        },
    };
    (pass, pool)
}

/// What a refused pass leaves and answers.
fn refused(
    fault: Fault,
    (registers, buffer, words): Lent,
    pool: Pool,
    (root, refusal): (u32, Refusal),
) -> (Pass, Pool) {
    let mut pass = Pass {
        reply: Reply::refused(refusal, registers),
        given: 0,
    };
    let mut pool = pool;
    let is_of_tree = refusal == Refusal::Tree;
    let can_sweep = buffer.len() == SLOTS && check_tables(words.len()).is_ok();
    let is_early = !is_of_tree && can_sweep && (root as usize) < words.len();
    match fault {
        Fault::RefusedSweeps if is_of_tree => drop(sweep(&mut *buffer, &words[..])),
        Fault::RefusedEarlySweeps if is_early => drop(sweep(&mut *buffer, &words[..])),
        Fault::RefusedEarlyStores if is_early => store_all(fault, words, &pool, (root, usize::MAX)),
        Fault::RefusedStores | Fault::RefusedStoresFirstLeaf if is_of_tree => {
            let most = match fault {
                Fault::RefusedStores => usize::MAX,
                _ => 1,
            };
            store_all(fault, words, &pool, (root, most));
        }
        Fault::RefusedGives if is_of_tree => {
            for visit in visits(fault, words, &pool, root) {
                give(fault, &mut pool, &visit);
            }
        }
        Fault::RefusedAnswersGiven if is_of_tree => {
            let visits = visits(fault, words, &pool, root);
            pass.given = visits.iter().filter(|visit| !visit.is_valid()).count() as u32;
        }
        Fault::RefusedMakesPoolZero => pool = Pool::ALL_ZERO,
        Fault::RefusedMakesRegistersZero => pass.reply.registers = Registers::default(),
        _ => {}
    }
    (pass, pool)
}

/// Stores so many of the leaves at the most, without a sweep.
fn store_all(fault: Fault, words: &mut [u32], pool: &Pool, (root, most): (u32, usize)) {
    for visit in visits(fault, words, pool, root).iter().take(most) {
        words[visit.index] = stored(fault, visit);
    }
}

/// The slots that the sweep after a store empties.
fn swept(
    fault: Fault,
    (registers, buffer, words): (Registers, &mut [u64], &[u32]),
    id: u32,
    (visit, n, is_last): (&Visit, usize, bool),
) -> u32 {
    let is_made = match fault {
        Fault::NoSweep | Fault::SweepBeforeTheStore => false,
        Fault::SweepAtTheEndOnly => is_last,
        Fault::SweepAtTheFirstOnly => n == 0,
        Fault::SweepAfterGoingOnly => !visit.is_valid(),
        Fault::SweepAfterAgeingOnly => visit.is_valid(),
        _ => true,
    };
    if !is_made {
        return 0;
    }
    let before = buffer.to_vec();
    let judged_under = match fault {
        Fault::SweepUnderContext if registers.context < 63 => Some(registers.context),
        _ => None,
    };
    let mut emptied = sweep_under(judged_under, buffer, words);
    let keeps = |entry: Entry, slot: usize| match fault {
        Fault::SweepOfStoredPageOnly => vpn_of(slot, entry) != visit.page || entry.page_id != id,
        Fault::SweepOfOwnPagesOnly => entry.page_id != id,
        _ => false,
    };
    for slot in 0..SLOTS {
        if before[slot] != buffer[slot] && keeps(Entry::unpack(before[slot]), slot) {
            buffer[slot] = before[slot];
            emptied -= 1;
        }
    }
    emptied
}

/// The sweep, with every slot judged under one identification where there is one.
fn sweep_under(id: Option<u32>, buffer: &mut [u64], words: &[u32]) -> u32 {
    let Some(id) = id else {
        return sweep(buffer, words);
    };
    let mut emptied = 0;
    for (slot, number) in buffer.iter_mut().enumerate().take(SLOTS) {
        let entry = Entry::unpack(*number);
        let empty = Entry::empty(slot / LOCATIONS);
        let under = Entry {
            page_id: id,
            ..entry
        };
        if entry != empty && !is_kept(slot, under, words) {
            *number = empty.pack();
            emptied += 1;
        }
    }
    emptied
}

/// Gives the frame of a leaf back that goes; 1 where a frame is given.
fn give(fault: Fault, pool: &mut Pool, visit: &Visit) -> u32 {
    let goes = match fault {
        Fault::FrameOfValidGiven => visit.is_valid(),
        Fault::ValidLosesPresent | Fault::AgedLosesPresentToo => !visit.is_valid(),
        Fault::GoneAtOnce => true,
        _ => !visit.is_valid(),
    };
    if !goes {
        return 0;
    }
    let place = match fault {
        Fault::LowestFrameGiven => (0..pool.size).find(|&place| pool.is_held(place)),
        _ => pool.place_of(visit.pfn()).filter(|&place| place < 4096),
    };
    let Some(place) = place else {
        return 1;
    };
    match fault {
        Fault::FrameKept => {}
        Fault::WholeNumberOfBitsCleared => pool.bits[place as usize / 64] = 0,
        _ if pool.is_held(place) => *pool = pool.with_other_bit(place),
        _ => {}
    }
    if fault == Fault::BitsPastSizeCleared {
        for place in pool.size..4096 {
            if pool.is_held(place) {
                *pool = pool.with_other_bit(place);
            }
        }
    }
    1
}

fn left(fault: Fault, registers: Registers, id: u32, visits: &[Visit]) -> Registers {
    match (fault, visits.last()) {
        (Fault::ContextSet, _) => Registers {
            context: id,
            ..registers
        },
        (Fault::SelectSet, Some(visit)) => Registers {
            select: visit.page % 64,
            ..registers
        },
        _ => registers,
    }
}
