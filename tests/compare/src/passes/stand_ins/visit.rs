//! Which leaves a stand-in visits, and what becomes of each.

use super::fault::Fault;
use super::tree::Tree;
use crate::cases::forest::{PRESENT, TABLE_WORDS};
use crate::passes::visit::Visit;
use crate::passes::words::VALID;
use reference::heap::{Pool, PFNS};
use reference::{walk, walk_tree, Walk};

const KERNEL: u32 = 1 << 29;
const WE: u32 = 1 << 28;
const SOFTWARE: u32 = 0x1FF << 19;

/// In their order.
pub fn visits(fault: Fault, words: &[u32], pool: &Pool, root: u32) -> Vec<Visit> {
    let tree = Tree::of(fault, words, root);
    let end = end(fault, &tree, pool);
    let mut visits: Vec<Visit> = tree
        .leaf_words()
        .take(end)
        .filter_map(|(page, index)| found(fault, words, root, (page, index)))
        .filter(|visit| visit.word >= PRESENT && is_in(fault, pool, visit.pfn()))
        .filter(|visit| !is_left(fault, pool, visit))
        .collect();
    if fault == Fault::GlobalLeavesVisitedToo {
        let global = Tree::of(Fault::None, words, 63);
        let leaves = global.leaf_words().map(|(page, index)| Visit {
            page,
            index,
            word: words[index],
        });
        visits.extend(
            leaves.filter(|visit| visit.word >= PRESENT && is_in(fault, pool, visit.pfn())),
        );
    }
    match fault {
        Fault::HighestPageFirst => visits.reverse(),
        Fault::LowestWordFirst => visits.sort_by_key(|visit| visit.index),
        Fault::AgeingFirst => visits.sort_by_key(|visit| !visit.is_valid()),
        Fault::GoingFirst => visits.sort_by_key(|visit| visit.is_valid()),
        Fault::FirstVisitLeft => drop(visits.drain(..visits.len().min(1))),
        Fault::LastVisitLeft => drop(visits.pop()),
        Fault::FirstTableOnly => {
            let first = visits.first().map(|visit| visit.index / TABLE_WORDS);
            visits.retain(|visit| Some(visit.index / TABLE_WORDS) == first);
        }
        Fault::LastTableOnly => {
            let last = visits.last().map(|visit| visit.index / TABLE_WORDS);
            visits.retain(|visit| Some(visit.index / TABLE_WORDS) == last);
        }
        _ => {}
    }
    visits
}

/// After how many leaf words the fault ends the pass.
fn end(fault: Fault, tree: &Tree, pool: &Pool) -> usize {
    let first = |is_end: &dyn Fn(u32) -> bool| {
        let mut words = tree.leaf_words().map(|(_, index)| tree.words[index]);
        words.position(is_end).unwrap_or(usize::MAX)
    };
    match fault {
        Fault::EndsAtLeafOutside => {
            first(&|word| word >= PRESENT && pool.place_of(word % PFNS).is_none())
        }
        Fault::EndsAtAbsentLeaf => first(&|word| word < PRESENT),
        Fault::EndsAtAbsentWord => {
            let in_a_row = |&(n, (place, _)): &(usize, &(usize, _))| n == *place;
            TABLE_WORDS * tree.tables.iter().enumerate().take_while(in_a_row).count()
        }
        _ => usize::MAX,
    }
}

/// The leaf of the page that the fault finds.
fn found(fault: Fault, words: &[u32], root: u32, (page, index): (u32, usize)) -> Option<Visit> {
    let index = match fault {
        Fault::GlobalTreeFirst => match walk(words, root, page) {
            Walk::Leaf(leaf) => leaf.index,
            _ => return None,
        },
        Fault::HiddenPagesLeft => match walk_tree(words, reference::Tree::Global, 0, page) {
            Walk::Absent(_) => index,
            _ => return None,
        },
        _ => index,
    };
    let word = words[index];
    Some(Visit { page, index, word })
}

fn is_in(fault: Fault, pool: &Pool, pfn: u32) -> bool {
    let place = u64::from(pfn).wrapping_sub(pool.first.into());
    let size = u64::from(pool.size);
    match fault {
        Fault::PoolEndIncluded => place <= size,
        Fault::PoolFirstLeft => 0 < place && place < size,
        Fault::PoolLastLeft => place + 1 < size,
        Fault::EveryLeafVisited => true,
        _ => place < size,
    }
}

fn is_left(fault: Fault, pool: &Pool, visit: &Visit) -> bool {
    let in_table = visit.index % TABLE_WORDS;
    match fault {
        Fault::FirstPageLeft => visit.page == 0,
        Fault::LastPageLeft => visit.page == 524_287,
        Fault::FirstLeafOfTableLeft => in_table == 0,
        Fault::LastLeafOfTableLeft => in_table == TABLE_WORDS - 1,
        Fault::KernelPagesLeft => visit.word & KERNEL != 0,
        Fault::PagesNotToBeWrittenLeft => visit.word & WE == 0,
        Fault::MarkedPagesLeft => visit.word & SOFTWARE != 0,
        Fault::ValidPagesLeft => visit.is_valid(),
        Fault::NotValidPagesLeft => !visit.is_valid(),
        Fault::FramesAtBit0Left => {
            let place = visit.pfn() - pool.first;
            place >= 64 && place.is_multiple_of(64)
        }
        _ => false,
    }
}

/// The word that a visit stores.
pub fn stored(fault: Fault, visit: &Visit) -> u32 {
    let word = visit.word;
    let right = match visit.is_valid() {
        true => word & !VALID,
        false => word & !PRESENT,
    };
    match (fault, visit.is_valid()) {
        (Fault::ValidLosesPresent, true) => word & !PRESENT,
        (Fault::AgedLosesPresentToo, true) => word & !VALID & !PRESENT,
        (Fault::GoneAtOnce, true) => word & !VALID & !PRESENT,
        (Fault::GoneWordIsZero, false) => 0,
        (Fault::GoneWordKeepsPresent, false) => word,
        (Fault::GoneIsMadeValid, false) => right | VALID,
        (Fault::SoftwareBitsLost, _) => right & !SOFTWARE,
        (Fault::KernelBitLost, _) => right & !KERNEL,
        (Fault::WeBitLost, _) => right & !WE,
        _ => right,
    }
}
