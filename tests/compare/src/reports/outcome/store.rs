//! Outcomes of a store that the report books: what it does to the leaf words and to the slots.

use crate::cases::forest::{DIRECTORY_WORDS, PRESENT, TABLE_WORDS};
use crate::outcome::store::{name, target, Target, TARGETS};
use crate::traces::record::Record;
use reference::report::{ByCounts, LeafWords, IDENTIFICATIONS, ROOTS};
use reference::trace::Unit;
use reference::*;
use std::cmp::Ordering;

const CHANGES: [Ordering; 3] = [Ordering::Less, Ordering::Equal, Ordering::Greater];
const LED: [Led; 3] = [Led::Nowhere, Led::Astray, Led::On];

const OTHER_ID: &str = "store empties a slot of another identification than its context";
const SEVERAL_IDS: &str = "store empties slots of several identifications";
const SAME_VALUE: &str = "store of the same value";
const INVALID_LEAF: &str = "store of a leaf with valid 0, leaf words rise";
const OTHER_ROOT: &str = "store changes the leaf words under an identification without a root";
const STILL_ROOTED: &str = "store leaves a directory that another root names";
const STILL_NAMED: &str = "store leaves a table that another word names";
const BEHIND_ROOTS: &str = "store of a good root's word to word 64";
const LEAF_OF_MANY: &str = "store to a leaf that several words lead to, leaf words change";
const FINDS_ITSELF: &str = "store makes its own word a leaf";
const LOSES_ITSELF: &str = "store of a present word that makes its own word no leaf";

/// Where a root or directory word leads.
#[derive(Clone, Copy, PartialEq, Eq)]
enum Led {
    /// It is absent.
    Nowhere,
    /// It is broken.
    Astray,
    On,
}

pub fn all() -> Vec<String> {
    let single = [
        OTHER_ID,
        SEVERAL_IDS,
        SAME_VALUE,
        INVALID_LEAF,
        OTHER_ROOT,
        STILL_ROOTED,
        STILL_NAMED,
        BEHIND_ROOTS,
        LEAF_OF_MANY,
        FINDS_ITSELF,
        LOSES_ITSELF,
    ];
    let mut all = single.map(String::from).to_vec();
    for target in TARGETS {
        match target {
            Target::Unused => all.push(change(target, Ordering::Equal)),
            _ => all.extend(CHANGES.map(|ordering| change(target, ordering))),
        }
    }
    for target in [
        Target::Root,
        Target::GlobalRoot,
        Target::Directory,
        Target::DirectoryAndLeaf,
    ] {
        for from in LED {
            all.extend(LED.map(|to| turn(target, from, to)));
        }
        all.extend(
            [Ordering::Less, Ordering::Greater].map(|ordering| by_several(target, ordering)),
        );
    }
    for identification in 0..IDENTIFICATIONS {
        for ordering in [Ordering::Less, Ordering::Greater] {
            all.push(under(identification as u32, ordering));
        }
    }
    all
}

/// What a store finds.
pub struct Before {
    index: usize,
    word: u32,
    target: Target,
    count: usize,
    buffer: [u64; SLOTS],
}

impl Before {
    pub fn of(unit: &Unit, leaves: &ByCounts, record: Record) -> Before {
        let index = record.index as usize;
        Before {
            index,
            word: unit.words[index],
            target: target(&unit.words, index),
            count: leaves.count(),
            buffer: unit.buffer,
        }
    }

    pub fn word(&self) -> u32 {
        self.word
    }

    /// The outcomes of the store, once it is made.
    pub fn outcomes(&self, unit: &Unit, leaves: &ByCounts) -> Vec<String> {
        let context = unit.registers.context;
        let ordering = leaves.count().cmp(&self.count);
        let mut outcomes = vec![change(self.target, ordering)];
        if leaves.count().abs_diff(self.count) > 1 {
            outcomes.push(by_several(self.target, ordering));
        }
        if ordering != Ordering::Equal {
            outcomes.push(under(context, ordering));
        }
        outcomes.extend(self.turn(unit));
        let noted = [
            &self.of_slots(unit)[..],
            &self.of_names(unit, leaves),
            &self.of_leaf(unit, leaves, ordering),
        ]
        .concat();
        let noted = noted.into_iter().filter(|&(holds, _)| holds);
        outcomes.extend(noted.map(|(_, outcome)| outcome.to_string()));
        outcomes
    }

    fn of_slots(&self, unit: &Unit) -> [(bool, &'static str); 3] {
        let gone = self.emptied_ids(unit);
        let context = unit.registers.context;
        [
            (gone.iter().any(|&id| id != context), OTHER_ID),
            (gone.iter().any(|&id| id != gone[0]), SEVERAL_IDS),
            (self.word == unit.words[self.index], SAME_VALUE),
        ]
    }

    /// What the word named is still named by another, or nobody asked it.
    fn of_names(&self, unit: &Unit, leaves: &ByCounts) -> [(bool, &'static str); 3] {
        let (old, new) = (self.word, unit.words[self.index]);
        let left = old != new && led(self.target, old, unit) == Led::On;
        let number = (old ^ PRESENT) as usize;
        let is_root = matches!(self.target, Target::Root | Target::GlobalRoot);
        let is_directory = matches!(self.target, Target::Directory | Target::DirectoryAndLeaf);
        let is_behind = self.index == ROOTS && led(Target::Root, new, unit) == Led::On;
        [
            (left && is_root && leaves.roots_of(number) > 0, STILL_ROOTED),
            (
                left && is_directory && leaves.words_of(number) > 0,
                STILL_NAMED,
            ),
            (is_behind, BEHIND_ROOTS),
        ]
    }

    fn of_leaf(
        &self,
        unit: &Unit,
        leaves: &ByCounts,
        ordering: Ordering,
    ) -> [(bool, &'static str); 5] {
        let context = unit.registers.context as usize;
        let new = unit.words[self.index];
        let is_present = new >= PRESENT;
        let (rises, changes) = (ordering == Ordering::Greater, ordering != Ordering::Equal);
        let has_no_root = unit.words[context] < PRESENT && self.index != context;
        let is_leaf = self.target == Target::Leaf;
        let is_shared = is_leaf && leaves.words_of(self.index / TABLE_WORDS) > 1;
        let was_one = is_any_leaf(self.target);
        let is_one = is_any_leaf(target(&unit.words, self.index));
        [
            (is_leaf && rises && new >> 30 == 2, INVALID_LEAF),
            (changes && has_no_root, OTHER_ROOT),
            (changes && is_shared, LEAF_OF_MANY),
            (is_present && !was_one && is_one, FINDS_ITSELF),
            (is_present && was_one && !is_one, LOSES_ITSELF),
        ]
    }

    /// How the word led on before and how it leads on now, where walks go through it.
    fn turn(&self, unit: &Unit) -> Option<String> {
        if matches!(self.target, Target::Leaf | Target::Unused) {
            return None;
        }
        let from = led(self.target, self.word, unit);
        let to = led(self.target, unit.words[self.index], unit);
        Some(turn(self.target, from, to))
    }

    /// The identifications of the slots that the store emptied.
    fn emptied_ids(&self, unit: &Unit) -> Vec<u32> {
        (0..SLOTS)
            .filter(|&slot| self.buffer[slot] != unit.buffer[slot])
            .map(|slot| Entry::unpack(self.buffer[slot]).page_id)
            .collect()
    }
}

fn is_any_leaf(target: Target) -> bool {
    matches!(target, Target::Leaf | Target::DirectoryAndLeaf)
}

/// Where the word leads as a root or as a directory word.
fn led(target: Target, word: u32, unit: &Unit) -> Led {
    let length = match target {
        Target::Root | Target::GlobalRoot => DIRECTORY_WORDS,
        _ => TABLE_WORDS,
    };
    match word.checked_sub(PRESENT) {
        None => Led::Nowhere,
        Some(number) if (1..unit.words.len() / length).contains(&(number as usize)) => Led::On,
        Some(_) => Led::Astray,
    }
}

fn verb(ordering: Ordering) -> &'static str {
    match ordering {
        Ordering::Less => "fall",
        Ordering::Equal => "stay",
        Ordering::Greater => "rise",
    }
}

fn change(target: Target, ordering: Ordering) -> String {
    format!("store to {}, leaf words {}", name(target), verb(ordering))
}

fn by_several(target: Target, ordering: Ordering) -> String {
    format!("{} by more than one", change(target, ordering))
}

fn under(identification: u32, ordering: Ordering) -> String {
    let verb = verb(ordering);
    format!("store under identification {identification}, leaf words {verb}")
}

fn turn(target: Target, from: Led, to: Led) -> String {
    let word = |led| match led {
        Led::Nowhere => "absent",
        Led::Astray => "broken",
        Led::On => "good",
    };
    format!("store to {}, {} to {}", name(target), word(from), word(to))
}
