//! Outcomes of a walk.

use crate::expected::walk_is_possible;
use reference::*;

const LEVELS: [Level; 3] = [Level::Root, Level::Directory, Level::Leaf];
const STRETCHED: [Level; 2] = [Level::Root, Level::Directory];
const TREES: [Tree; 2] = [Tree::Global, Tree::Own];
const CAUSES: [WhyBroken; 4] = [
    WhyBroken::ReservedBits,
    WhyBroken::NumberZero,
    WhyBroken::WhollyOutside,
    WhyBroken::PartlyOutside,
];
/// From this bit on, a set bit puts a stretch outside every run that is tried.
const LOWEST_SINGLE_BIT: u32 = 5;
const GLOBAL_LEAF: &str = "walk, leaf in the global tree";
const PAGE_ID_TOO_LARGE: &str = "walk not possible, page_id above 63";
const VPN_TOO_LARGE: &str = "walk not possible, vpn above 524287";
const RUN_TOO_SHORT: &str = "walk not possible, run of 1 to 63 words";
const NO_RUN: &str = "walk not possible, no run given";

pub fn all() -> Vec<String> {
    let mut all = vec![GLOBAL_LEAF.to_string()];
    for global in LEVELS {
        all.push(own_leaf(global));
        all.extend(LEVELS.map(|level| own_absent(level, global)));
    }
    for level in STRETCHED {
        for tree in TREES {
            all.extend(CAUSES.map(|why| broken(tree, level, why)));
        }
        all.extend((LOWEST_SINGLE_BIT..31).map(|bit| single_bit(level, bit)));
        all.push(begins_at_end(level));
        all.push(under_63("broken", level));
    }
    for level in LEVELS {
        all.push(absent_with_bits(level));
        all.push(under_63("absent", level));
    }
    all.push(under_63("leaf", Level::Leaf));
    all.extend([Level::Directory, Level::Leaf].map(ends_at_end));
    all.extend([64, 16384, 1024, 512, 65].map(run_of));
    let impossible = [PAGE_ID_TOO_LARGE, VPN_TOO_LARGE, RUN_TOO_SHORT, NO_RUN];
    all.extend(impossible.map(String::from));
    all
}

pub fn of(words: &[u32], page_id: u32, vpn: u32) -> Vec<String> {
    if !walk_is_possible(page_id, vpn, words) {
        return impossible(words, page_id, vpn);
    }
    let mut outcomes = vec![run_of(words.len())];
    let (ending, decided) = match walk(words, page_id, vpn) {
        Walk::Leaf(leaf) => {
            outcomes.push(of_leaf(words, leaf, page_id, vpn));
            ("leaf", leaf)
        }
        Walk::Absent(word) => {
            outcomes.extend(of_absent(words, word, page_id, vpn));
            ("absent", word)
        }
        Walk::Broken(word, why) => {
            outcomes.extend(of_broken(words, word, why));
            ("broken", word)
        }
    };
    if page_id == 63 {
        outcomes.push(under_63(ending, decided.level));
    }
    if stretch_end(decided, vpn) == Some(words.len()) {
        outcomes.push(ends_at_end(decided.level));
    }
    outcomes
}

fn of_leaf(words: &[u32], leaf: Decided, page_id: u32, vpn: u32) -> String {
    match leaf.tree {
        Tree::Global => GLOBAL_LEAF.to_string(),
        Tree::Own => own_leaf(global_absent_at(words, page_id, vpn)),
    }
}

fn of_absent(words: &[u32], decided: Decided, page_id: u32, vpn: u32) -> Vec<String> {
    let global = global_absent_at(words, page_id, vpn);
    let mut outcomes = vec![own_absent(decided.level, global)];
    if decided.word != 0 {
        outcomes.push(absent_with_bits(decided.level));
    }
    outcomes
}

fn of_broken(words: &[u32], decided: Decided, why: WhyBroken) -> Vec<String> {
    let mut outcomes = vec![broken(decided.tree, decided.level, why)];
    let length = match decided.level {
        Level::Root => 512,
        _ => 1024,
    };
    let number_and_reserved = (decided.word & 0x7FFF_FFFF) as usize;
    let highest = number_and_reserved.checked_ilog2().unwrap_or(0);
    let rest = number_and_reserved ^ (1 << highest);
    let rest_is_inside = rest > 0 && length * (rest + 1) <= words.len();
    if rest_is_inside && highest >= LOWEST_SINGLE_BIT {
        outcomes.push(single_bit(decided.level, highest));
    }
    if length * number_and_reserved == words.len() {
        outcomes.push(begins_at_end(decided.level));
    }
    outcomes
}

/// Where the walk of the global tree ended before the own tree was walked.
fn global_absent_at(words: &[u32], page_id: u32, vpn: u32) -> Level {
    match walk_tree(words, Tree::Global, page_id, vpn) {
        Walk::Absent(word) => word.level,
        other => panic!("the own tree was walked after {other:?}"),
    }
}

/// The end of the directory or table in which the deciding word stands.
fn stretch_end(decided: Decided, vpn: u32) -> Option<usize> {
    match decided.level {
        Level::Root => None,
        Level::Directory => Some(decided.index - (vpn / 1024) as usize + 512),
        Level::Leaf => Some(decided.index - (vpn % 1024) as usize + 1024),
    }
}

fn impossible(words: &[u32], page_id: u32, vpn: u32) -> Vec<String> {
    let mut outcomes = Vec::new();
    if page_id > 63 {
        outcomes.push(PAGE_ID_TOO_LARGE.to_string());
    }
    if vpn > 524_287 {
        outcomes.push(VPN_TOO_LARGE.to_string());
    }
    match words.len() {
        0 => outcomes.push(NO_RUN.to_string()),
        1..=63 => outcomes.push(RUN_TOO_SHORT.to_string()),
        _ => {}
    }
    outcomes
}

pub fn name(level: Level) -> &'static str {
    match level {
        Level::Root => "root",
        Level::Directory => "directory",
        Level::Leaf => "leaf",
    }
}

fn own_leaf(global: Level) -> String {
    let global = name(global);
    format!("walk, leaf in the own tree, global absent at {global}")
}

fn own_absent(level: Level, global: Level) -> String {
    let (level, global) = (name(level), name(global));
    format!("walk, absent at {level}, global absent at {global}")
}

pub fn broken(tree: Tree, level: Level, why: WhyBroken) -> String {
    let tree = match tree {
        Tree::Global => "global",
        Tree::Own => "own",
    };
    let why = match why {
        WhyBroken::ReservedBits => "reserved bits",
        WhyBroken::NumberZero => "number 0",
        WhyBroken::WhollyOutside => "stretch wholly outside",
        WhyBroken::PartlyOutside => "stretch partly outside",
    };
    format!("walk, broken at {} of the {tree} tree, {why}", name(level))
}

pub fn single_bit(level: Level, bit: u32) -> String {
    format!("walk, broken at {} by bit {bit} alone", name(level))
}

pub fn begins_at_end(level: Level) -> String {
    let level = name(level);
    format!("walk, broken at {level}, stretch begins at the run's end")
}

pub fn ends_at_end(level: Level) -> String {
    let stretch = match level {
        Level::Leaf => "table",
        _ => "directory",
    };
    format!("walk, {stretch} ends at the run's end")
}

fn absent_with_bits(level: Level) -> String {
    format!("walk, absent at {} with other bits set", name(level))
}

fn under_63(ending: &str, level: Level) -> String {
    format!("walk under page_id 63, {ending} at {}", name(level))
}

fn run_of(length: usize) -> String {
    match length {
        64 | 16384 => format!("walk, run of {length} words"),
        _ if length.is_multiple_of(1024) => "walk, run a multiple of 1024".to_string(),
        _ if length.is_multiple_of(512) => "walk, run a multiple of 512 alone".to_string(),
        _ => "walk, run no multiple of 512".to_string(),
    }
}
