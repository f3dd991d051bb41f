//! The ways of accepted served accesses.

use super::Served;
use crate::expected::{AT, FAULT};
use crate::fault;
use crate::outcome::walk::name;
use reference::*;

const LEVELS: [Level; 3] = [Level::Root, Level::Directory, Level::Leaf];

/// The outcomes that have to happen outside sequences and in them.
pub fn all(call: &str) -> Vec<String> {
    let mut all = Vec::new();
    let mut add = |path: &str| all.push(format!("{call}, {path}"));
    for path in [
        "enable off",
        "linear",
        "first try hits, at",
        "miss, load, at",
    ] {
        add(path);
    }
    for value in 1..8 {
        add(&first_try_hits(value));
    }
    for value in 1..=8 {
        add(&miss_and_load(value));
    }
    for path in endings_without_leaf(&LEVELS) {
        add(&path);
    }
    for value in fault::OF_WALKS {
        add(&fault::name(value));
    }
    for draw in 0..4 {
        add(&to_the_draws_slot(draw));
        add(&to_a_matching_slot(draw as usize));
    }
    for mode in 0..4 {
        add(mode_name(mode == 1 || mode == 3, mode >= 2));
    }
    for path in [
        "hit on a global entry",
        "hit on a global entry of another page_id",
        "hit on an own entry",
        "broken global tree over an own leaf",
        "load of an own leaf",
        "load of a global leaf",
        "load of a leaf with software bits",
        "load to a matching slot of the draw's set",
        "load to a matching slot of another set",
        "load over a global entry of another page_id",
        "load over an entry not valid",
        "load over an empty slot",
        "load over another page's entry",
        "second try misses, the loaded slot selected",
        "second try misses, another slot selected",
        "context 0",
        "context 62",
        "loads 0",
        "loads 1",
    ] {
        add(path);
    }
    all
}

/// The faults 16 and 32, the former for walks that are absent at one of the levels.
pub fn endings_without_leaf(levels: &[Level]) -> Vec<String> {
    let mut endings = Vec::new();
    for &global in levels {
        endings.extend(levels.iter().map(|&own| absent(own, global)));
    }
    for level in [Level::Root, Level::Directory] {
        endings.extend([Tree::Global, Tree::Own].map(|tree| broken(level, tree)));
    }
    endings
}

/// The way that an accepted access took.
pub fn of(call: &str, served: &Served) -> Vec<String> {
    let Served {
        registers, access, ..
    } = *served;
    let mut paths = vec![
        format!("loads {}", served.expected.words[2]),
        mode_name(access.user, access.write).to_string(),
    ];
    if matches!(registers.context, 0 | 62) {
        paths.push(format!("context {}", registers.context));
    }
    match served.first_try() {
        _ if registers.enable == 0 => paths.push("enable off".to_string()),
        Translation::Linear { .. } => paths.push("linear".to_string()),
        Translation::OneHit { slot, value, .. } => {
            paths.push(first_try_hits(value));
            let entry = Entry::unpack(served.buffer[slot]);
            paths.push(match entry.global {
                true => "hit on a global entry".to_string(),
                false => "hit on an own entry".to_string(),
            });
            if entry.page_id != registers.context {
                paths.push("hit on a global entry of another page_id".to_string());
            }
        }
        Translation::SeveralHits => {}
        Translation::Miss => {
            paths.extend(of_miss(served));
            paths.extend(fault_without_load(served));
        }
    }
    paths
        .into_iter()
        .map(|path| format!("{call}, {path}"))
        .collect()
}

/// The way after a miss of the first try.
pub fn of_miss(served: &Served) -> Vec<String> {
    match (served.walk_tree(Tree::Global), served.walk_tree(Tree::Own)) {
        (Walk::Broken(word, _), own) => {
            let mut paths = vec![broken(word.level, Tree::Global)];
            if matches!(own, Walk::Leaf(_)) {
                paths.push("broken global tree over an own leaf".to_string());
            }
            paths
        }
        (Walk::Absent(_), Walk::Broken(word, _)) => vec![broken(word.level, Tree::Own)],
        (Walk::Absent(global), Walk::Absent(own)) => vec![absent(own.level, global.level)],
        (Walk::Leaf(leaf), _) | (Walk::Absent(_), Walk::Leaf(leaf)) => of_load(served, leaf),
    }
}

/// The whole value of a fault where nothing was loaded.
fn fault_without_load(served: &Served) -> Option<String> {
    match served.expected.words {
        [FAULT, value, 0, _] => Some(fault::name(value)),
        _ => None,
    }
}

fn of_load(served: &Served, leaf: Decided) -> Vec<String> {
    let slot = served.slot_to_load();
    let old = Entry::unpack(served.buffer[slot]);
    let set = slot / LOCATIONS;
    let draw = served.access.draw;
    let is_draws = set == draw as usize;
    let mut paths = Vec::new();
    let mut note = |holds: bool, path: &str| {
        if holds {
            paths.push(path.to_string());
        }
    };
    note(leaf.tree == Tree::Own, "load of an own leaf");
    note(leaf.tree == Tree::Global, "load of a global leaf");
    note(
        leaf.word >> 19 & 0x1FF != 0,
        "load of a leaf with software bits",
    );
    if served.is_of_page(old) {
        note(true, &to_a_matching_slot(set));
        note(is_draws, "load to a matching slot of the draw's set");
        note(!is_draws, "load to a matching slot of another set");
        note(!old.valid, "load over an entry not valid");
        let of_another = old.page_id != served.registers.context;
        note(of_another, "load over a global entry of another page_id");
    } else {
        note(true, &to_the_draws_slot(draw));
        let empty = old == Entry::empty(set);
        note(empty, "load over an empty slot");
        note(!empty, "load over another page's entry");
    }
    match served.expected.words[..2] {
        [AT, _] => note(true, "miss, load, at"),
        [FAULT, 8] => {
            note(true, &miss_and_load(8));
            note(is_draws, "second try misses, the loaded slot selected");
            note(!is_draws, "second try misses, another slot selected");
        }
        [_, value] => note(true, &miss_and_load(value)),
        _ => {}
    }
    paths
}

fn mode_name(user: bool, write: bool) -> &'static str {
    match (user, write) {
        (false, false) => "supervisor read",
        (false, true) => "supervisor write",
        (true, false) => "user read",
        (true, true) => "user write",
    }
}

fn first_try_hits(value: u32) -> String {
    match value {
        0 => "first try hits, at".to_string(),
        _ => format!("first try hits, fault {value}"),
    }
}

fn miss_and_load(value: u32) -> String {
    format!("miss, load, fault {value}")
}

fn absent(own: Level, global: Level) -> String {
    let (own, global) = (name(own), name(global));
    format!("fault 16, absent at {own}, global absent at {global}")
}

fn broken(level: Level, tree: Tree) -> String {
    let tree = match tree {
        Tree::Global => "global",
        Tree::Own => "own",
    };
    format!("fault 32, broken at {} of the {tree} tree", name(level))
}

fn to_the_draws_slot(draw: u32) -> String {
    format!("load to the slot of draw {draw}")
}

fn to_a_matching_slot(set: usize) -> String {
    format!("load to a matching slot of set {set}")
}
