//! What a sweep does with each slot, and why.

use super::walk::name;
use reference::*;

#[derive(Clone, Copy, Debug, PartialEq, Eq)]
pub enum Judged {
    EmptyKept,
    AgreesKept(Tree),
    /// One field alone differs from the leaf's, or several do.
    Differs(&'static str),
    Absent(Level),
    Broken(Tree, Level),
    KeptDespiteContext,
    EmptiedDespiteContext,
    // What no sequence from the start leads to.
    HighBitsKept,
    EmptyWithHighBitsKept,
    EmptyOfAnotherSet,
    PageId63,
    PageId63Agrees,
}

const FIELDS: [&str; 5] = ["global", "valid", "kernel", "we", "pfn"];
const SEVERAL: &str = "several fields";

/// What has to happen in sequences too.
pub fn all_in_sequence() -> Vec<Judged> {
    let mut all = vec![
        Judged::EmptyKept,
        Judged::KeptDespiteContext,
        Judged::EmptiedDespiteContext,
    ];
    all.extend([Tree::Global, Tree::Own].map(Judged::AgreesKept));
    all.extend(FIELDS.map(Judged::Differs));
    all.push(Judged::Differs(SEVERAL));
    all.push(Judged::Absent(Level::Leaf));
    all.extend(all_without_table());
    all
}

/// What becomes of slots whose walk ends before it reaches a table.
pub fn all_without_table() -> Vec<Judged> {
    let levels = [Level::Root, Level::Directory];
    let mut all = levels.map(Judged::Absent).to_vec();
    for tree in [Tree::Global, Tree::Own] {
        all.extend(levels.map(|level| Judged::Broken(tree, level)));
    }
    all
}

/// What has to happen outside sequences alone.
pub fn all_outside() -> Vec<Judged> {
    vec![
        Judged::HighBitsKept,
        Judged::EmptyWithHighBitsKept,
        Judged::EmptyOfAnotherSet,
        Judged::PageId63,
        Judged::PageId63Agrees,
    ]
}

/// Everything that the sweep of these words does with a slot of the buffer.
pub fn judge(slot: usize, number: u64, words: &[u32], context: u32) -> Vec<Judged> {
    let entry = Entry::unpack(number);
    let junk = number >> 44 != 0;
    let set = slot / LOCATIONS;
    if entry == Entry::empty(set) {
        return match junk {
            false => vec![Judged::EmptyKept],
            true => vec![Judged::EmptyKept, Judged::EmptyWithHighBitsKept],
        };
    }
    if (0..SETS).any(|other| entry == Entry::empty(other)) {
        return vec![Judged::EmptyOfAnotherSet];
    }
    let vpn = vpn_of(slot, entry);
    let agrees_under = |page_id| Leaf::of_walk(walk(words, page_id, vpn)) == Some(leaf_of(entry));
    if entry.page_id == 63 {
        return match agrees_under(63) {
            false => vec![Judged::PageId63],
            true => vec![Judged::PageId63, Judged::PageId63Agrees],
        };
    }
    let judged = match walk(words, entry.page_id, vpn) {
        Walk::Absent(word) => Judged::Absent(word.level),
        Walk::Broken(word, _) => Judged::Broken(word.tree, word.level),
        Walk::Leaf(word) => match differing(leaf_of(entry), Leaf::from_word(word))[..] {
            [] => Judged::AgreesKept(word.tree),
            [field] => Judged::Differs(field),
            _ => Judged::Differs(SEVERAL),
        },
    };
    let mut all = vec![judged];
    match (judged, agrees_under(context)) {
        (Judged::AgreesKept(_), agrees) => {
            all.extend(junk.then_some(Judged::HighBitsKept));
            all.extend((!agrees).then_some(Judged::KeptDespiteContext));
        }
        (_, true) => all.push(Judged::EmptiedDespiteContext),
        _ => {}
    }
    all
}

fn differing(held: Leaf, found: Leaf) -> Vec<&'static str> {
    let differ = [
        held.global != found.global,
        held.valid != found.valid,
        held.kernel != found.kernel,
        held.we != found.we,
        held.pfn != found.pfn,
    ];
    FIELDS
        .into_iter()
        .zip(differ)
        .filter_map(|(field, differs)| differs.then_some(field))
        .collect()
}

impl Judged {
    /// Whether the slot's walk decided.
    pub fn is_by_walk(self) -> bool {
        matches!(
            self,
            Judged::AgreesKept(_) | Judged::Differs(_) | Judged::Absent(_) | Judged::Broken(..)
        )
    }

    pub fn name(self) -> String {
        let of = |tree| match tree {
            Tree::Global => "global",
            Tree::Own => "own",
        };
        match self {
            Judged::EmptyKept => "empty slot kept".to_string(),
            Judged::AgreesKept(tree) => format!("slot kept, agrees with the {} leaf", of(tree)),
            Judged::Differs(field) => format!("slot emptied, differs in {field}"),
            Judged::Absent(level) => format!("slot emptied, walk absent at {}", name(level)),
            Judged::Broken(tree, level) => {
                let tree = of(tree);
                format!(
                    "slot emptied, walk broken at {} of the {tree} tree",
                    name(level)
                )
            }
            Judged::HighBitsKept => "agreeing slot kept with its high bits".to_string(),
            Judged::EmptyWithHighBitsKept => "empty slot kept with its high bits".to_string(),
            Judged::EmptyOfAnotherSet => "slot emptied, empty number of another set".to_string(),
            Judged::PageId63 => "slot emptied, page_id 63".to_string(),
            Judged::PageId63Agrees => "slot emptied, page_id 63 and the walk agrees".to_string(),
            Judged::KeptDespiteContext => {
                "slot kept, the walk under the context disagrees".to_string()
            }
            Judged::EmptiedDespiteContext => {
                "slot emptied, the walk under the context agrees".to_string()
            }
        }
    }
}
