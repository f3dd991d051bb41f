//! The fields of a leaf word that an entry has too.

use crate::walk::{Decided, Tree, Walk};

#[derive(Clone, Copy, Debug, PartialEq, Eq)]
pub struct Leaf {
    pub global: bool,
    pub valid: bool,
    pub kernel: bool,
    pub we: bool,
    pub pfn: u32,
}

impl Leaf {
    /// "Leaf: present 1, valid 1, kernel 1, we 1, software 9, pfn 19"; the global tree's
    /// "leaf gives global 1", the own tree's "global 0".
    pub fn from_word(decided: Decided) -> Leaf {
        let bit = |n: u32| (decided.word >> n) & 1 == 1;
        Leaf {
            global: decided.tree == Tree::Global,
            valid: bit(30),
            kernel: bit(29),
            we: bit(28),
            pfn: decided.word % (1 << 19),
        }
    }

    /// The leaf that a walk found, if it found one.
    pub fn of_walk(walk: Walk) -> Option<Leaf> {
        match walk {
            Walk::Leaf(decided) => Some(Leaf::from_word(decided)),
            Walk::Absent(_) | Walk::Broken(..) => None,
        }
    }
}
