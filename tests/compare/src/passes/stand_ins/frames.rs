//! What a stand-in asks of the frames that leaves map.

use super::fault::Fault;
use super::tree::Tree;
use crate::cases::forest::{PRESENT, TABLE_WORDS};
use crate::passes::words::VALID;
use reference::heap::{Pool, PFNS};

impl Tree<'_> {
    pub fn frames_refused(&self, pool: &Pool) -> bool {
        let mut leaves = self.leaves();
        if self.fault == Fault::FramesEndAtLeafOutside {
            let is_outside = |leaf: &(usize, u32)| pool.place_of(leaf.1 % PFNS).is_none();
            let end = leaves.iter().position(is_outside);
            leaves.truncate(end.unwrap_or(leaves.len()));
        }
        let all = Tree::of(Fault::None, self.words, self.id as u32).leaves();
        let of_others = self.leaves_of_others();
        let is_twice = |a: &(usize, u32), b: &(usize, u32)| {
            a.0 != b.0 && a.1 % PFNS == b.1 % PFNS && self.twice_counts(pool, *a, *b)
        };
        if self.fault == Fault::FrameTwiceWithPreviousOnly {
            let is_free = |leaf: &(usize, u32)| self.free_counts(pool, leaf.1);
            let is_pair = |pair: &[(usize, u32)]| is_twice(&pair[0], &pair[1]);
            return leaves.windows(2).any(is_pair) || leaves.iter().any(is_free);
        }
        let others_too = self.fault == Fault::FrameTwiceByOthersRefused;
        let twice_among = match self.fault {
            Fault::HiddenFreePasses => &all,
            _ => &leaves,
        };
        let twice = twice_among.iter().any(|a| {
            twice_among.iter().any(|b| is_twice(a, b))
                || others_too && of_others.iter().any(|b| is_twice(a, b))
        });
        let is_free = |&(_, word): &(usize, u32)| self.free_counts(pool, word);
        let others_free = self.fault == Fault::FreeByOthersRefused && of_others.iter().any(is_free);
        let free = match self.fault {
            Fault::HiddenTwicePasses => all.iter().any(is_free),
            _ => leaves.iter().any(is_free),
        };
        twice || free || others_free
    }

    /// The own leaves' indices and words, absent ones too where the fault takes them.
    pub fn leaves(&self) -> Vec<(usize, u32)> {
        let absent_too = matches!(
            self.fault,
            Fault::FrameTwiceByAbsentRefused | Fault::FreeByAbsentRefused
        );
        let is_hidden = |page: u32| match self.fault {
            Fault::HiddenTwicePasses | Fault::HiddenFreePasses => self.is_hidden(page),
            _ => false,
        };
        self.leaf_words()
            .filter(|(page, _)| !is_hidden(*page))
            .map(|(_, index)| (index, self.words[index]))
            .filter(|(_, word)| *word >= PRESENT || absent_too && *word != 0)
            .collect()
    }

    fn leaves_of_others(&self) -> Vec<(usize, u32)> {
        let is_asked = matches!(
            self.fault,
            Fault::FrameTwiceByOthersRefused | Fault::FreeByOthersRefused
        );
        let roots = (0..64).filter(|&root| is_asked && root != self.id);
        roots
            .flat_map(|root| Tree::of(Fault::None, self.words, root as u32).leaves())
            .collect()
    }

    fn twice_counts(&self, pool: &Pool, a: (usize, u32), b: (usize, u32)) -> bool {
        let pfn = a.1 % PFNS;
        let valid = (a.1 & VALID != 0, b.1 & VALID != 0);
        let one_table = a.0 / TABLE_WORDS == b.0 / TABLE_WORDS;
        let inside = pool.place_of(pfn).is_some();
        let is_first = pfn == pool.first;
        let is_last = pfn + 1 == pool.first + pool.size;
        match self.fault {
            Fault::FrameTwicePasses => false,
            Fault::FrameTwiceInOneTableOnly => inside && one_table,
            Fault::FrameTwiceInTwoTablesOnly => inside && !one_table,
            Fault::FrameTwiceOfValidOnly => inside && valid == (true, true),
            Fault::FrameTwiceOfNotValidOnly => inside && valid == (false, false),
            Fault::FrameTwiceOfBothKindsPasses => inside && valid.0 == valid.1,
            Fault::FrameTwiceBeforePoolRefused => inside || pfn + 1 == pool.first,
            Fault::FrameTwiceBehindPoolRefused => inside || pfn == pool.first + pool.size,
            Fault::FirstFrameTwicePasses => inside && !is_first,
            Fault::LastFrameTwicePasses => inside && !is_last,
            Fault::FreeByAbsentRefused => inside && a.1.min(b.1) >= PRESENT,
            _ => inside,
        }
    }

    fn free_counts(&self, pool: &Pool, word: u32) -> bool {
        let pfn = word % PFNS;
        let is_valid = word & VALID != 0;
        let place = pfn.wrapping_sub(pool.first);
        let is_behind = place == pool.size && place < 4096;
        let inside = pool.place_of(pfn).is_some() && place < 4096;
        let behind = self.fault == Fault::FreeBehindPoolRefused && is_behind;
        if !(inside || behind) || pool.is_held(place) {
            return false;
        }
        match self.fault {
            Fault::FreePasses => false,
            Fault::FreeAndValidPasses => !is_valid,
            Fault::FreeAndNotValidPasses => is_valid,
            Fault::FirstFrameFreePasses => place != 0,
            Fault::LastFrameFreePasses => place + 1 != pool.size,
            Fault::FrameTwiceByAbsentRefused => word >= PRESENT,
            _ => true,
        }
    }
}
