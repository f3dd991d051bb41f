//! Sequences of a unit and a pool with passes between: maps fill a tree, accesses load its pages,
//! and passes age and take them away until nothing is left.

use super::plot::{any_id, Plot};
use super::words::{any_place, VALID};
use crate::cases::forest::PRESENT;
use crate::cases::{spoil, state};
use crate::pools::chain::Chain;
use crate::pools::pooled::Pooled;
use crate::pools::shapes;
use crate::protocol::{Call, PoolCall};
use crate::put::PutJudged;
use crate::random::Random;
use crate::witness::{LookAt, Told, Witness};
use reference::collector::{aged_or_gone, by_tables, grounds, Unfit};
use reference::heap::{mapped_word, PFNS};
use reference::*;

const CALL: &str = "sequence with passes";
const STEPS_TO_ALL_WORDS: usize = 48;

const AGED_FAULTS: &str = "access to an aged page faults";
const GONE_FAULTS: &str = "access to a page that was taken away is absent";
const MAPPED_AGAIN: &str = "a frame that a pass gave back is mapped again";
const TOUCHED: &str = "an aged page is made valid again";
const MADE_FREE: &str = "a frame is given while a leaf maps it";
const OF_ANOTHER: &str = "pass for another identification than CONTEXT";
const NOTHING_LEFT: &str = "nothing is left after two passes with calls between that store nothing";

/// What accepted passes come to: whether pages are aged, and whether pages are taken away.
const COME_TO: [(bool, bool, &str); 4] = [
    (false, false, "pass visits none"),
    (true, false, "pass ages"),
    (false, true, "pass takes away"),
    (true, true, "pass ages and takes away"),
];

/// The numbers that passes in sequences are refused with.
const REFUSED: [u32; 5] = [1, 2, 3, 5, 12];

pub fn all() -> Vec<String> {
    let mut all = REFUSED.map(refused).to_vec();
    all.extend(COME_TO.map(|(_, _, name)| named(name)));
    let single = [
        AGED_FAULTS,
        GONE_FAULTS,
        MAPPED_AGAIN,
        TOUCHED,
        MADE_FREE,
        OF_ANOTHER,
        NOTHING_LEFT,
    ];
    all.extend(single.map(named));
    all
}

struct Sequence {
    pooled: Pooled,
    id: u32,
    /// Identifications with trees, the own one among them.
    ids: Vec<u32>,
    /// Pages of the own tree, with the indices of their leaves.
    pages: Vec<(u32, u32)>,
    /// Frames that passes gave back.
    back: Vec<u32>,
    /// Pages that passes took away.
    gone: Vec<u32>,
    /// That of the last access.
    page: u32,
}

/// One sequence, from a start and a new pool.
pub fn put(to: &mut dyn PutJudged, random: &mut Random) {
    let mut sequence = Sequence::begin(to, random);
    for step in 0..40 + random.below(160) {
        if step % STEPS_TO_ALL_WORDS == 0 {
            sequence.pooled.ask_for_words(to);
        }
        sequence.step(to, random);
    }
    sequence.finish(to, random);
}

impl Sequence {
    fn begin(to: &mut dyn PutJudged, random: &mut Random) -> Sequence {
        let size = match random.one_in(2) {
            true => 4 + random.bits(4),
            false => shapes::size(random),
        };
        let chain = Chain::begin(to, random, size);
        let id = any_id(random);
        let plot = planted(random, &chain, id);
        let others = plot.others.iter().map(|other| other.root as u32);
        let mut sequence = Sequence {
            id,
            ids: others.filter(|&root| root < 63).chain([id]).collect(),
            pages: pages(random, &plot),
            pooled: Pooled::begin(to, random, chain, plot.words),
            back: Vec::new(),
            gone: Vec::new(),
            page: 0,
        };
        for (number, value) in [(2, 1), (5, id), (1, random.bits(3))] {
            sequence.unit_call(to, Call::Setting { number, value }, Vec::new());
        }
        sequence
    }

    fn step(&mut self, to: &mut dyn PutJudged, random: &mut Random) {
        match random.below(32) {
            0 => self.take(to),
            1 => self.give(to, random, true),
            2 => self.give(to, random, false),
            3 => drop(self.pooled.chain.call(to, PoolCall::Held, Vec::new())),
            4..=9 => self.map(to, random),
            10..=13 => self.pass(to, self.id),
            14 => {
                let id = random.pick(&self.ids);
                self.pass(to, id);
            }
            15 => self.refused_pass(to, random),
            16 | 17 => self.touch(to, random),
            18..=20 => self.setting(to, random),
            21 if !self.grounds(self.id).is_empty() => self.mend(to),
            _ => self.access(to, random),
        }
    }

    /// Passes until nothing is left, with calls between that store nothing.
    fn finish(&mut self, to: &mut dyn PutJudged, random: &mut Random) {
        self.mend(to);
        for _ in 0..2 {
            self.pass(to, self.id);
            for _ in 0..random.below(8) {
                match random.below(8) {
                    0 => self.take(to),
                    1 => self.give(to, random, true),
                    2 => self.setting(to, random),
                    _ => self.access(to, random),
                }
            }
        }
        assert!(self.visits(self.id).is_empty(), "something is left");
        self.pass_known(to, self.id, vec![named(NOTHING_LEFT)]);
        self.pooled.ask_for_words(to);
    }

    fn take(&mut self, to: &mut dyn PutJudged) {
        self.pooled.chain.call(to, PoolCall::Take, Vec::new());
    }

    /// Of a live frame that no own leaf maps, or of one that an own leaf maps.
    fn give(&mut self, to: &mut dyn PutJudged, random: &mut Random, unmapped: bool) {
        let mapped: Vec<u32> = self
            .visits(self.id)
            .iter()
            .map(|leaf| leaf.1 % PFNS)
            .collect();
        let mut live = self.pooled.chain.ours.live_frames();
        live.retain(|pfn| mapped.contains(pfn) != unmapped);
        if live.is_empty() {
            return;
        }
        let outcomes = match unmapped {
            true => Vec::new(),
            false => vec![named(MADE_FREE)],
        };
        let pfn = random.pick(&live);
        self.pooled.chain.call(to, PoolCall::Give { pfn }, outcomes);
    }

    /// A map at a page that has no leaf, where a frame is free.
    fn map(&mut self, to: &mut dyn PutJudged, random: &mut Random) {
        let (_, index) = random.pick(&self.pages);
        let is_there = self.pooled.words()[index as usize] >= PRESENT;
        let Some(pfn) = self.pooled.chain.ours.lowest_not_live() else {
            return;
        };
        if is_there && !random.one_in(16) {
            return;
        }
        let leaf = random.bits(32) | random.pick(&[0, VALID, VALID]);
        let call = PoolCall::Map { index, leaf };
        let request = self.pooled.request_on_pool(call);
        let store = (index, mapped_word(leaf, pfn));
        let look_at = LookAt::One(self.page);
        let witness = self
            .pooled
            .witnesses
            .hear_store_of_map(&request, store, look_at);
        let outcomes = match self.back.contains(&pfn) {
            true => vec![named(MAPPED_AGAIN)],
            false => Vec::new(),
        };
        self.pooled.put_on_pool(to, witness, outcomes, request);
    }

    /// A pass, by what the reader's words say of it.
    fn pass(&mut self, to: &mut dyn PutJudged, id: u32) {
        let mut outcomes = Vec::new();
        if id != self.pooled.registers.context {
            outcomes.push(named(OF_ANOTHER));
        }
        self.pass_known(to, id, outcomes);
    }

    fn pass_known(&mut self, to: &mut dyn PutJudged, id: u32, mut outcomes: Vec<String>) {
        let request = self.pooled.request_on_pool(PoolCall::Collect { id });
        if !self.grounds(id).is_empty() {
            self.pooled.chain.expect_back(Vec::new());
            outcomes.push(refused(12));
            return self
                .pooled
                .put_on_pool(to, Witness::of_refusal(12), outcomes, request);
        }
        let visits = self.visits(id);
        let mut gone = visits.clone();
        gone.retain(|(_, word)| word & VALID == 0);
        let frames: Vec<u32> = gone.iter().map(|leaf| leaf.1 % PFNS).collect();
        let stores: Vec<(u32, u32)> = visits
            .iter()
            .map(|&(index, word)| (index, aged_or_gone(word)))
            .collect();
        let come_to = (gone.len() < visits.len(), !gone.is_empty());
        let name = COME_TO
            .iter()
            .find(|(ages, takes, _)| (*ages, *takes) == come_to);
        outcomes.extend(name.map(|(_, _, name)| named(name)));
        self.back.extend(&frames);
        for &(index, _) in &gone {
            let page = self.pages.iter().find(|(_, leaf)| *leaf == index);
            self.gone.extend(page.map(|(page, _)| *page));
        }
        self.pooled.chain.expect_back(frames);
        let look_at = LookAt::One(self.page);
        let witness = self
            .pooled
            .witnesses
            .hear_stores_of_pass(&request, &stores, look_at);
        self.pooled.put_on_pool(to, witness, outcomes, request);
    }

    /// A pass that is refused before the tree is looked at. Where it is handed another run, the
    /// words are asked for before the program forgets them.
    fn refused_pass(&mut self, to: &mut dyn PutJudged, random: &mut Random) {
        let mut grounds = spoil::some(random, &[1, 2, 3, 5]);
        if grounds != [3] {
            grounds.retain(|&ground| ground != 3);
        } else {
            self.pooled.ask_for_words(to);
        }
        let id = match grounds.contains(&5) {
            true => random.pick(&[63, 64, u32::MAX]),
            false => self.id,
        };
        let mut request = self.pooled.request_on_pool(PoolCall::Collect { id });
        let length = self.pooled.words().len();
        spoil::spoil(random, &mut request, length, &grounds);
        self.pooled.run_is_kept = !grounds.contains(&3);
        let Some(&number) = grounds.first() else {
            return;
        };
        self.pooled.chain.expect_back(Vec::new());
        let witness = Witness::of_refusal(number);
        self.pooled
            .put_on_pool(to, witness, vec![refused(number)], request);
    }

    /// What a handler does with an aged page that is used again.
    fn touch(&mut self, to: &mut dyn PutJudged, random: &mut Random) {
        let mut aged = self.visits(self.id);
        aged.retain(|(_, word)| word & VALID == 0);
        if !aged.is_empty() {
            let (index, word) = random.pick(&aged);
            let value = word | VALID;
            self.unit_call(to, Call::Store { index, value }, vec![named(TOUCHED)]);
        }
    }

    /// Clears the leaves of frames that are free or mapped twice.
    fn mend(&mut self, to: &mut dyn PutJudged) {
        let mut seen = Vec::new();
        for (index, word) in self.visits(self.id) {
            let pfn = word % PFNS;
            let is_held = self.pooled.chain.ours.live_frames().contains(&pfn);
            if !is_held || seen.contains(&pfn) {
                let value = word & !PRESENT;
                self.unit_call(to, Call::Store { index, value }, Vec::new());
            }
            seen.push(pfn);
        }
    }

    fn setting(&mut self, to: &mut dyn PutJudged, random: &mut Random) {
        let (number, value) = match random.below(4) {
            0 => (5, random.pick(&self.ids)),
            1 => (5, self.id),
            2 => (1, random.bits(3)),
            _ => (1, 7),
        };
        self.unit_call(to, Call::Setting { number, value }, Vec::new());
    }

    /// An access to one of the own pages, whoever makes it.
    fn access(&mut self, to: &mut dyn PutJudged, random: &mut Random) {
        if !random.one_in(3) {
            self.page = random.pick(&self.pages).0;
        }
        let access = Access {
            address: state::address_on(random, self.page),
            user: random.one_in(2),
            write: random.one_in(2),
            draw: random.bits(2),
        };
        self.unit_call(to, Call::Served(access), Vec::new());
    }

    fn unit_call(&mut self, to: &mut dyn PutJudged, call: Call, mut outcomes: Vec<String>) {
        let request = self.pooled.request(call);
        let witness = self.pooled.witnesses.hear(&request, LookAt::One(self.page));
        if let Told::Access { said, .. } = witness.told {
            outcomes.extend(self.of_access(said).map(named));
        }
        self.pooled.put_unit_call(to, witness, outcomes, request);
    }

    /// What an access shows of the passes before it.
    fn of_access(&self, said: Said) -> Option<&'static str> {
        let Said::Fault(value) = said else {
            return None;
        };
        let is_own = self.pooled.registers.context == self.id;
        match value {
            4..=8 if is_own => Some(AGED_FAULTS),
            0x310 if is_own && self.gone.contains(&self.page) => Some(GONE_FAULTS),
            _ => None,
        }
    }

    /// The index and the word of each leaf that a pass visits, by the reader's words.
    fn visits(&self, id: u32) -> Vec<(u32, u32)> {
        by_tables::leaves(self.pooled.words(), id)
            .iter()
            .filter(|leaf| self.pooled.chain.pool.place_of(leaf.word % PFNS).is_some())
            .map(|leaf| (leaf.index as u32, leaf.word))
            .collect()
    }

    fn grounds(&self, id: u32) -> Vec<Unfit> {
        let words = self.pooled.words();
        grounds(
            words,
            &self.pooled.chain.pool,
            id,
            &by_tables::leaves(words, id),
        )
    }
}

/// A run with a tree of no leaves yet, and others.
fn planted(random: &mut Random, chain: &Chain, id: u32) -> Plot {
    loop {
        let length = 1024 * random.pick(&[3, 4, 6, 8]);
        let mut plot = Plot::bare(random, length, id);
        plot.pool = chain.pool;
        let tables = 1 + random.below(2);
        plot.own = plot.grow(random, id as usize, tables);
        for _ in 0..random.below(4) {
            plot.grow_other(random);
        }
        if plot.own.as_ref().is_some_and(|own| !own.tables.is_empty()) {
            return plot;
        }
    }
}

/// Some of the own pages, with the indices of their leaves.
fn pages(random: &mut Random, plot: &Plot) -> Vec<(u32, u32)> {
    let all = plot.tree().pages();
    let number = random.pick(&[3, 8, 24]);
    let mut pages: Vec<(u32, u32)> = (0..number)
        .map(|_| {
            let (page, index) = all[any_place(random, all.len())];
            (page, index as u32)
        })
        .collect();
    pages.sort_unstable();
    pages.dedup();
    pages
}

fn named(what: &str) -> String {
    format!("{CALL}, {what}")
}

fn refused(number: u32) -> String {
    format!("{CALL}, pass refused {number}")
}
