//! Sequences of a unit and a pool: takes, gives, held numbers and maps between the unit's own calls,
//! each handed what the last one left.

use super::chain::Chain;
use super::comparison::Comparison;
use super::pooled::Pooled;
use super::shapes;
use crate::cases::forest::PRESENT;
use crate::cases::spoil;
use crate::cases::steps::Steps;
use crate::cases::world::World;
use crate::protocol::{Call, PoolCall, Request};
use crate::random::Random;
use crate::witness::{LookAt, Told, Witness};
use reference::*;
use std::collections::BTreeMap;

const STEPS_TO_ALL_WORDS: usize = 64;

const CALL: &str = "sequence with a pool";
const MAPPED_AT: &str = "sequence with a pool, a mapped page is at its frame's address";
const MAPPED_AGAIN: &str = "sequence with a pool, a frame that was given is mapped again";

/// The numbers that maps in sequences are refused with.
const REFUSED_MAPS: [u32; 5] = [1, 2, 3, 6, 10];

pub fn all() -> Vec<String> {
    let mut all = REFUSED_MAPS.map(map_refused).to_vec();
    all.extend([0, 1, 2].map(map_empties));
    let mut add = |outcome: &str| all.push(format!("{CALL}, {outcome}"));
    for outcome in [
        "take accepted",
        "take refused 10",
        "give accepted",
        "give refused 11",
        "held",
    ] {
        add(outcome);
    }
    all.extend([MAPPED_AT, MAPPED_AGAIN].map(String::from));
    all
}

struct Sequence {
    pooled: Pooled,
    steps: Steps,
    /// The frames that maps put into table words, by the word's index.
    mapped: BTreeMap<u32, u32>,
    /// Frames that were mapped and given since.
    given: Vec<u32>,
}

/// One sequence of so many calls, from a start and a new pool.
pub fn put(comparison: &mut Comparison, random: &mut Random, steps: usize) {
    let mut sequence = Sequence::begin(comparison, random);
    for step in 1..=steps {
        if step.is_multiple_of(STEPS_TO_ALL_WORDS) {
            sequence.pooled.ask_for_words(comparison);
        }
        sequence.step(comparison, random);
    }
    sequence.pooled.ask_for_words(comparison);
}

impl Sequence {
    fn begin(comparison: &mut Comparison, random: &mut Random) -> Sequence {
        let size = match random.one_in(2) {
            true => 1 + random.bits(3),
            false => shapes::size(random),
        };
        let (world, words) = World::new(random);
        let chain = Chain::begin(comparison, random, size);
        Sequence {
            pooled: Pooled::begin(comparison, random, chain, words),
            steps: Steps::new(random, world),
            mapped: BTreeMap::new(),
            given: Vec::new(),
        }
    }

    fn step(&mut self, comparison: &mut Comparison, random: &mut Random) {
        match random.below(32) {
            0..=3 => self.take(comparison),
            4..=8 => self.give(comparison, random),
            9 | 10 => {
                let outcomes = vec![format!("{CALL}, held")];
                self.pooled.chain.call(comparison, PoolCall::Held, outcomes);
            }
            11..=15 => self.map(comparison, random),
            16 => self.refused_map(comparison, random),
            _ => self.unit_call(comparison, random),
        }
    }

    fn take(&mut self, comparison: &mut Comparison) {
        let outcome = match self.pooled.chain.ours.is_full() {
            true => format!("{CALL}, take refused 10"),
            false => format!("{CALL}, take accepted"),
        };
        self.pooled
            .chain
            .call(comparison, PoolCall::Take, vec![outcome]);
    }

    /// Mostly of a live frame, where there is one.
    fn give(&mut self, comparison: &mut Comparison, random: &mut Random) {
        let live = self.pooled.chain.ours.live_frames();
        let pool = &self.pooled.chain.pool;
        let around = pool.first.wrapping_sub(1).wrapping_add(random.bits(3));
        let any = random.bits(19);
        let pfn = match (live.is_empty(), random.below(4)) {
            (_, 0) => random.pick(&[around, pool.first + pool.size, any]),
            (true, _) => pool.first,
            (false, _) => random.pick(&live),
        };
        let outcome = match live.contains(&pfn) {
            true => format!("{CALL}, give accepted"),
            false => format!("{CALL}, give refused 11"),
        };
        if live.contains(&pfn) && self.mapped.values().any(|&frame| frame == pfn) {
            self.given.push(pfn);
        }
        let call = PoolCall::Give { pfn };
        self.pooled.chain.call(comparison, call, vec![outcome]);
    }

    /// A map where the unit's stores go, which is refused where no frame is free.
    fn map(&mut self, comparison: &mut Comparison, random: &mut Random) {
        let words = self.pooled.words();
        let (index, leaf) = self.steps.world().store(random, words);
        let request = self.pooled.request_on_pool(PoolCall::Map { index, leaf });
        let lowest = self.pooled.chain.ours.lowest_not_live();
        let look_at = LookAt::One(self.steps.page());
        let mut outcomes = Vec::new();
        let witness = match lowest {
            Some(pfn) => {
                if self.given.contains(&pfn) {
                    outcomes.push(MAPPED_AGAIN.to_string());
                }
                self.mapped.insert(index, pfn);
                let store = (index, word_of(leaf, pfn));
                self.pooled
                    .witnesses
                    .hear_store_of_map(&request, store, look_at)
            }
            None => {
                outcomes.push(map_refused(10));
                Witness::of_refusal(10)
            }
        };
        if let Told::Map { emptied } = witness.told {
            outcomes.push(map_empties(emptied));
        }
        self.pooled
            .put_on_pool(comparison, witness, outcomes, request);
    }

    /// A map that is refused whether or not a frame is free. Where it is handed another run, the
    /// words are asked for before the program forgets them.
    fn refused_map(&mut self, comparison: &mut Comparison, random: &mut Random) {
        let grounds = spoil::some(random, &[1, 2, 3, 6]);
        if grounds.contains(&3) {
            self.pooled.ask_for_words(comparison);
        }
        let words = self.pooled.words();
        let length = words.len();
        let (index, leaf) = self.steps.world().store(random, words);
        let store = Call::Store { index, value: leaf };
        let mut request = self.pooled.request(store);
        spoil::spoil(random, &mut request, length, &grounds);
        let Call::Store { index, .. } = request.call else {
            panic!("{:?} is no store", request.call);
        };
        let request = Request {
            call: Call::OnPool(PoolCall::Map { index, leaf }),
            pool: Some(Box::new(self.pooled.chain.pool)),
            ..request
        };
        self.pooled.run_is_kept = !grounds.contains(&3);
        let witness = Witness::of_refusal(grounds[0]);
        self.pooled
            .put_on_pool(comparison, witness, vec![map_refused(grounds[0])], request);
    }

    /// An access, a store or a setting that is accepted.
    fn unit_call(&mut self, comparison: &mut Comparison, random: &mut Random) {
        let reader = &self.pooled.witnesses.reader;
        let call = self
            .steps
            .next_call(random, reader.settings(), reader.words());
        let mapped = match call {
            Call::Served(access) => self.frame_of(access),
            _ => None,
        };
        if let Call::Store { index, .. } = call {
            self.mapped.remove(&index);
        }
        let request = self.pooled.request(call);
        let look_at = LookAt::One(self.steps.page());
        let witness = self.pooled.witnesses.hear(&request, look_at);
        let mut outcomes = Vec::new();
        if let (Some(mapped), Some(address)) = (mapped, address_of(&witness)) {
            assert_eq!(address, mapped, "{:?}", request.call);
            outcomes.push(MAPPED_AT.to_string());
        }
        self.pooled
            .put_unit_call(comparison, witness, outcomes, request);
    }

    /// The address in the frame that a map put into the leaf of the access's page.
    fn frame_of(&self, access: Access) -> Option<u32> {
        let reader = &self.pooled.witnesses.reader;
        if !reader.is_enabled() || reader.linear_base(access).is_some() {
            return None;
        }
        let Walk::Leaf(leaf) = reader.walk(access) else {
            return None;
        };
        let pfn = self.mapped.get(&(leaf.index as u32))?;
        Some(pfn * 8192 + access.address % 8192)
    }
}

/// The leaf's bits 30 to 19 with present set and the frame's pfn.
fn word_of(leaf: u32, pfn: u32) -> u32 {
    PRESENT | leaf & 0x7FF8_0000 | pfn
}

/// Where the reader finds the access.
fn address_of(witness: &Witness) -> Option<u32> {
    match witness.told {
        Told::Access {
            said: Said::At(address),
            ..
        } => Some(address),
        _ => None,
    }
}

fn map_refused(number: u32) -> String {
    format!("{CALL}, map refused {number}")
}

fn map_empties(emptied: u32) -> String {
    let slots = match emptied {
        0 => "no slot",
        1 => "1 slot",
        _ => "several slots",
    };
    format!("{CALL}, map empties {slots}")
}
