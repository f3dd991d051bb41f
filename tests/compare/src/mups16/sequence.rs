//! Sequences of a unit whose state and run go on from call to call, with refused calls, boot mode
//! and calls of the other unit between.

use super::call::{Operation, UnitCall, WITH_RUN};
use super::refusals::inside;
use super::unit::{self, judges, Unit};
use super::words;
use crate::cases::state;
use crate::cases::tables::ask_for_tables;
use crate::pools::shapes;
use crate::protocol::{Call, PoolCall, Request};
use crate::put::PutJudged;
use crate::random::Random;
use reference::mups16::{ENTRIES, PAGES};
use reference::{Access, SLOTS};

const CALL: &str = "sequence";

/// Steps of a sequence, and how many of them there are to each look at the run.
const STEPS: usize = 300;
const STEPS_TO_THE_RUN: usize = 40;

const BOOT_MODE_BEGINS: &str = "boot mode begins";
const BOOT_MODE_ENDS: &str = "boot mode ends";
const REFUSED: &str = "a refused call and the old run handed over again";
const RAW: &str = "a raw access of the other unit";
const SERVED: &str = "a served access of the other unit";
const STORE: &str = "a store of the other unit";
const TABLES: &str = "the table run asked for";
const TAKE: &str = "a take from a pool";

/// What may come between two calls of the unit.
const BETWEEN: [&str; 8] = [
    BOOT_MODE_BEGINS,
    BOOT_MODE_ENDS,
    REFUSED,
    RAW,
    SERVED,
    STORE,
    TABLES,
    TAKE,
];

const SECOND_FAULT: &str = "second fault in a row";
const LATER_FAULT: &str = "third or later fault in a row";
const SAME_FAULT: &str = "map that faulted before faults again, another one between";
const BY_SET_ENTRY: &str = "map by an entry that was set in it";
const BY_STORED_WORD: &str = "map by a word that the other unit stored";
const OPENED: &str = "map without a fault after a set, where it had faulted";

/// What the last map was when the fault address is read.
const LAST_MAPS: [&str; 4] = [FAULTED, WENT_WELL, IN_BOOT_MODE, WAS_REFUSED];
const FAULTED: &str = "a faulting map";
const WENT_WELL: &str = "a map without a fault";
const IN_BOOT_MODE: &str = "a map in boot mode";
const WAS_REFUSED: &str = "a refused map";

pub fn all() -> Vec<String> {
    let mut all: Vec<String> = BETWEEN.iter().map(|between| after(between)).collect();
    all.extend(LAST_MAPS.map(fault_address_after));
    let single = [
        SECOND_FAULT,
        LATER_FAULT,
        SAME_FAULT,
        BY_SET_ENTRY,
        BY_STORED_WORD,
        OPENED,
    ];
    all.extend(single.map(named));
    all
}

fn named(what: &str) -> String {
    format!("{CALL}, {what}")
}

fn after(between: &str) -> String {
    format!("{CALL}, call of the unit after {between}")
}

fn fault_address_after(map: &str) -> String {
    format!("{CALL}, fault address read after {map}")
}

struct Sequence {
    unit: Unit,
    /// Outcomes that the next call of the unit has for what came before it.
    pending: Vec<String>,
    last_map: Option<&'static str>,
    faults_in_a_row: usize,
    /// Maps that have faulted, with their table indices.
    faulted: Vec<(u32, UnitCall)>,
    set: Vec<u32>,
    stored: Vec<u32>,
}

/// One sequence, from any state and run on.
pub fn put(to: &mut dyn PutJudged, random: &mut Random) {
    let run = words::run(random, ENTRIES);
    let mut sequence = Sequence {
        unit: Unit::with(random, run),
        pending: Vec::new(),
        last_map: None,
        faults_in_a_row: 0,
        faulted: Vec::new(),
        set: Vec::new(),
        stored: Vec::new(),
    };
    // The run goes along with the first call of the unit.
    sequence.map_any(to, random);
    for step in 1..STEPS {
        sequence.step(to, random);
        if step % STEPS_TO_THE_RUN == 0 {
            sequence.ask_for_run(to);
        }
    }
    sequence.ask_for_run(to);
}

impl Sequence {
    fn step(&mut self, to: &mut dyn PutJudged, random: &mut Random) {
        match random.below(64) {
            0..=1 => self.switch_boot_mode(),
            2 => self.refused(to, random),
            3..=7 => self.of_other_unit(to, random),
            8..=13 => self.set_index(to, random),
            14..=23 => self.set_entry(to, random),
            24..=31 => self.read(to, random),
            32..=37 => self.fault_address(to, random),
            38..=43 => self.map_set_or_stored(to, random),
            44..=49 => self.map_again(to, random),
            _ => self.map_any(to, random),
        }
    }

    /// By the requester, as a line of the machine.
    fn switch_boot_mode(&mut self) {
        let boot_mode = !self.unit.state.boot_mode;
        self.unit.state.boot_mode = boot_mode;
        let what = match boot_mode {
            true => BOOT_MODE_BEGINS,
            false => BOOT_MODE_ENDS,
        };
        self.pending.push(after(what));
    }

    /// A call over another run, which changes nothing; then the old run is handed over again.
    fn refused(&mut self, to: &mut dyn PutJudged, random: &mut Random) {
        let kept = to.tables().to_vec();
        let length = random.pick(&[1, 31, 256, 300]);
        self.unit.hand_over(words::run(random, length));
        let operation = random.pick(&WITH_RUN);
        let index = self.unit.state.table_index;
        let call = inside(random, &mut self.unit, operation, length);
        self.unit.state.table_index = index;
        self.put(to, random, call);
        if operation == Operation::Map {
            self.last_map = Some(WAS_REFUSED);
        }
        self.unit.hand_over(kept);
        self.pending.push(after(REFUSED));
        match random.one_in(2) {
            true => self.fault_address(to, random),
            false => self.read(to, random),
        }
    }

    /// A call of the other unit over the same run.
    fn of_other_unit(&mut self, to: &mut dyn PutJudged, random: &mut Random) {
        let registers = state::registers(random);
        let buffer = state::buffer(random, SLOTS);
        let access = Access {
            address: random.bits(32),
            user: random.one_in(2),
            write: random.one_in(2),
            draw: random.bits(2),
        };
        let (what, call) = match random.below(5) {
            0 => (RAW, Call::Raw(access)),
            1 => (SERVED, Call::Served(access)),
            2 => {
                let index = words::place(random);
                self.stored.push(index);
                self.set.retain(|&place| place != index);
                let value = words::entry(random);
                (STORE, Call::Store { index, value })
            }
            3 => return self.ask_for_run(to),
            _ => (TAKE, Call::OnPool(PoolCall::Take)),
        };
        let request = match call {
            Call::OnPool(call) => {
                let pool = shapes::fitting(random);
                Request::on_pool(call, registers, pool, buffer)
            }
            _ => Request::without_run(call, registers, buffer),
        };
        to.put_judged(judges(Vec::new()), request);
        self.pending.push(after(what));
    }

    fn ask_for_run(&mut self, to: &mut dyn PutJudged) {
        ask_for_tables(to);
        self.pending.push(after(TABLES));
    }

    fn set_index(&mut self, to: &mut dyn PutJudged, random: &mut Random) {
        let value = words::index_value(random);
        let call = unit::set_index(random, value);
        self.put(to, random, call);
    }

    /// Of the place where a map faulted, or of any.
    fn set_entry(&mut self, to: &mut dyn PutJudged, random: &mut Random) {
        let place = match self.faulted.is_empty() || random.one_in(2) {
            true => words::place(random),
            false => {
                let (table, map) = random.pick(&self.faulted);
                PAGES * table + map.a / PAGES
            }
        };
        self.stored.retain(|&stored| stored != place);
        self.set.push(place);
        let a = words::address_of(random, place);
        let entry = words::entry(random) | random.pick(&[0, 5 << 16]);
        let call = unit::set_entry(random, a, entry);
        self.put(to, random, call);
    }

    fn read(&mut self, to: &mut dyn PutJudged, random: &mut Random) {
        let place = match self.set.is_empty() || random.one_in(2) {
            true => words::place(random),
            false => random.pick(&self.set),
        };
        let operation = random.pick(&[Operation::LowWord, Operation::HighWord]);
        let a = words::address_of(random, place);
        let call = unit::read(random, operation, a);
        self.put(to, random, call);
    }

    fn fault_address(&mut self, to: &mut dyn PutJudged, random: &mut Random) {
        self.pending.extend(self.last_map.map(fault_address_after));
        let call = unit::fault_address(random);
        self.put(to, random, call);
    }

    /// By an entry that was set or stored in this sequence, of whatever table.
    fn map_set_or_stored(&mut self, to: &mut dyn PutJudged, random: &mut Random) {
        let (places, what) = match random.one_in(3) {
            true => (&self.stored, BY_STORED_WORD),
            false => (&self.set, BY_SET_ENTRY),
        };
        if places.is_empty() || self.unit.state.boot_mode {
            return;
        }
        let place = random.pick(places);
        self.pending.push(named(what));
        self.unit.state.table_index = place / PAGES;
        let offset = words::virtual_address(random) & 0xFF;
        let call = unit::any_map(random, ((place % PAGES) << 8) as u16 | offset);
        self.map(to, random, call);
    }

    /// A map that has faulted, once more.
    fn map_again(&mut self, to: &mut dyn PutJudged, random: &mut Random) {
        if self.faulted.is_empty() || self.unit.state.boot_mode {
            return;
        }
        let (table, call) = random.pick(&self.faulted);
        self.unit.state.table_index = table;
        let is_other = u32::from(self.unit.state.fault_address) != call.a;
        let faults = self.map(to, random, call);
        let place = PAGES * table + call.a / PAGES;
        match faults {
            0 if self.set.contains(&place) => self.pending.push(named(OPENED)),
            1.. if is_other => self.pending.push(named(SAME_FAULT)),
            _ => {}
        }
    }

    fn map_any(&mut self, to: &mut dyn PutJudged, random: &mut Random) {
        let address = words::virtual_address(random);
        let call = unit::any_map(random, address);
        self.map(to, random, call);
    }

    /// The faults that the map has.
    fn map(&mut self, to: &mut dyn PutJudged, random: &mut Random, call: UnitCall) -> u32 {
        let before = self.unit.state;
        let faults = self.put(to, random, call);
        let (last_map, in_a_row) = match (before.boot_mode, faults) {
            (true, _) => (IN_BOOT_MODE, 0),
            (false, 0) => (WENT_WELL, 0),
            (false, _) => (FAULTED, self.faults_in_a_row + 1),
        };
        self.last_map = Some(last_map);
        self.faults_in_a_row = in_a_row;
        match in_a_row {
            0 => return faults,
            1 => {}
            2 => self.pending.push(named(SECOND_FAULT)),
            _ => self.pending.push(named(LATER_FAULT)),
        }
        self.faulted.push((before.table_index, call));
        faults
    }

    /// The next call of the unit; the faults of its answer.
    fn put(&mut self, to: &mut dyn PutJudged, random: &mut Random, call: UnitCall) -> u32 {
        let outcomes = std::mem::take(&mut self.pending);
        self.unit.call(to, random, call, outcomes).words[2]
    }
}
