//! Traces of chosen lengths, whose records go by what the unit has come to.

use super::record::{Record, ACCESS, DRAW, SETTING_KINDS, STORE, USER, WRITE};
use super::written::Written;
use crate::cases::steps::Steps;
use crate::cases::world::{size, World};
use crate::protocol::Call;
use crate::random::Random;
use reference::trace::TABLE_WORDS;
use reference::SETTINGS;

/// How many records a world serves, about.
const RECORDS_FOR_A_WORLD: usize = 1500;

/// A trace of so many records, and a last piece of so many bytes.
pub fn trace(random: &mut Random, records: usize, piece: usize) -> Vec<u8> {
    let mut script = Script::begin(random, records);
    while script.written.records() < records {
        script.step(random);
    }
    let last = script.next_record(random);
    script.written.end(records, last, piece)
}

struct Script {
    written: Written,
    steps: Steps,
}

impl Script {
    /// Short traces begin with few words in the tables or with none.
    fn begin(random: &mut Random, records: usize) -> Script {
        let size = match records {
            0..120 => (2, 2),
            _ => size(random),
        };
        let world = world(random, size);
        let mut script = Script {
            written: Written::begin(),
            steps: Steps::new(random, world),
        };
        if records > 40 || random.one_in(2) {
            script.plant(random);
        }
        script
    }

    fn step(&mut self, random: &mut Random) {
        if random.one_in(RECORDS_FOR_A_WORLD) {
            let size = size(random);
            let world = world(random, size);
            self.steps = Steps::new(random, world);
            self.plant(random);
        }
        let record = self.next_record(random);
        self.written.add(record);
    }

    /// Stores the words of the world, in either order, then mostly enables.
    fn plant(&mut self, random: &mut Random) {
        let mut words = vec![0; TABLE_WORDS];
        self.steps.world().plant(random, &mut words);
        let mut planted: Vec<usize> = (0..words.len()).filter(|&n| words[n] != 0).collect();
        if random.one_in(2) {
            planted.reverse();
        }
        for n in planted {
            let (index, value) = (n as u32, words[n]);
            self.written.add(Record::of(Call::Store { index, value }));
        }
        if !random.one_in(4) {
            self.written.add(Record::of(Call::Setting {
                number: 2,
                value: 1,
            }));
        }
    }

    /// Mostly one that is accepted.
    fn next_record(&mut self, random: &mut Random) -> Record {
        match random.below(48) {
            0 => {
                let record = refused(random);
                malformed(random, record)
            }
            1 | 2 => {
                let record = self.accepted(random);
                malformed(random, record)
            }
            3 => refused(random),
            4 if random.one_in(64) => Record::of(Call::Store {
                index: TABLE_WORDS as u32 - 1,
                value: random.bits(32),
            }),
            _ => self.accepted(random),
        }
    }

    fn accepted(&mut self, random: &mut Random) -> Record {
        let registers = self.written.unit.registers.to_words();
        let settings = std::array::from_fn(|n| registers[n]);
        let words = &self.written.unit.words;
        Record::of(self.steps.next_call(random, settings, words))
    }
}

/// The directories and tables lie close together, so that they overlap, or anywhere.
fn world(random: &mut Random, size: (usize, usize)) -> World {
    let length = 1024 * random.pick(&[2, 3, 4, 4, 4, 16]);
    World::of(random, length, size)
}

/// A setting with a value too large, or where it has none a store past the table memory.
pub fn refused(random: &mut Random) -> Record {
    let number = random.below(SETTINGS);
    let value = match number {
        0 => random.pick(&[0x1_0000, 0x1_0000, 0x1_0001, 0x8000_0000, u32::MAX]),
        1 => random.pick(&[8, 8, 9, 15, 16, 0x8000_0000, u32::MAX]),
        2 => random.pick(&[2, 2, 3, 0x100, 0x8000_0001, u32::MAX]),
        5 => random.pick(&[63, 63, 64, 64, 65, 127, 128, 0x8000_0005, u32::MAX]),
        _ => {
            let past = TABLE_WORDS as u64;
            let any = past + u64::from(random.bits(23));
            return Record {
                kind: STORE,
                modes: 0,
                index: random.pick(&[past, past, past + 1, 2 * past, any, 0xFF_FFFF]),
                value: random.bits(32),
            };
        }
    };
    Record {
        kind: SETTING_KINDS[number],
        modes: 0,
        index: 0,
        value,
    }
}

/// The record with one thing wrong, or with several.
pub fn malformed(random: &mut Random, record: Record) -> Record {
    let any_kind = random.below(8) as u64;
    let kind = random.pick(&[record.kind, any_kind]);
    let record = Record { kind, ..record };
    match random.below(8) {
        0 | 1 => Record {
            kind: 8 + u64::from(random.bits(3)),
            ..record
        },
        2 | 3 if kind != ACCESS => Record {
            modes: random.pick(&[USER, WRITE, DRAW, 1, 2]),
            index: if kind == STORE { record.index } else { 0 },
            ..record
        },
        4 if kind != ACCESS => Record {
            modes: 1 + random.below(15) as u64,
            index: u64::from(random.bits(24)),
            ..record
        },
        _ if kind != STORE => Record {
            modes: if kind == ACCESS { record.modes } else { 0 },
            index: match random.one_in(8) {
                true => u64::from(1 + random.bits(23)),
                false => 1 << random.below(24),
            },
            ..record
        },
        _ => Record {
            modes: random.pick(&[USER, WRITE, DRAW, 1, 2]),
            ..record
        },
    }
}
