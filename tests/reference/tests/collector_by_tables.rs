//! The pass from table to table against the one from page to page, over trees of all kinds.

mod common;

use common::numbers::Numbers;
use common::*;
use reference::collector::{by_pages, by_tables, collect, grounds};
use reference::heap::{new_pool, Pool};
use reference::*;

/// Two tables of leaves that map pool frames, and now and then a word that may refuse the pass.
fn unit(numbers: &mut Numbers) -> (Unit, Pool) {
    let mut unit = Unit::new();
    unit.words.resize(6144, 0);
    let (_, mut pool) = new_pool(0x100, 64);
    pool.bits[0] = u64::MAX;
    unit.words[512 + numbers.below(511) as usize + 1] = PRESENT | 5;
    for place in 0..numbers.below(40) {
        let table = [1024, 5120][numbers.below(2) as usize];
        let page = [0, 1023, numbers.below(1024)][numbers.below(3) as usize];
        let upper = numbers.below(1 << 12) << 19;
        unit.words[table + page as usize] = PRESENT | upper | (0x100 + place);
    }
    for slot in 0..SLOTS {
        let page = numbers.below(2) * 16 + (slot % 16) as u32;
        let entry = Entry {
            vpn15: vpn15(page),
            valid: numbers.below(2) == 0,
            pfn: 0x100 + numbers.below(64),
            ..entry(ID, false)
        };
        if numbers.below(2) == 0 {
            unit.buffer[slot] = entry.pack();
        }
    }
    if numbers.below(3) == 0 {
        let index = [5, 63, 6, 512, 2048, 700, 1024][numbers.below(7) as usize];
        unit.words[index] = PRESENT | numbers.below(8);
    }
    if numbers.below(4) == 0 {
        pool = pool.with_other_bit(numbers.below(64));
    }
    (unit, pool)
}

#[test]
fn both_ways_answer_and_leave_the_same() {
    let mut numbers = Numbers(206);
    let mut outcomes = [0; 2];
    for _ in 0..300 {
        let (mut unit, pool) = unit(&mut numbers);
        let registers = unit.registers;
        for id in [ID, ID, 6, 63] {
            let (mut buffer, mut words) = (unit.buffer.clone(), unit.words.clone());
            let (pass, after) = collect(registers, &mut buffer, &mut words, pool, id);
            let mut lent = pool;
            let Unit {
                buffer: other_buffer,
                words: other_words,
                ..
            } = &mut unit;
            let found = (
                by_pages(&*other_words, id),
                by_tables::leaves(other_words, id),
            );
            assert_eq!(found.0, found.1);
            grounds(other_words, &pool, id, &found.0);
            let quick = by_tables::collect(registers, other_buffer, other_words, &mut lent, id);
            assert_eq!((quick, lent), (pass, after));
            assert_eq!((&unit.buffer, &unit.words), (&buffer, &words));
            let is_refused = matches!(pass.reply.outcome, Outcome::Refused(_));
            outcomes[usize::from(is_refused)] += 1;
        }
    }
    assert!(outcomes.iter().all(|&times| times > 100), "{outcomes:?}");
}
