//! The passes that are refused, and those that nearly are.

mod common;

use common::*;
use reference::collector::*;
use reference::heap::*;
use reference::*;

const FIRST: u32 = 0x100;

/// Its frames but the first are held.
fn pool() -> Pool {
    let (_, mut pool) = new_pool(FIRST, 64);
    pool.bits[0] = !1;
    pool
}

/// Own directory 1 and table 1; the global directory is 4 and its table 3. Page 0 maps frame 0x101.
fn unit() -> Unit {
    let mut unit = Unit::new();
    unit.words.resize(8192, 0);
    unit.words[Unit::own(0)] = PRESENT | VALID | (FIRST + 1);
    unit
}

fn grounds_of(unit: &Unit) -> Vec<Unfit> {
    grounds(&unit.words, &pool(), ID, &by_pages(&unit.words, ID))
}

/// The tree with these words set, and the grounds on which it is refused.
fn check(words: &[(usize, u32)], expected: &[Unfit]) {
    let mut unit = unit();
    for &(index, word) in words {
        unit.words[index] = word;
    }
    assert_eq!(grounds_of(&unit), expected, "{words:X?}");
    let before = (unit.buffer.clone(), unit.words.clone());
    let (pass, after) = collect(
        unit.registers,
        &mut unit.buffer,
        &mut unit.words,
        pool(),
        ID,
    );
    match expected {
        [] => assert_eq!(pass.reply.outcome, Outcome::Done(0)),
        _ => {
            let refused = Reply::refused(Refusal::Tree, unit.registers);
            assert_eq!((pass.reply, pass.given), (refused, 0));
            assert_eq!((unit.buffer, unit.words), before);
            assert_eq!(after, pool());
        }
    }
}

const ROOT: usize = ID as usize;

#[test]
fn a_broken_root_or_directory_word_refuses_and_an_absent_one_does_not() {
    check(&[], &[]);
    for broken in [
        0x8000_0000,
        0x8001_0001,
        0xC000_0001,
        0x8000_0010,
        0x8000_FFFF,
    ] {
        check(&[(ROOT, broken)], &[Unfit::Root]);
        check(&[(512 + 300, broken)], &[Unfit::DirectoryWord]);
        check(&[(ROOT, broken & !PRESENT)], &[]);
        check(&[(512 + 300, broken & !PRESENT)], &[]);
    }
    check(&[(ROOT, PRESENT | 15)], &[]);
    check(&[(512 + 300, PRESENT | 7)], &[]);
    check(&[(512 + 300, PRESENT | 8)], &[Unfit::DirectoryWord]);
}

#[test]
fn two_words_that_name_one_table_refuse() {
    check(&[(512 + 1, PRESENT | 1)], &[Unfit::TableNamedTwice]);
    check(&[(512 + 511, PRESENT | 1)], &[Unfit::TableNamedTwice]);
    check(&[(512 + 511, 1)], &[]);
    check(
        &[(512 + 511, PRESENT | 2), (2048, 0), (GLOBAL_ROOT, 0)],
        &[],
    );
}

#[test]
fn a_directory_in_a_table_of_its_own_refuses() {
    for half in [10, 11] {
        let root = (ROOT, PRESENT | half);
        let directory = 512 * half as usize;
        let to_itself = (directory + 300, PRESENT | 5);
        check(&[root, to_itself], &[Unfit::DirectoryInTable]);
        check(&[root, (directory + 300, PRESENT | 6)], &[]);
    }
}

#[test]
fn a_stretch_that_another_root_reaches_refuses() {
    let met = [Unfit::MetByAnotherRoot];
    for root in [0, 4, 6, 62, 63] {
        let names = |directory: u32| (root, PRESENT | directory);
        check(&[names(1)], &met);
        check(&[names(2)], &met);
        check(&[names(3)], &met);
        check(&[names(10), (5120 + 9, PRESENT | 1)], &met);
        check(&[names(10), (5120 + 511, PRESENT | 1)], &met);
        check(&[names(10), (5120 + 9, 1)], &[]);
        check(&[names(10), (5120 + 9, PRESENT | 1 << 16 | 1)], &[]);
        check(&[names(10), (5120 + 9, PRESENT | 6)], &[]);
        check(&[(root, 1)], &[]);
        check(&[(root, PRESENT | 1 << 16 | 1)], &[]);
        let own_in_table = [(ROOT, PRESENT | 12), names(10), (5120, PRESENT | 6)];
        check(&own_in_table, &met);
    }
}

#[test]
fn a_pool_frame_mapped_twice_or_free_refuses() {
    let leaf = |valid: u32, place: u32| PRESENT | valid | (FIRST + place);
    for valid in [0, VALID] {
        let at = Unit::own(700);
        check(&[(at, leaf(valid, 1))], &[Unfit::FrameMappedTwice]);
        check(&[(at, leaf(valid, 1) & !PRESENT)], &[]);
        check(&[(at, leaf(valid, 0))], &[Unfit::FrameNotHeld]);
        check(&[(at, leaf(valid, 0) & !PRESENT)], &[]);
        check(&[(at, leaf(valid, 2))], &[]);
        for outside in [FIRST - 1, FIRST + 64] {
            let word = PRESENT | valid | outside;
            check(&[(at, word), (at + 1, word)], &[]);
        }
        check(&[(Unit::global(700), leaf(valid, 1))], &[]);
        check(&[(Unit::global(700), leaf(valid, 0))], &[]);
        let in_another_table = [(512 + 8, PRESENT | 4), (4096, leaf(valid, 1))];
        check(&in_another_table, &[Unfit::FrameMappedTwice]);
    }
}

#[test]
fn every_number_comes_before_the_later_ones_and_touches_nothing() {
    for set in 1..1 << 6 {
        let has = |ground: usize| set >> ground & 1 == 1;
        let mut unit = unit();
        let mut pool = pool();
        unit.buffer[0] = 0;
        if has(0) {
            unit.registers.ctrl = 8;
        }
        if has(1) {
            pool.first = 524_288 - 63;
        }
        if has(2) {
            unit.buffer.pop();
        }
        if has(3) {
            unit.words.push(0);
        }
        let id = if has(4) { 63 } else { ID };
        if has(5) {
            unit.words[id as usize] = PRESENT;
        }
        let before = (unit.buffer.clone(), unit.words.clone());
        let (pass, after) = collect(unit.registers, &mut unit.buffer, &mut unit.words, pool, id);
        let Outcome::Refused(refusal) = pass.reply.outcome else {
            panic!("{set:b} is accepted");
        };
        let first = (0..6).find(|&ground| has(ground)).unwrap();
        assert_eq!(refusal.number(), [1, 1, 2, 3, 5, 12][first], "{set:b}");
        assert_eq!(pass.given, 0);
        assert_eq!((unit.buffer, unit.words, after), (before.0, before.1, pool));
    }
}

#[test]
fn identifications_end_at_62() {
    for (id, outcome) in [
        (0, Outcome::Done(0)),
        (62, Outcome::Done(0)),
        (63, Outcome::Refused(Refusal::Identification)),
        (64, Outcome::Refused(Refusal::Identification)),
        (u32::MAX, Outcome::Refused(Refusal::Identification)),
    ] {
        let mut unit = unit();
        let (pass, _) = collect(
            unit.registers,
            &mut unit.buffer,
            &mut unit.words,
            pool(),
            id,
        );
        assert_eq!(pass.reply.outcome, outcome, "{id}");
    }
}
