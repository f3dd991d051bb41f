//! Passes over trees of all kinds, most of which are fit.

use super::known::{handed_on, put_one};
use super::plot::{any_id, leaf_at, Plot};
use super::slots;
use super::words::{any_leaf, any_place, broken};
use crate::cases::forest::{number_inside, Forest, DIRECTORY_WORDS, PRESENT, TABLE_WORDS};
use crate::expected::DONE;
use crate::pools::shapes;
use crate::put::PutJudged;
use crate::random::Random;
use reference::heap::PFNS;
use reference::GLOBAL_ROOT;

/// Passes in a row, each handed what the last one left, until the total is reached.
pub fn put(to: &mut dyn PutJudged, random: &mut Random, total: usize) {
    while to.wants_more(total) {
        to.may_restart();
        let mut request = any(random).request();
        for _ in 0..=random.below(3) {
            let answer = put_one(to, request.clone(), Vec::new());
            if answer.words[0] != DONE {
                break;
            }
            request = handed_on(request, answer);
        }
    }
}

fn any(random: &mut Random) -> Plot {
    let mut plot = Plot::any(random);
    if random.one_in(16) {
        let length = plot.words.len();
        plot.words = Forest::new(random, length).words;
    }
    let tweaks = random.pick(&[0, 0, 0, 1, 1, 2, 3]);
    for _ in 0..tweaks {
        tweak(random, &mut plot);
    }
    if tweaks > 0 && random.one_in(4) {
        plot.buffer = slots::any(random, &plot);
    }
    plot
}

/// One thing changed, which may or may not refuse the pass.
fn tweak(random: &mut Random, plot: &mut Plot) {
    let length = plot.words.len();
    let directory = number_inside(random, length, DIRECTORY_WORDS) as u32;
    let table = number_inside(random, length, TABLE_WORDS);
    let root = match random.below(4) {
        0 => plot.id as usize,
        1 => GLOBAL_ROOT,
        _ => random.below(GLOBAL_ROOT),
    };
    let trees = plot.own.iter().chain(&plot.others);
    let words: Vec<usize> = trees
        .map(|tree| tree.word(any_place(random, DIRECTORY_WORDS)))
        .collect();
    match random.below(10) {
        0 => plot.words[root] = PRESENT | directory,
        1 => plot.words[root] = broken(random, length),
        2 | 3 if !words.is_empty() => plot.words[random.pick(&words)] = PRESENT | table as u32,
        4 if !words.is_empty() => plot.words[random.pick(&words)] = broken(random, length),
        5 => {
            let place = random.below(plot.pool.size as usize) as u32;
            let held = random.one_in(2);
            shapes::set(&mut plot.pool, place, held);
        }
        6 => {
            let pfn = plot.pool.first + random.below(plot.pool.size as usize) as u32;
            let index = leaf_at(table, any_place(random, TABLE_WORDS));
            if let Some(word) = plot.words.get_mut(index) {
                *word = any_leaf(random, pfn);
            }
        }
        7 => plot.id = any_id(random),
        8 => {
            let moved = match random.one_in(2) {
                true => plot.pool.first.saturating_sub(1),
                false => plot.pool.first + 1,
            };
            if moved + plot.pool.size <= PFNS {
                plot.pool.first = moved;
            }
        }
        _ => {
            let index = random.below(length);
            plot.words[index] = random.bits(32);
        }
    }
}

#[cfg(test)]
mod tests {
    use super::*;
    use crate::expected::words_of_reply_with;
    use reference::collector::{by_tables, collect};

    #[test]
    fn both_ways_of_the_second_program_agree_over_these_trees() {
        let mut random = Random::new(1);
        for _ in 0..400 {
            let mut plot = any(&mut random);
            let (mut buffer, mut words) = (plot.buffer.clone(), plot.words.clone());
            let (pass, pool) = collect(plot.registers, &mut buffer, &mut words, plot.pool, plot.id);
            let quick = by_tables::collect(
                plot.registers,
                &mut plot.buffer,
                &mut plot.words,
                &mut plot.pool,
                plot.id,
            );
            let plain = words_of_reply_with(pass.reply, pass.given);
            assert_eq!(words_of_reply_with(quick.reply, quick.given), plain);
            assert_eq!(plot.pool, pool);
            assert_eq!((plot.buffer, plot.words), (buffer, words));
        }
    }
}
