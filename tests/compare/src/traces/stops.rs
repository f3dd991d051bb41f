//! Traces of one walk each, which stops in every way that there is.

use super::record::Record;
use crate::cases::forest::{stops, Forest};
use crate::cases::state;
use crate::protocol::Call;
use crate::random::Random;
use reference::trace::TABLE_WORDS;
use reference::Access;

/// A trace for each ending of the global tree with each of the own tree.
pub fn traces(random: &mut Random) -> Vec<Vec<u8>> {
    let mut traces = Vec::new();
    for endings in stops() {
        let (context, page) = (random.pick(&[0, 5, 31, 62]), random.bits(19));
        let forest = Forest::of_stop(random, TABLE_WORDS, (context, page), endings);
        traces.push(trace(random, &forest.words, context, page));
    }
    traces
}

/// Stores the words that are not 0, then makes two accesses to the page.
fn trace(random: &mut Random, words: &[u32], context: u32, page: u32) -> Vec<u8> {
    let stored = (0..words.len()).filter(|&n| words[n] != 0);
    let mut calls: Vec<Call> = stored
        .map(|n| Call::Store {
            index: n as u32,
            value: words[n],
        })
        .collect();
    calls.extend([(5, context), (2, 1)].map(|(number, value)| Call::Setting { number, value }));
    for _ in 0..2 {
        calls.push(Call::Served(Access {
            address: state::address_on(random, page),
            user: random.one_in(2),
            write: random.one_in(2),
            draw: random.bits(2),
        }));
    }
    let records = calls.into_iter().map(Record::of);
    records.flat_map(Record::to_bytes).collect()
}

#[cfg(test)]
mod tests {
    use super::*;
    use crate::fault;
    use reference::trace::text_of;

    #[test]
    fn every_value_of_a_walk_is_among_them_whatever_the_seed() {
        for seed in 0..5 {
            let last_line = |trace: Vec<u8>| {
                let text = String::from_utf8(text_of(&trace)).expect("the text is plain");
                text.lines().last().unwrap_or_default().to_string()
            };
            let traces = traces(&mut Random::new(seed)).into_iter();
            let lines: Vec<String> = traces.map(last_line).collect();
            let counts = fault::OF_WALKS.map(|value| {
                let end = format!(" fault {value:08X} 0");
                lines.iter().filter(|line| line.ends_with(&end)).count()
            });
            assert_eq!(counts, [3, 3, 3, 12, 12, 48, 48]);
            assert_eq!(lines.len(), counts.iter().sum::<usize>());
        }
    }
}
