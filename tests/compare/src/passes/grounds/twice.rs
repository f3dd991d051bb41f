//! Two directory words that name one table.

use super::Way;
use crate::cases::forest::{DIRECTORY_WORDS, TABLE_WORDS};
use crate::passes::plot::{any_id, Plot};
use crate::random::Random;
use reference::collector::Unfit;

const LAST: usize = DIRECTORY_WORDS - 1;

const PAIRS: [(usize, usize, &str); 6] = [
    (0, 1, "the first two words"),
    (0, LAST, "the first and the last word"),
    (LAST - 1, LAST, "the last two words"),
    (77, 78, "two words side by side"),
    (77, 79, "two words with one between"),
    (12, 400, "two words far apart"),
];

pub fn ways() -> Vec<Way> {
    let mut ways = Vec::new();
    for (first, second, name) in PAIRS {
        let pair = (first, second);
        ways.push(Way::refused(
            Unfit::TableNamedTwice,
            format!("{name} name one table"),
            move |random| Some(of_pair(random, pair, |table, _| Some(table))),
        ));
        let not_both = format!("{name} have one number, the second is absent");
        ways.push(Way::accepted(not_both, move |random| {
            let mut plot = of_pair(random, pair, |table, _| Some(table));
            let index = plot.tree().word(second);
            plot.words[index] &= 0x7FFF_FFFF;
            Some(plot)
        }));
        let apart = format!("{name} name two tables");
        ways.push(Way::accepted(apart, move |random| {
            Some(of_pair(random, pair, |_, other| other))
        }));
    }
    ways
}

/// Two words at these places and, in some, one more between them; the second names what is chosen
/// of the first one's table and another.
fn of_pair(
    random: &mut Random,
    (first, second): (usize, usize),
    choose: impl Fn(usize, Option<usize>) -> Option<usize>,
) -> Plot {
    let id = any_id(random);
    let mut plot = Plot::alone(random, id);
    let table = plot.table(random);
    let other = plot.room.table(random).expect("the run has room");
    plot.clear(random, TABLE_WORDS * other, TABLE_WORDS);
    let chosen = choose(table, Some(other)).expect("there is another");
    let mut named = vec![(first, table), (second, chosen)];
    let tables = plot.tree().tables.clone();
    let rest = tables.into_iter().find(|&(_, rest)| rest != table);
    if let (Some((_, rest)), true) = (rest, second - first > 1) {
        named.push(((first + second) / 2, rest));
    }
    plot.name_alone(random, &named);
    plot
}
