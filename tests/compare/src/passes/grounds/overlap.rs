//! A directory that lies in one of its own tables.

use super::Way;
use crate::cases::forest::{DIRECTORY_WORDS, PRESENT, TABLE_WORDS};
use crate::passes::plot::{any_id, Plot};
use crate::random::Random;
use reference::collector::Unfit;

const HALVES: [(usize, &str); 2] = [(0, "lower half"), (1, "upper half")];
const PLACES: [(usize, &str); 3] = [(0, "first"), (200, "inner"), (DIRECTORY_WORDS - 1, "last")];

pub fn ways() -> Vec<Way> {
    let mut ways = Vec::new();
    for (half, which) in HALVES {
        for (place, word) in PLACES {
            let name = format!("its directory is the {which} of the table of its {word} word");
            let at = (half, place);
            let lies_in = move |random: &mut Random| moved(random, at, |table, _| PRESENT | table);
            ways.push(Way::refused(Unfit::DirectoryInTable, name.clone(), lies_in));
            let absent = format!("{name}, which is absent");
            ways.push(Way::accepted(absent, move |random| {
                moved(random, at, |table, _| table)
            }));
            let beside = format!("{name}, but for a neighbouring table");
            ways.push(Way::accepted(beside, move |random| {
                moved(random, at, |_, beside| PRESENT | beside)
            }));
        }
    }
    ways
}

/// The own directory moved into half of a table, and its word at the place made from the numbers of
/// that table and of a free one beside it.
fn moved(
    random: &mut Random,
    (half, place): (usize, usize),
    make: impl Fn(u32, u32) -> u32,
) -> Option<Plot> {
    let id = any_id(random);
    let mut plot = Plot::alone(random, id);
    let [table, beside] = [plot.room.table(random)?, plot.room.table(random)?];
    if table.abs_diff(beside) != 1 {
        return None;
    }
    for cleared in [table, beside] {
        plot.clear(random, TABLE_WORDS * cleared, TABLE_WORDS);
    }
    let directory = 2 * table + half;
    let named = plot.tree().tables.clone();
    plot.words[id as usize] = PRESENT | directory as u32;
    plot.own.as_mut()?.directory = directory;
    plot.name_alone(random, &named);
    let index = plot.tree().word(place);
    plot.words[index] = make(table as u32, beside as u32);
    Some(plot)
}
