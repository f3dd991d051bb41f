//! Stretches that another root reaches too.

use super::Way;
use crate::cases::forest::{DIRECTORY_WORDS, PRESENT, TABLE_WORDS};
use crate::passes::plot::Plot;
use crate::passes::words::{any_place, broken};
use crate::random::Random;
use reference::collector::Unfit;
use reference::GLOBAL_ROOT;

/// Which root the other one is, by the identification.
#[derive(Clone, Copy)]
enum Other {
    First,
    Lower,
    NextLower,
    NextHigher,
    Higher,
    Last,
    Global,
}

const OTHERS: [(Other, &str); 7] = [
    (Other::First, "root 0"),
    (Other::Lower, "a lower root"),
    (Other::NextLower, "the next lower root"),
    (Other::NextHigher, "the next higher root"),
    (Other::Higher, "a higher root"),
    (Other::Last, "root 62"),
    (Other::Global, "the global root"),
];

impl Other {
    fn root(self, random: &mut Random, id: usize) -> usize {
        match self {
            Other::First => 0,
            Other::Lower => random.below(id),
            Other::NextLower => id - 1,
            Other::NextHigher => id + 1,
            Other::Higher => id + 1 + random.below(62 - id),
            Other::Last => 62,
            Other::Global => GLOBAL_ROOT,
        }
    }
}

#[derive(Clone, Copy)]
enum Meeting {
    Directories,
    OwnDirectoryInTable,
    OwnTableOverDirectory,
    Tables,
}

const MEETINGS: [(Meeting, &str); 4] = [
    (Meeting::Directories, "its directory is the directory"),
    (
        Meeting::OwnDirectoryInTable,
        "its directory lies in a table",
    ),
    (
        Meeting::OwnTableOverDirectory,
        "a table of it holds the directory",
    ),
    (Meeting::Tables, "a table of it is a table"),
];

/// What becomes of the word of the other tree that reaches the own stretch.
#[derive(Clone, Copy)]
enum Reaching {
    Good,
    Absent,
    Broken,
    Elsewhere,
}

const NEARLY: [(Reaching, &str); 3] = [
    (Reaching::Absent, "but for an absent word"),
    (Reaching::Broken, "but for a broken word"),
    (Reaching::Elsewhere, "but for a word that names another"),
];

pub fn ways() -> Vec<Way> {
    let mut ways = Vec::new();
    for (meeting, how) in MEETINGS {
        for (other, whose) in OTHERS {
            let name = format!("{how} of {whose}");
            let make =
                move |reaching| move |random: &mut Random| meet(random, meeting, other, reaching);
            ways.push(Way::refused(
                Unfit::MetByAnotherRoot,
                name.clone(),
                make(Reaching::Good),
            ));
            for (reaching, but) in NEARLY {
                let name = format!("{name}, {but}");
                ways.push(Way::accepted(name, make(reaching)));
            }
        }
    }
    ways.extend(behind_broken_words());
    ways.push(Way::accepted(
        "two other roots have one directory",
        |random| {
            share(random, |plot, (first, second), _| {
                plot.words[second] = plot.words[first]
            })
        },
    ));
    let to_itself = "another root's directory lies in a table of its own";
    ways.push(Way::accepted(to_itself, |random| {
        share(random, |plot, (root, _), _| {
            let directory = plot.words[root] & 0xFFFF;
            plot.words[DIRECTORY_WORDS * directory as usize] = PRESENT | (directory / 2);
        })
    }));
    let twice = "two words of another root's directory name one table";
    ways.push(Way::accepted(twice, |random| {
        share(random, |plot, (root, _), table| {
            let begin = DIRECTORY_WORDS * (plot.words[root] & 0xFFFF) as usize;
            for place in [0, 1] {
                plot.words[begin + place] = PRESENT | table as u32;
            }
        })
    }));
    ways
}

/// A broken word does not hide those behind it.
fn behind_broken_words() -> Vec<Way> {
    let ground = Unfit::MetByAnotherRoot;
    let behind = "a table of it is a table of another root, behind a broken word";
    let by_last = "its directory is the directory of root 62, all other roots are broken";
    vec![
        Way::refused(ground, behind, |random| {
            let mut plot = meet_at(
                random,
                (Meeting::Tables, DIRECTORY_WORDS - 1),
                6,
                Reaching::Good,
            )?;
            let begin = DIRECTORY_WORDS * (plot.words[6] & 0xFFFF) as usize;
            plot.words[begin] = broken(random, plot.words.len());
            Some(plot)
        }),
        Way::refused(ground, by_last, |random| {
            let place = any_place(random, DIRECTORY_WORDS);
            let mut plot = meet_at(random, (Meeting::Directories, place), 62, Reaching::Good)?;
            for root in (0..=GLOBAL_ROOT).filter(|&root| root != 62 && root != plot.id as usize) {
                plot.words[root] = broken(random, plot.words.len());
            }
            Some(plot)
        }),
    ]
}

fn meet(random: &mut Random, meeting: Meeting, other: Other, reaching: Reaching) -> Option<Plot> {
    let id = random.pick(&[1, 5, 31, 61]);
    let root = other.root(random, id);
    let place = any_place(random, DIRECTORY_WORDS);
    met_by(random, (meeting, place), (id, root), reaching)
}

fn meet_at(
    random: &mut Random,
    meeting: (Meeting, usize),
    root: usize,
    reaching: Reaching,
) -> Option<Plot> {
    met_by(random, meeting, (5, root), reaching)
}

/// The tree of the identification meets that of the root by one word, which is as asked. A word of
/// the other directory stands at the place.
fn met_by(
    random: &mut Random,
    (meeting, place): (Meeting, usize),
    (id, root): (usize, usize),
    reaching: Reaching,
) -> Option<Plot> {
    let mut plot = Plot::alone(random, id as u32);
    let (index, number, stretch) = match meeting {
        Meeting::Directories => {
            plot.name_alone(random, &[]);
            (root, plot.tree().directory, DIRECTORY_WORDS)
        }
        Meeting::OwnTableOverDirectory => {
            let half = random.below(2);
            (root, 2 * plot.table(random) + half, DIRECTORY_WORDS)
        }
        Meeting::OwnDirectoryInTable => {
            let table = Some(plot.tree().directory / 2).filter(|&table| table > 0)?;
            (
                other_directory(random, &mut plot, root, table)? + place,
                table,
                TABLE_WORDS,
            )
        }
        Meeting::Tables => {
            let table = plot.table(random);
            (
                other_directory(random, &mut plot, root, 0)? + place,
                table,
                TABLE_WORDS,
            )
        }
    };
    plot.words[index] = match reaching {
        Reaching::Good => PRESENT | number as u32,
        Reaching::Absent => number as u32,
        Reaching::Broken => PRESENT | 1 << (16 + random.below(15)) | number as u32,
        Reaching::Elsewhere if stretch == TABLE_WORDS => PRESENT | plot.room.table(random)? as u32,
        Reaching::Elsewhere => PRESENT | plot.room.directory(random)? as u32,
    };
    Some(plot)
}

/// A directory of the root's that does not lie in this table. Its words are absent or name tables
/// that are free.
fn other_directory(
    random: &mut Random,
    plot: &mut Plot,
    root: usize,
    apart_from: usize,
) -> Option<usize> {
    let directory = plot.room.directory(random)?;
    if directory / 2 == apart_from && apart_from > 0 {
        return None;
    }
    let begin = DIRECTORY_WORDS * directory;
    plot.words[root] = PRESENT | directory as u32;
    plot.clear(random, begin, DIRECTORY_WORDS);
    for _ in 0..random.below(3) {
        let table = plot.room.table(random)?;
        plot.words[begin + any_place(random, DIRECTORY_WORDS)] = PRESENT | table as u32;
    }
    Some(begin)
}

/// Two other roots, the first of which has a directory, and a free table, and what is made of them.
fn share(random: &mut Random, make: impl Fn(&mut Plot, (usize, usize), usize)) -> Option<Plot> {
    let mut plot = Plot::alone(random, 5);
    let roots = random.pick(&[(0, 62), (4, 6), (6, GLOBAL_ROOT)]);
    other_directory(random, &mut plot, roots.0, 0)?;
    let table = plot.room.table(random)?;
    make(&mut plot, roots, table);
    Some(plot)
}
