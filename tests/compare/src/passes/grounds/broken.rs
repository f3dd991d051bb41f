//! A root or a directory word that is broken.

use super::Way;
use crate::cases::forest::{DIRECTORY_WORDS, PRESENT, TABLE_WORDS};
use crate::passes::plot::{any_id, Plot};
use crate::random::Random;
use reference::collector::Unfit;

/// The bits of a root or directory word that have to be 0.
const RESERVED: std::ops::Range<u32> = 16..31;

#[derive(Clone, Copy)]
enum Word {
    Root,
    At(usize),
}

const WORDS: [(Word, &str); 4] = [
    (Word::Root, "its root"),
    (Word::At(0), "its first directory word"),
    (Word::At(300), "an inner directory word"),
    (Word::At(DIRECTORY_WORDS - 1), "its last directory word"),
];

/// How a word is broken, by the number of a good stretch and that of the first stretch outside.
#[derive(Clone, Copy)]
enum How {
    Reserved(u32),
    Zero,
    JustOutside,
    FarOutside,
}

impl How {
    fn all() -> Vec<(How, String)> {
        let reserved = RESERVED.map(|bit| (How::Reserved(bit), format!("has reserved bit {bit}")));
        let mut all = reserved.collect::<Vec<(How, String)>>();
        all.push((How::Zero, "names number 0".to_string()));
        all.push((How::JustOutside, "names the first one outside".to_string()));
        all.push((How::FarOutside, "names number 65535".to_string()));
        all
    }

    fn word(self, good: usize, outside: usize) -> u32 {
        match self {
            How::Reserved(bit) => PRESENT | 1 << bit | good as u32,
            How::Zero => PRESENT,
            How::JustOutside => PRESENT | outside as u32,
            How::FarOutside => PRESENT | 0xFFFF,
        }
    }
}

pub fn ways() -> Vec<Way> {
    let mut ways = Vec::new();
    for (word, name) in WORDS {
        let ground = match word {
            Word::Root => Unfit::Root,
            Word::At(_) => Unfit::DirectoryWord,
        };
        for (how, it) in How::all() {
            ways.push(Way::refused(
                ground,
                format!("{name} {it}"),
                move |random| Some(with(random, word, |good, outside| how.word(good, outside))),
            ));
            let name = format!("{name} {it} and is absent");
            ways.push(Way::accepted(name, move |random| {
                let absent = |good, outside| how.word(good, outside) & !PRESENT;
                Some(with(random, word, absent))
            }));
        }
        let name = format!("{name} names the last one inside");
        ways.push(Way::accepted(name, move |random| {
            let last = |_, outside| PRESENT | (outside as u32 - 1);
            Some(with(random, word, last))
        }));
    }
    ways
}

/// A plot with this word, made from the number of a stretch that is free and of the first outside.
fn with(random: &mut Random, word: Word, make: impl Fn(usize, usize) -> u32) -> Plot {
    let id = any_id(random);
    let mut plot = Plot::alone(random, id);
    let length = plot.words.len();
    match word {
        Word::Root => {
            let good = plot.tree().directory;
            plot.words[id as usize] = make(good, length / DIRECTORY_WORDS);
        }
        Word::At(place) => {
            let index = plot.tree().word(place);
            let good = plot.room.table(random).expect("the run has room");
            plot.clear(random, TABLE_WORDS * good, TABLE_WORDS);
            plot.words[index] = make(good, length / TABLE_WORDS);
        }
    }
    plot
}
