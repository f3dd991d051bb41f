//! The report over trace files: exact totals for each identification.
//!
//! It "replays the files its arguments name, each from the start state and zero tables".

mod by_counts;
mod by_walks;
mod leaf_words;
mod replay;
mod totals;

pub use by_counts::ByCounts;
pub use by_walks::{leaf_words, ByWalks};
pub use leaf_words::{LeafWords, ROOTS};
pub use replay::{Replay, IDENTIFICATIONS};
pub use totals::{Totals, COLUMNS, FAULTS, LIMIT};

use crate::refusal::Refusal;
use crate::trace::each_record;
use std::ffi::OsStr;
use std::fs::File;
use std::io::{self, Read, Write};

/// What the report says of one file.
#[derive(Clone, Debug, PartialEq, Eq)]
pub enum Report {
    /// By identification.
    Totals(Vec<Totals>),
    Refused(Refusal),
    Unread,
}

/// The reports of the named files, one after another. A file's number is its place among the names.
pub fn run<N: AsRef<OsStr>>(
    names: impl IntoIterator<Item = N>,
    mut output: impl Write,
) -> io::Result<()> {
    for (number, name) in names.into_iter().enumerate() {
        Report::of_file::<ByCounts>(name.as_ref()).write(number, &mut output)?;
    }
    output.flush()
}

impl Report {
    /// "Unread" where the file "can't be read": where it can't be opened, or a read fails.
    pub fn of_file<L: LeafWords>(name: &OsStr) -> Report {
        match File::open(name) {
            Ok(file) => Report::of::<L>(file),
            Err(_) => Report::Unread,
        }
    }

    /// A last piece of 1 to 7 bytes is a refused record, and books nothing.
    pub fn of<L: LeafWords>(input: impl Read) -> Report {
        let mut replay = Replay::<L>::start();
        match each_record(input, |record| Ok(replay.step(record)?)) {
            Ok(_) => Report::Totals(replay.totals),
            Err(Stop::Refused(refusal)) => Report::Refused(refusal),
            Err(Stop::Unread) => Report::Unread,
        }
    }

    /// "Each file gives 63 lines, identifications 0 to 62: its number from 0, the identification,
    /// then these fourteen, in decimal, one space between", or one line, "its number and 'refused
    /// 9', or 'unread'".
    pub fn write(&self, number: usize, output: &mut impl Write) -> io::Result<()> {
        match self {
            Report::Totals(totals) => {
                for (identification, totals) in totals.iter().enumerate() {
                    write!(output, "{number} {identification}")?;
                    for total in totals.columns() {
                        write!(output, " {total}")?;
                    }
                    writeln!(output)?;
                }
                Ok(())
            }
            Report::Refused(refusal) => writeln!(output, "{number} refused {}", refusal.number()),
            Report::Unread => writeln!(output, "{number} unread"),
        }
    }
}

/// Why a file's records are not replayed to their end.
enum Stop {
    Unread,
    Refused(Refusal),
}

impl From<io::Error> for Stop {
    fn from(_: io::Error) -> Stop {
        Stop::Unread
    }
}

impl From<Refusal> for Stop {
    fn from(refusal: Refusal) -> Stop {
        Stop::Refused(refusal)
    }
}
