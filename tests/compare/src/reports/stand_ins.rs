//! Report programs that are wrong at the boundaries of their blocks, or from file to file, or where a
//! read fails: the calls across blocks show every one.

use super::case::{self, Case};
use super::{across, failing};
use crate::blocks::boundary::{Lost, LOST};
use crate::blocks::faulty::{each_shows, goes_past, Comes, Input, Kept, Loss, Reading, WRONG};
use crate::blocks::part::Part;
use crate::blocks::BY_REPORT;
use crate::random::Random;
use reference::report::{ByCounts, LeafWords, Replay, Report, Totals, COLUMNS};
use reference::trace::Unit;

#[derive(Clone, Copy, Debug, PartialEq, Eq)]
enum Fault {
    None,
    Reads(Reading),
    Loses(Loss),
    BeginsAnew,
    LosesColumn(usize),
    /// At this boundary alone, counted from 1.
    LosesColumnAt(usize, usize),
    LosesTotals(Lost),
    /// The leaf words before the next store are taken for none.
    LosesLeafCount,
    Leaks(Part),
    LeaksTotals,
    LeaksLeafCount,
    KeepsCutBytes,
    /// What can't be opened is taken for an empty file.
    TakesUnreadForEmpty,
}

/// The first boundary, and the last of the longest file.
const BOUNDARIES: [usize; 2] = [1, 8];

fn faults() -> Vec<Fault> {
    let mut faults = vec![
        Fault::BeginsAnew,
        Fault::LosesLeafCount,
        Fault::LeaksTotals,
        Fault::LeaksLeafCount,
        Fault::KeepsCutBytes,
        Fault::TakesUnreadForEmpty,
        Fault::Reads(Reading::TakesFailureForEnd),
        Fault::Reads(Reading::TakesFailureForEndBehindBlock),
    ];
    faults.extend(WRONG.map(Fault::Reads));
    for part in BY_REPORT.sees.parts() {
        faults.push(Fault::Leaks(part));
        let losses = Loss::all(part, &BOUNDARIES).into_iter();
        faults.extend(losses.map(Fault::Loses));
    }
    faults.extend(LOST.map(Fault::LosesTotals));
    for column in 0..COLUMNS {
        faults.push(Fault::LosesColumn(column));
        faults.extend(BOUNDARIES.map(|boundary| Fault::LosesColumnAt(boundary, column)));
    }
    faults
}

struct StandIn {
    fault: Fault,
    kept: Kept,
    replay: Replay<ByCounts>,
    /// The totals that the block found.
    found: Vec<Totals>,
    /// Bytes of a record that is not whole.
    cut: Vec<u8>,
}

impl StandIn {
    /// What it prints.
    fn text(fault: Fault, cases: &[Case]) -> Vec<u8> {
        let mut stand_in = StandIn {
            fault,
            kept: Kept::begin(&Unit::start()),
            replay: Replay::start(),
            found: Vec::new(),
            cut: Vec::new(),
        };
        text_by(cases, |case| stand_in.report(case))
    }

    fn report(&mut self, case: &Case) -> Report {
        self.begin_file();
        let input = match (&case.comes, &case.trace) {
            (case::Comes::AndFail(bytes), _) => Input::of(&[bytes.clone()], true),
            (case::Comes::InPieces(pieces), _) => Input::of(pieces, false),
            (_, Some(trace)) => Input::of(&[trace.clone()], false),
            (_, None) if self.fault == Fault::TakesUnreadForEmpty => Input::of(&[], false),
            (_, None) => return Report::Unread,
        };
        let reading = match self.fault {
            Fault::Reads(reading) => reading,
            _ => Reading::Right,
        };
        match reading.each_block(input, BY_REPORT.block_bytes(), |block| self.take(block)) {
            Ok(()) => Report::Totals(self.replay.totals.clone()),
            Err(_) => Report::Unread,
        }
    }

    fn begin_file(&mut self) {
        let last = std::mem::replace(&mut self.replay, Replay::start());
        match self.fault {
            Fault::Leaks(part) => part.take(&mut self.replay.unit, &last.unit),
            Fault::LeaksTotals => self.replay.totals = last.totals,
            Fault::LeaksLeafCount => self.replay.totals[0].net -= last.leaves.count() as i64,
            Fault::KeepsCutBytes => {}
            _ => self.cut.clear(),
        }
        self.kept = Kept::begin(&self.replay.unit);
        self.next_block();
    }

    fn take(&mut self, block: &[u8]) {
        let bytes = [&self.cut, block].concat();
        let (records, rest) = bytes.as_chunks();
        for &record in records {
            let booked = self.replay.step(record);
            booked.expect("no total comes to the limit");
        }
        self.cut = match self.fault {
            Fault::KeepsCutBytes => rest.to_vec(),
            _ => Vec::new(),
        };
        if block.len() == BY_REPORT.block_bytes() {
            self.boundary();
            self.next_block();
        }
    }

    fn boundary(&mut self) {
        self.kept.boundaries += 1;
        let replay = &mut self.replay;
        match self.fault {
            Fault::Loses(loss) => self.kept.lose(&mut replay.unit, loss),
            Fault::BeginsAnew => replay.unit = Unit::start(),
            Fault::LosesTotals(Lost::ToStart) => replay.totals.fill(Totals::default()),
            Fault::LosesTotals(Lost::ToBlock) => replay.totals = self.found.clone(),
            Fault::LosesColumn(column) => lose_column(replay, column),
            Fault::LosesColumnAt(boundary, column) if boundary == self.kept.boundaries => {
                lose_column(replay, column)
            }
            Fault::LosesLeafCount => {
                let context = replay.unit.registers.context as usize;
                replay.totals[context].net += replay.leaves.count() as i64;
            }
            _ => {}
        }
    }

    fn next_block(&mut self) {
        self.kept.next(&self.replay.unit);
        self.found = self.replay.totals.clone();
    }
}

fn lose_column(replay: &mut Replay<ByCounts>, column: usize) {
    for totals in &mut replay.totals {
        *total(totals, column) = 0;
    }
}

fn total(totals: &mut Totals, column: usize) -> &mut i64 {
    match column {
        0 => &mut totals.served,
        1 => &mut totals.loads,
        12 => &mut totals.emptied,
        13 => &mut totals.net,
        _ => &mut totals.faults[column - 2],
    }
}

impl Fault {
    fn text(self, cases: &Vec<Case>) -> Option<Vec<u8>> {
        self.is_meant(cases).then(|| StandIn::text(self, cases))
    }

    /// Whether the call is there for the fault; the right program is tried with all.
    fn is_meant(self, cases: &[Case]) -> bool {
        let traces = cases.iter().filter_map(|case| case.trace.as_ref());
        let longest = traces.map(Vec::len).max().unwrap_or(0);
        let shows_in = match self {
            Fault::None => return true,
            Fault::Reads(reading) => reading.shows_in(),
            Fault::TakesUnreadForEmpty => Comes::NotAtAll,
            Fault::Loses(loss) if !loss.is_in(BY_REPORT, longest) => return false,
            Fault::LosesColumnAt(boundary, _) if !goes_past(BY_REPORT, longest, boundary) => {
                return false
            }
            _ => Comes::Whole,
        };
        let odd = cases.iter().map(comes).find(|&comes| comes != Comes::Whole);
        odd.unwrap_or(Comes::Whole) == shows_in
    }
}

fn comes(case: &Case) -> Comes {
    match (&case.comes, &case.trace) {
        (case::Comes::InPieces(_), _) => Comes::InPieces,
        (case::Comes::AndFail(_), _) => Comes::AndFails,
        (_, None) => Comes::NotAtAll,
        _ => Comes::Whole,
    }
}

/// What is printed of the cases that are reported on so.
fn text_by(cases: &[Case], mut report: impl FnMut(&Case) -> Report) -> Vec<u8> {
    let mut text = Vec::new();
    for (number, case) in cases.iter().enumerate() {
        let written = report(case).write(number, &mut text);
        written.expect("bytes in memory are written without fail");
    }
    text
}

#[test]
fn every_faulty_program_shows_and_the_right_one_does_not() {
    let mut random = Random::new(1);
    let mut calls = failing::calls(&mut random);
    calls.push(across::with_unread(&mut random));
    calls.extend(across::calls(&mut random));
    let calls: Vec<(Vec<Case>, Vec<u8>)> = calls
        .into_iter()
        .map(|cases| {
            let text = text_by(&cases, Case::report);
            (cases, text)
        })
        .collect();
    let name = |cases: &Vec<Case>| {
        let mut outcomes = cases.iter().flat_map(|case| &case.outcomes);
        format!("{:?}", outcomes.next())
    };
    each_shows((Fault::None, faults()), &calls, Fault::text, name);
}
