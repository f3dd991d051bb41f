//! Trace programs that are wrong at the boundaries of their blocks: the traces across blocks show
//! every one.

use super::across::{self, Case};
use crate::blocks::faulty::{each_shows, Comes, Input, Kept, Loss, Reading, WRONG};
use crate::blocks::part::PARTS;
use crate::blocks::BY_TRACE;
use crate::random::Random;
use reference::trace::{text_of, Line, Unit};
use reference::Refusal;

#[derive(Clone, Copy, Debug, PartialEq, Eq)]
enum Fault {
    None,
    Reads(Reading),
    Loses(Loss),
    BeginsAnew,
    NumbersFromZero,
    NumbersFromThousandMore,
    EachBlockIsATrace,
    RefusesAnEmptyBlock,
    NoLineForCutBehindBoundary,
    NoLineForCutBeforeBoundary,
}

/// The first boundary, some others, and the last of the longest trace.
const BOUNDARIES: [usize; 4] = [1, 2, 8, 68];

fn faults() -> Vec<Fault> {
    let mut faults = vec![
        Fault::BeginsAnew,
        Fault::NumbersFromZero,
        Fault::NumbersFromThousandMore,
        Fault::EachBlockIsATrace,
        Fault::RefusesAnEmptyBlock,
        Fault::NoLineForCutBehindBoundary,
        Fault::NoLineForCutBeforeBoundary,
    ];
    faults.extend(WRONG.map(Fault::Reads));
    let losses = PARTS.iter().flat_map(|&part| Loss::all(part, &BOUNDARIES));
    faults.extend(losses.map(Fault::Loses));
    faults
}

struct StandIn {
    fault: Fault,
    kept: Kept,
    unit: Unit,
    number: u64,
    text: Vec<u8>,
}

impl StandIn {
    /// What it prints.
    fn text(fault: Fault, pieces: &[Vec<u8>]) -> Vec<u8> {
        let mut stand_in = StandIn {
            fault,
            kept: Kept::begin(&Unit::start()),
            unit: Unit::start(),
            number: 0,
            text: Vec::new(),
        };
        let reading = match fault {
            Fault::Reads(reading) => reading,
            _ => Reading::Right,
        };
        let input = Input::of(pieces, false);
        let read = reading.each_block(input, BY_TRACE.block_bytes(), |block| stand_in.take(block));
        read.expect("this input does not fail");
        stand_in.text
    }

    fn take(&mut self, block: &[u8]) {
        let (records, rest) = block.as_chunks();
        for &record in records {
            let line = self.unit.step(record);
            self.write(line);
        }
        let has_line = match self.fault {
            Fault::RefusesAnEmptyBlock if block.is_empty() => self.number > 0,
            Fault::NoLineForCutBehindBoundary if records.is_empty() => false,
            Fault::NoLineForCutBeforeBoundary if records.len() + 1 == BY_TRACE.block => false,
            _ => !rest.is_empty(),
        };
        if has_line {
            self.write(Line::refused(Refusal::Record));
        }
        if block.len() == BY_TRACE.block_bytes() {
            self.boundary();
        }
    }

    fn write(&mut self, line: Line) {
        let written = line.write(self.number, &mut self.text);
        written.expect("bytes in memory are written without fail");
        self.number += 1;
    }

    fn boundary(&mut self) {
        self.kept.boundaries += 1;
        let unit = &mut self.unit;
        match self.fault {
            Fault::Loses(loss) => self.kept.lose(unit, loss),
            Fault::BeginsAnew => *unit = Unit::start(),
            Fault::NumbersFromZero => self.number = 0,
            Fault::NumbersFromThousandMore => self.number += 1000,
            Fault::EachBlockIsATrace => {
                *unit = Unit::start();
                self.number = 0;
            }
            _ => {}
        }
        self.kept.next(&self.unit);
    }
}

impl Fault {
    fn text(self, case: &Case) -> Option<Vec<u8>> {
        self.is_meant(case)
            .then(|| StandIn::text(self, &case.pieces))
    }

    /// Whether the case is there for the fault; the right program is tried with all.
    fn is_meant(self, case: &Case) -> bool {
        let comes = match case.pieces.len() {
            1 => Comes::Whole,
            _ => Comes::InPieces,
        };
        match self {
            Fault::None => true,
            Fault::Reads(reading) => comes == reading.shows_in(),
            Fault::Loses(loss) if !loss.is_in(BY_TRACE, case.trace.len()) => false,
            _ => comes == Comes::Whole,
        }
    }
}

#[test]
fn every_faulty_program_shows_and_the_right_one_does_not() {
    let cases = across::cases(&mut Random::new(1)).into_iter();
    let cases: Vec<(Case, Vec<u8>)> = cases
        .map(|case| {
            let text = text_of(&case.trace);
            (case, text)
        })
        .collect();
    let name = |case: &Case| case.outcomes[0].0.clone();
    each_shows((Fault::None, faults()), &cases, Fault::text, name);
}
