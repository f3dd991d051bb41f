//! Which parts the records behind a boundary tell, shown by units that lose a part there.

use super::part::{Part, PARTS};
use super::Reads;
use reference::trace::{Line, Unit, RECORD_BYTES};
use reference::{Outcome, Refusal};

/// What a unit loses a part to.
#[derive(Clone, Copy, Debug, PartialEq, Eq)]
pub enum Lost {
    /// The part is as it was at the start.
    ToStart,
    /// The part is as the block before the boundary found it.
    ToBlock,
}

pub const LOST: [Lost; 2] = [Lost::ToStart, Lost::ToBlock];

/// A loss of a part has to show within so many blocks: ENABLE may be off in one.
const BLOCKS_BEHIND: usize = 2;

/// What a program prints of a record, as far as one record tells it.
#[derive(PartialEq, Eq)]
pub struct Seen {
    context: u32,
    line: Line,
}

/// How a program sees the record's line that a unit has come to.
#[derive(Clone, Copy, PartialEq, Eq)]
pub enum Sees {
    Trace,
    Report,
}

impl Sees {
    /// A report prints no address, and nothing of a setting or of a refused record.
    fn of(self, context: u32, line: Line) -> Seen {
        if self == Sees::Trace {
            return Seen { context: 0, line };
        }
        let outcome = match line.outcome {
            Outcome::At(_) => Outcome::At(0),
            Outcome::Fault(value) => Outcome::Fault(value % 256),
            Outcome::Done(0) | Outcome::Refused(_) => return nothing(),
            done => done,
        };
        Seen {
            context,
            line: Line { outcome, ..line },
        }
    }

    /// The parts that can be seen at all: a report's totals never go by a segment's base.
    pub fn parts(self) -> impl Iterator<Item = Part> {
        let of_addresses = [Part::KbaseLo, Part::KbaseHi];
        let is_seen = move |part: &Part| self == Sees::Trace || !of_addresses.contains(part);
        PARTS.into_iter().filter(is_seen)
    }

    pub fn step(self, unit: &mut Unit, record: [u8; RECORD_BYTES]) -> Seen {
        let context = unit.registers.context;
        self.of(context, unit.step(record))
    }
}

fn nothing() -> Seen {
    Seen {
        context: 0,
        line: Line::refused(Refusal::Record),
    }
}

pub fn all(reads: Reads) -> Vec<String> {
    let mut all = Vec::new();
    for part in reads.sees.parts() {
        all.extend(LOST.map(|lost| told(reads, part, lost)));
        if part.setting().is_some() {
            all.push(alone(reads, part));
        }
        all.push(needed(reads, part));
    }
    all
}

/// The outcomes at each boundary of the trace, each with whether it holds.
pub fn of(reads: Reads, trace: &[u8]) -> Vec<(String, bool)> {
    let (records, _) = trace.as_chunks();
    let block = reads.block;
    let start = Unit::start();
    let mut unit = start.clone();
    let mut outcomes = Vec::new();
    for boundary in (block..records.len()).step_by(block) {
        let found = unit.clone();
        for &record in &records[boundary - block..boundary] {
            unit.step(record);
        }
        let boundary = Boundary {
            reads,
            start: &start,
            found: &found,
            left: &unit,
            behind: &records[boundary..],
        };
        for part in reads.sees.parts() {
            outcomes.extend(boundary.of_part(part));
        }
    }
    outcomes
}

struct Boundary<'a> {
    reads: Reads,
    start: &'a Unit,
    /// The unit as the block before the boundary found it, and as it left it.
    found: &'a Unit,
    left: &'a Unit,
    behind: &'a [[u8; RECORD_BYTES]],
}

impl Boundary<'_> {
    fn of_part(&self, part: Part) -> Vec<(String, bool)> {
        let most = BLOCKS_BEHIND * self.reads.block;
        let mut outcomes = Vec::new();
        for lost in LOST {
            if self.shows(part, lost, 1) {
                outcomes.push((told(self.reads, part, lost), true));
            }
        }
        if self.is_alone(part) && self.shows(part, Lost::ToBlock, 1) {
            outcomes.push((alone(self.reads, part), true));
        }
        let is_as_at_start = part.setting().is_some() && part.is_same(self.left, self.start);
        if self.behind.len() >= most && !is_as_at_start {
            let shows = self.shows(part, Lost::ToStart, most);
            outcomes.push((needed(self.reads, part), shows));
        }
        outcomes
    }

    /// Whether the part is the only setting that the block has changed.
    fn is_alone(&self, part: Part) -> bool {
        let is_changed = |part: &Part| !part.is_same(self.left, self.found);
        part.setting().is_some() && PARTS.iter().filter(|part| is_changed(part)).eq([&part])
    }

    /// Whether a loss of the part shows in the next records, so many at the most.
    fn shows(&self, part: Part, lost: Lost, most: usize) -> bool {
        let mut right = self.left.clone();
        let mut wrong = self.left.clone();
        let from = match lost {
            Lost::ToStart => self.start,
            Lost::ToBlock => self.found,
        };
        part.take(&mut wrong, from);
        let mut behind = self.behind.iter().take(most);
        let sees = self.reads.sees;
        behind.any(|&record| sees.step(&mut right, record) != sees.step(&mut wrong, record))
    }
}

/// The first record behind the boundary tells the part from what it was.
fn told(Reads { what, .. }: Reads, part: Part, lost: Lost) -> String {
    let was = match lost {
        Lost::ToStart => "what the start has",
        Lost::ToBlock => "what the block found",
    };
    let part = part.name();
    format!("{what} across a boundary, the record behind it tells {part} from {was}")
}

/// The same, where the block changed no other setting.
fn alone(Reads { what, .. }: Reads, part: Part) -> String {
    let part = part.name();
    format!("{what} across a boundary, {part} alone was set in the block and the record behind it tells")
}

fn needed(Reads { what, .. }: Reads, part: Part) -> String {
    let part = part.name();
    format!("{what} across a boundary, a loss of {part} shows behind it")
}
