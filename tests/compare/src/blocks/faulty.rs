//! Programs that read in blocks, one of them right, and what each hands on from block to block.

use super::boundary::{Lost, LOST};
use super::part::Part;
use super::Reads;
use reference::trace::Unit;
use std::collections::VecDeque;
use std::fmt::Debug;
use std::io::{self, ErrorKind, Read};

/// Every fault shows in one of the cases, which have their right texts with them, and a right program
/// in none. There is no text where a case is too short for the fault.
pub fn each_shows<F: Copy + Debug, C>(
    (right, faults): (F, Vec<F>),
    cases: &[(C, Vec<u8>)],
    text: impl Fn(F, &C) -> Option<Vec<u8>>,
    name: impl Fn(&C) -> String,
) {
    let shown = |fault| {
        let mut cases = cases.iter();
        cases.find(|(case, right)| text(fault, case).is_some_and(|text| text != *right))
    };
    for fault in faults {
        let (case, _) = shown(fault).unwrap_or_else(|| panic!("no case shows this: {fault:?}"));
        println!("{fault:?} shows in: {}", name(case));
    }
    assert!(shown(right).is_none());
}

/// An input of which a read gives no more than what is left of a piece. It ends, or fails.
pub struct Input {
    pieces: VecDeque<Vec<u8>>,
    fails: bool,
}

impl Input {
    pub fn of(pieces: &[Vec<u8>], fails: bool) -> Input {
        Input {
            pieces: pieces.iter().cloned().collect(),
            fails,
        }
    }
}

impl Read for Input {
    fn read(&mut self, bytes: &mut [u8]) -> io::Result<usize> {
        let Some(piece) = self.pieces.front_mut() else {
            return match self.fails {
                true => Err(ErrorKind::Other.into()),
                false => Ok(0),
            };
        };
        let length = piece.len().min(bytes.len());
        for (to, from) in bytes.iter_mut().zip(piece.drain(..length)) {
            *to = from;
        }
        if piece.is_empty() {
            self.pieces.pop_front();
        }
        Ok(length)
    }
}

/// How an input comes, or that there is none.
#[derive(Clone, Copy, PartialEq, Eq)]
pub enum Comes {
    Whole,
    InPieces,
    AndFails,
    NotAtAll,
}

#[derive(Clone, Copy, Debug, PartialEq, Eq)]
pub enum Reading {
    Right,
    StopsAfterFirstBlock,
    StopsAfterSecondBlock,
    /// A block that is not full is taken for the last, though more comes.
    StopsAtShortRead,
    DropsShortBlock,
    TakesLastBlockTwice,
    /// Bytes of a record that a read has cut are not kept for the next.
    DropsCutRecords,
    TakesFailureForEnd,
    TakesFailureForEndBehindBlock,
}

/// The wrong ones that show in an input that does not fail.
pub const WRONG: [Reading; 6] = [
    Reading::StopsAfterFirstBlock,
    Reading::StopsAfterSecondBlock,
    Reading::StopsAtShortRead,
    Reading::DropsShortBlock,
    Reading::TakesLastBlockTwice,
    Reading::DropsCutRecords,
];

impl Reading {
    /// The inputs that are there for it.
    pub fn shows_in(self) -> Comes {
        match self {
            Reading::StopsAtShortRead | Reading::DropsCutRecords => Comes::InPieces,
            Reading::TakesFailureForEnd | Reading::TakesFailureForEndBehindBlock => Comes::AndFails,
            _ => Comes::Whole,
        }
    }

    /// Hands on each block of so many bytes, the last one shorter or empty.
    pub fn each_block(
        self,
        mut input: Input,
        bytes: usize,
        mut take: impl FnMut(&[u8]),
    ) -> io::Result<()> {
        let mut last = Vec::new();
        for number in 0.. {
            let block = self.next_block(&mut input, bytes, number)?;
            let is_last = match self {
                Reading::DropsCutRecords => block.is_empty(),
                Reading::StopsAfterFirstBlock => true,
                Reading::StopsAfterSecondBlock => number == 1 || block.len() < bytes,
                _ => block.len() < bytes,
            };
            match self {
                Reading::DropsShortBlock if is_last => {}
                _ => take(&block),
            }
            match (self, is_last, block.is_empty()) {
                (Reading::TakesLastBlockTwice, true, true) => take(&last),
                (Reading::TakesLastBlockTwice, true, false) => take(&block),
                _ => {}
            }
            if is_last {
                break;
            }
            last = block;
        }
        Ok(())
    }

    fn next_block(self, input: &mut Input, bytes: usize, number: usize) -> io::Result<Vec<u8>> {
        let mut block = vec![0; bytes];
        let mut held = 0;
        while held < bytes {
            held += match (input.read(&mut block[held..]), self) {
                (Ok(0), _) => break,
                (Ok(read), _) => read,
                (Err(_), Reading::TakesFailureForEnd) => break,
                (Err(_), Reading::TakesFailureForEndBehindBlock) if number > 0 => break,
                (Err(error), _) => return Err(error),
            };
            match self {
                Reading::StopsAtShortRead | Reading::DropsCutRecords => break,
                _ => {}
            }
        }
        block.truncate(held);
        Ok(block)
    }
}

/// A part of the unit that is lost.
#[derive(Clone, Copy, Debug, PartialEq, Eq)]
pub enum Loss {
    /// At every boundary.
    Always(Part, Lost),
    /// At this boundary alone, counted from 1, to what the start has.
    At(usize, Part),
}

impl Loss {
    /// Every loss of the part, at these boundaries and at all.
    pub fn all(part: Part, boundaries: &[usize]) -> Vec<Loss> {
        let always = LOST.iter().map(|&lost| Loss::Always(part, lost));
        let at = boundaries.iter().map(|&boundary| Loss::At(boundary, part));
        always.chain(at).collect()
    }

    /// Whether a trace of so many bytes has the boundary.
    pub fn is_in(self, reads: Reads, bytes: usize) -> bool {
        match self {
            Loss::Always(..) => true,
            Loss::At(boundary, _) => goes_past(reads, bytes, boundary),
        }
    }
}

/// Whether a trace of so many bytes goes on behind the boundary.
pub fn goes_past(reads: Reads, bytes: usize, boundary: usize) -> bool {
    bytes > boundary * reads.block_bytes()
}

/// What a loss at a boundary goes by.
pub struct Kept {
    start: Unit,
    /// The unit as the block found it.
    found: Unit,
    /// How many boundaries the trace has had.
    pub boundaries: usize,
}

impl Kept {
    pub fn begin(unit: &Unit) -> Kept {
        Kept {
            start: Unit::start(),
            found: unit.clone(),
            boundaries: 0,
        }
    }

    pub fn lose(&self, unit: &mut Unit, loss: Loss) {
        match loss {
            Loss::Always(part, Lost::ToStart) => part.take(unit, &self.start),
            Loss::Always(part, Lost::ToBlock) => part.take(unit, &self.found),
            Loss::At(boundary, part) if boundary == self.boundaries => part.take(unit, &self.start),
            Loss::At(..) => {}
        }
    }

    /// The next block finds this.
    pub fn next(&mut self, unit: &Unit) {
        self.found = unit.clone();
    }
}
