//! The lengths in which an input comes.

use super::Reads;
use crate::random::Random;

/// How an input is cut up.
#[derive(Clone, Copy, Debug, PartialEq, Eq)]
pub enum Pieces {
    /// So many bytes each.
    Of(usize),
    /// Single bytes around the boundaries, and all between them at once.
    AroundBoundaries,
    /// Up to so many bytes each.
    UpTo(usize),
}

/// Those that an input comes in through a pipe. None of the lengths is a multiple of a record's.
pub const ODD: [Pieces; 7] = [
    Pieces::Of(1),
    Pieces::Of(7),
    Pieces::Of(8191),
    Pieces::Of(8193),
    Pieces::Of(65_537),
    Pieces::AroundBoundaries,
    Pieces::UpTo(20_000),
];

/// So many bytes before and behind a boundary come one by one.
const AROUND: usize = 9;
const AROUND_BOTH: usize = 2 * AROUND;

/// How many records come in single bytes, and how many in long pieces.
const IN_BYTES: usize = 1027;
const IN_LONG_PIECES: usize = 20_003;

impl Pieces {
    /// How many records come so, the most that take no long time.
    pub fn records(self, reads: Reads) -> usize {
        match self {
            Pieces::Of(1) => IN_BYTES,
            Pieces::Of(..AROUND) => reads.block + AROUND,
            _ => IN_LONG_PIECES,
        }
    }

    pub fn cut(self, random: &mut Random, bytes: &[u8], reads: Reads) -> Vec<Vec<u8>> {
        let mut pieces = Vec::new();
        let mut rest = bytes;
        while !rest.is_empty() {
            let at = bytes.len() - rest.len();
            let length = self.next(random, at, reads.block_bytes());
            let (piece, behind) = rest.split_at(length.min(rest.len()));
            pieces.push(piece.to_vec());
            rest = behind;
        }
        pieces
    }

    /// The length of the piece that begins at the place.
    fn next(self, random: &mut Random, at: usize, block: usize) -> usize {
        match self {
            Pieces::Of(length) => length,
            Pieces::AroundBoundaries => match (at + AROUND) % block {
                0..AROUND_BOTH if at >= AROUND => 1,
                place => block - place,
            },
            Pieces::UpTo(most) => 1 + random.below(most),
        }
    }

    pub fn outcome(self, Reads { what, .. }: Reads) -> String {
        let lengths = match self {
            Pieces::Of(length) => format!("pieces of {length} bytes"),
            Pieces::AroundBoundaries => "single bytes around the boundaries".to_string(),
            Pieces::UpTo(most) => format!("pieces of any length up to {most} bytes"),
        };
        format!("{what} through a pipe, {lengths}, each when the last has been read")
    }
}

#[cfg(test)]
mod tests {
    use super::*;
    use crate::blocks::BY_TRACE;
    use reference::trace::RECORD_BYTES;

    #[test]
    fn the_pieces_are_the_whole_input_and_cut_records() {
        let bytes: Vec<u8> = (0..140_000u32).map(|n| (n / 7) as u8).collect();
        let mut random = Random::new(1);
        for pieces in ODD {
            let cut = pieces.cut(&mut random, &bytes, BY_TRACE);
            assert_eq!(cut.concat(), bytes, "{pieces:?}");
            let before_last = &cut[..cut.len() - 1];
            let cuts = |piece: &Vec<u8>| piece.len() % RECORD_BYTES != 0;
            assert!(before_last.iter().any(cuts), "{pieces:?}");
        }
    }

    #[test]
    fn every_byte_around_a_boundary_comes_alone() {
        let bytes = vec![0; 3 * BY_TRACE.block_bytes()];
        let cut = Pieces::AroundBoundaries.cut(&mut Random::new(1), &bytes, BY_TRACE);
        let lengths: Vec<usize> = cut.iter().map(Vec::len).collect();
        let single = [1; AROUND_BOTH];
        let first = BY_TRACE.block_bytes() - AROUND;
        let between = BY_TRACE.block_bytes() - AROUND_BOTH;
        let expected = [
            &[first],
            &single[..],
            &[between],
            &single,
            &[between],
            &single[..AROUND],
        ];
        assert_eq!(lengths, expected.concat());
    }
}
