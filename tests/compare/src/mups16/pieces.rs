//! Requests that come through a pipe in pieces, each when the last has been read.

use super::at_random::any_call;
use super::comparison::Comparison;
use super::unit::Unit;
use super::words;
use crate::alone::Alone;
use crate::cases::tables::ask_for_tables;
use crate::program::Program;
use crate::random::Random;
use reference::mups16::ENTRIES;

/// Lengths of pieces, none of them that of a request, with how many runs are handed over.
const PIECES: [(usize, usize); 6] = [(1, 1), (7, 2), (75, 4), (4097, 8), (8191, 8), (65_537, 8)];

/// Calls over each run. The first request comes in long pieces whatever the others come in.
const CALLS: usize = 40;
const LONG_PIECE: usize = 8191;

pub fn all() -> Vec<String> {
    PIECES.map(|(length, _)| outcome(length)).to_vec()
}

fn outcome(length: usize) -> String {
    format!("requests through a pipe, pieces of {length} bytes, each when the last has been read")
}

pub fn put(comparison: &mut Comparison, program: &str, seed: u64) {
    let mut random = Random::new(seed);
    for (length, runs) in PIECES {
        let script = Script::of(&mut random, runs);
        let got = Program::output_of(program, script.cut(length), script.answers.len());
        if let Err(problem) = &got {
            println!("in pieces of {length} bytes: {problem}");
        }
        comparison.add(&outcome(length), got == Ok(script.answers));
    }
}

/// Requests, and all the bytes of their answers.
#[derive(Default)]
struct Script {
    requests: Vec<Vec<u8>>,
    answers: Vec<u8>,
}

impl Script {
    fn of(random: &mut Random, runs: usize) -> Script {
        let mut script = Script::default();
        let mut to = Alone::new(|request, answer| {
            script.requests.push(request.to_bytes());
            script.answers.extend(answer.to_bytes());
        });
        for _ in 0..runs {
            let run = words::run(random, ENTRIES);
            let mut unit = Unit::with(random, run);
            for _ in 0..CALLS {
                any_call(&mut to, random, &mut unit);
            }
            ask_for_tables(&mut to);
        }
        script
    }

    fn cut(&self, length: usize) -> Vec<Vec<u8>> {
        let rest = self.requests[1..].concat();
        let first = self.requests[0].chunks(LONG_PIECE);
        let pieces = first.chain(rest.chunks(length));
        pieces.map(<[u8]>::to_vec).collect()
    }
}

#[cfg(test)]
mod tests {
    use super::*;

    #[test]
    fn the_pieces_are_all_the_requests() {
        let script = Script::of(&mut Random::new(1), 1);
        for (length, _) in PIECES {
            let pieces = script.cut(length);
            assert_eq!(pieces.concat(), script.requests.concat());
            assert!(pieces.len() > 5);
        }
    }
}
