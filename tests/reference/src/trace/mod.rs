//! The trace program: records from an input, a line for each to an output.

mod line;
mod record;
mod unit;

pub use line::Line;
pub use record::{call_of, KINDS, RECORD_BYTES};
pub use unit::{Unit, TABLE_WORDS};

use crate::refusal::Refusal;
use std::io::{self, ErrorKind, Read, Write};

/// Records are read in blocks of this many bytes.
const BLOCK: usize = 65536;

/// Reads the input to its end. "A last piece of 1 to 7 bytes is one refused record; empty input
/// prints nothing."
pub fn run(input: impl Read, mut output: impl Write) -> io::Result<()> {
    let mut unit = Unit::start();
    let mut number = 0;
    let left = each_record(input, |record| {
        number += 1;
        unit.step(record).write(number - 1, &mut output)
    })?;
    if left > 0 {
        Line::refused(Refusal::Record).write(number, &mut output)?;
    }
    output.flush()
}

/// Hands on every whole record of the input, up to the first that is answered with an error; how
/// many bytes are left behind the last.
pub fn each_record<E: From<io::Error>>(
    mut input: impl Read,
    mut take: impl FnMut([u8; RECORD_BYTES]) -> Result<(), E>,
) -> Result<usize, E> {
    let mut block = vec![0; BLOCK];
    let mut held = 0;
    loop {
        let filled = match input.read(&mut block[held..]) {
            Ok(0) => return Ok(held),
            Ok(read) => held + read,
            Err(error) if error.kind() == ErrorKind::Interrupted => continue,
            Err(error) => return Err(error.into()),
        };
        let (records, rest) = block[..filled].as_chunks();
        for &record in records {
            take(record)?;
        }
        held = rest.len();
        block.copy_within(filled - held..filled, 0);
    }
}

/// The lines of a whole trace.
pub fn text_of(trace: &[u8]) -> Vec<u8> {
    let mut text = Vec::new();
    run(trace, &mut text).expect("bytes in memory are read and written without fail");
    text
}
