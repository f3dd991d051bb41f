//! Bytes that are written piece by piece, each when the last one has been read. So a reader never
//! finds more than a piece.

use crate::program::PATIENCE;
use crate::request::request;
use std::ffi::c_ulong;
use std::io::{self, ErrorKind, Write};
use std::os::fd::AsRawFd;
use std::thread;
use std::time::{Duration, Instant};

/// The request that tells how many bytes of a pipe or a terminal wait for their reader.
const FIONREAD: c_ulong = 0x541B;

const NAP: Duration = Duration::from_micros(20);

pub fn write(mut output: impl Write + AsRawFd, pieces: Vec<Vec<u8>>) -> io::Result<()> {
    for piece in pieces {
        output.write_all(&piece)?;
        wait_for_reader(&output)?;
    }
    Ok(())
}

fn wait_for_reader(output: &impl AsRawFd) -> io::Result<()> {
    let begun = Instant::now();
    while unread(output)? > 0 {
        if begun.elapsed() > PATIENCE {
            return Err(ErrorKind::TimedOut.into());
        }
        thread::sleep(NAP);
    }
    Ok(())
}

/// How many bytes have been written to the pipe or terminal and not been read.
pub fn unread(file: &impl AsRawFd) -> io::Result<usize> {
    let bytes = request(file, FIONREAD, 0)?;
    Ok(bytes as usize)
}

#[cfg(test)]
mod tests {
    use super::*;
    use std::io::Read;

    #[test]
    fn a_reader_finds_one_piece_at_a_time() {
        let lengths = [1, 7, 8191, 1, 65_537, 3];
        let (mut reader, writer) = io::pipe().expect("there are pipes");
        let pieces = lengths.map(|length| vec![0; length]).to_vec();
        let written = thread::spawn(|| write(writer, pieces));
        let mut found = Vec::new();
        for length in lengths {
            // A pipe holds less than the longest piece, which is found in parts.
            let mut left = length;
            while left > 0 {
                let read = reader.read(&mut [0; 100_000]).expect("the pipe is open");
                assert!(read <= left, "{read} bytes of {left}");
                left -= read;
            }
            found.push(length);
        }
        assert_eq!(found, lengths);
        assert!(written.join().is_ok_and(|written| written.is_ok()));
    }
}
