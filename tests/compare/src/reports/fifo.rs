//! Named pipes.

use crate::drained;
use std::fs::File;
use std::path::PathBuf;
use std::process::Command;
use std::thread;

/// Makes a named pipe. These pieces come through it to the first that opens it, each when the last
/// has been read.
pub fn feed(path: PathBuf, pieces: Vec<Vec<u8>>) -> Result<(), String> {
    let made = Command::new("mkfifo").arg(&path).status();
    if !made.is_ok_and(|status| status.success()) {
        return Err(format!("{}: no pipe can be made", path.display()));
    }
    // A program that does not read all shows by what it writes.
    thread::spawn(move || drained::write(File::options().write(true).open(path)?, pieces));
    Ok(())
}

#[cfg(test)]
mod tests {
    use super::*;
    use crate::reports::folder::Folder;
    use std::io::Read;

    #[test]
    fn the_first_that_opens_it_finds_one_piece_at_a_time() {
        let folder = Folder::new("compare-fifo").expect("a folder can be made");
        let path = folder.path().join("pipe");
        let pieces = [3, 8193, 1].map(|length| vec![9; length]);
        feed(path.clone(), pieces.to_vec()).expect("a pipe can be made");
        let mut pipe = File::open(path).expect("it is there");
        let mut bytes = [0; 10_000];
        for piece in &pieces {
            let length = pipe.read(&mut bytes).expect("it is open");
            assert_eq!(bytes[..length], piece[..]);
        }
        assert!(pipe.read(&mut bytes).is_ok_and(|length| length == 0));
    }
}
