//! A terminal whose other end hangs up while the program waits for more: what was written to it has
//! been read, and then a read fails.

use crate::drained::unread;
use crate::program::PATIENCE;
use crate::request::request;
use std::ffi::{c_ulong, OsString};
use std::fs::{self, File};
use std::io::{self, Error, Write};
use std::os::unix::fs::OpenOptionsExt;
use std::process::Command;
use std::thread;
use std::time::{Duration, Instant};

const MASTER: &str = "/dev/ptmx";

/// The requests that unlock a terminal and tell its number, and the flag that leaves the process
/// without one.
const TIOCSPTLCK: c_ulong = 0x4004_5431;
const TIOCGPTN: c_ulong = 0x8004_5430;
const O_NOCTTY: i32 = 0o400;

/// A program that is found to wait so many times in a row has read everything.
const LOOKS: usize = 40;
const NAP: Duration = Duration::from_millis(2);

pub struct Terminal {
    name: String,
    master: File,
    slave: File,
}

impl Terminal {
    /// A terminal that hands on all bytes as they are.
    pub fn open() -> Result<Terminal, String> {
        Terminal::opened().map_err(|error| format!("no terminal: {error}"))
    }

    fn opened() -> io::Result<Terminal> {
        let open = |name: &str| {
            let mut options = File::options();
            options.read(true).write(true);
            options.custom_flags(O_NOCTTY).open(name)
        };
        let master = open(MASTER)?;
        request(&master, TIOCSPTLCK, 0)?;
        let number = request(&master, TIOCGPTN, 0)?;
        let name = format!("/dev/pts/{number}");
        let slave = open(&name)?;
        let mut raw = Command::new("stty");
        let set = raw.args(["-F", &name, "raw", "-echo"]).status()?;
        match set.success() {
            true => Ok(Terminal {
                name,
                master,
                slave,
            }),
            false => Err(Error::other("stty fails")),
        }
    }

    pub fn name(&self) -> OsString {
        self.name.clone().into()
    }

    /// Writes the bytes, and hangs up when the process has read them and waits for more.
    pub fn feed(mut self, bytes: Vec<u8>, process: u32) {
        thread::spawn(move || {
            self.master.write_all(&bytes)?;
            let begun = Instant::now();
            let mut looks = 0;
            while looks < LOOKS && begun.elapsed() < PATIENCE {
                looks = match unread(&self.slave)? == 0 && is_asleep(process) {
                    true => looks + 1,
                    false => 0,
                };
                thread::sleep(NAP);
            }
            drop(self.master);
            io::Result::Ok(())
        });
    }
}

/// Whether the process waits for something. Its state stands behind its name in brackets.
fn is_asleep(process: u32) -> bool {
    let state = fs::read_to_string(format!("/proc/{process}/stat")).unwrap_or_default();
    let behind = state
        .rsplit_once(')')
        .map(|(_, behind)| behind.trim_start());
    behind.is_some_and(|behind| behind.starts_with('S'))
}

#[cfg(test)]
mod tests {
    use super::*;
    use crate::program::Program;

    #[test]
    fn all_bytes_are_read_and_then_a_read_fails() {
        for length in [1, 800, 65_536, 70_000] {
            let bytes: Vec<u8> = (0..length).map(|n: u32| (n / 3) as u8).collect();
            let terminal = Terminal::open().expect("there are terminals");
            let mut shell = Command::new("/bin/sh");
            shell.args(["-c", "cat \"$0\" 2>&-; echo $?"]);
            shell.arg(terminal.name());
            let mut program = Program::start_without_input(&mut shell).expect("the shell starts");
            let process = reader_of(&program);
            terminal.feed(bytes.clone(), process);
            let got = program.whole_output(2 * bytes.len());
            let expected = [&bytes[..], b"1\n"].concat();
            assert!(got == Ok(expected), "{length} bytes");
        }
    }

    /// The process that the shell starts to read.
    fn reader_of(program: &Program) -> u32 {
        let shell = program.process();
        let children = format!("/proc/{shell}/task/{shell}/children");
        loop {
            let child = fs::read_to_string(&children).expect("the shell runs");
            if let Some(child) = child.split_whitespace().next() {
                return child.parse().expect("a process has a number");
            }
            thread::sleep(NAP);
        }
    }
}
