//! The program under test as a running process that can never hold up the comparison.

use crate::drained;
use std::collections::VecDeque;
use std::io::{Read, Write};
use std::process::{Child, ChildStdin, ChildStdout, Command, Stdio};
use std::sync::mpsc::{channel, sync_channel, Receiver, RecvTimeoutError, Sender, SyncSender};
use std::thread;
use std::time::{Duration, Instant};

pub const PATIENCE: Duration = Duration::from_secs(20);

/// How long a program that is about to end is left alone between two looks at it.
const SHORTEST_NAP: Duration = Duration::from_micros(20);
const LONGEST_NAP: Duration = Duration::from_millis(5);

/// A program that never stops writing is held back here, and fills no memory.
const MOST_PIECES_UNREAD: usize = 64;

/// Requests are written in blocks of about this many bytes.
const BLOCK: usize = 65536;

pub struct Program {
    child: Child,
    requests: Option<Sender<Vec<u8>>>,
    block: Vec<u8>,
    answers: Receiver<Vec<u8>>,
    unread: VecDeque<u8>,
}

impl Program {
    pub fn start(path: &str) -> Result<Program, String> {
        let (requests, to_write) = channel();
        let write = |input| write_all(input, to_write);
        let mut program = Program::start_by(&mut Command::new(path), write)?;
        program.requests = Some(requests);
        Ok(program)
    }

    /// Starts a program that is given no input.
    pub fn start_without_input(command: &mut Command) -> Result<Program, String> {
        Program::start_by(command, drop)
    }

    /// Starts the program with one thread that writes to it and one that reads from it.
    fn start_by(
        command: &mut Command,
        write: impl FnOnce(ChildStdin) + Send + 'static,
    ) -> Result<Program, String> {
        let mut child = command
            .stdin(Stdio::piped())
            .stdout(Stdio::piped())
            .spawn()
            .map_err(|error| {
                let program = command.get_program().display();
                format!("{program} does not start: {error}")
            })?;
        let input = child.stdin.take().expect("the input is a pipe");
        let output = child.stdout.take().expect("the output is a pipe");
        let (read, answers) = sync_channel(MOST_PIECES_UNREAD);
        thread::spawn(move || write(input));
        thread::spawn(move || read_all(output, read));
        Ok(Program {
            child,
            requests: None,
            block: Vec::new(),
            answers,
            unread: VecDeque::new(),
        })
    }

    /// The number of the program's process.
    pub fn process(&self) -> u32 {
        self.child.id()
    }

    /// Hands bytes to the writing thread, a block at a time; a dead program shows when its
    /// answers are read.
    pub fn send(&mut self, bytes: Vec<u8>) {
        self.block.extend(bytes);
        if self.block.len() >= BLOCK {
            self.send_block();
        }
    }

    fn send_block(&mut self) {
        let block = std::mem::take(&mut self.block);
        if let Some(requests) = &self.requests {
            let _ = requests.send(block);
        }
    }

    /// Ends the input; from now on `receive` waits.
    pub fn end_input(&mut self) {
        self.send_block();
        self.requests = None;
    }

    /// The next bytes of the output, exactly as many as asked for. None while the input is
    /// open and they have not come: the program may hold its answers back until the end.
    pub fn receive(&mut self, length: usize) -> Result<Option<Vec<u8>>, String> {
        while self.unread.len() < length {
            match self.next_piece() {
                Ok(bytes) => self.unread.extend(bytes),
                Err(RecvTimeoutError::Timeout) if self.requests.is_some() => return Ok(None),
                Err(RecvTimeoutError::Timeout) => return Err(silence()),
                Err(RecvTimeoutError::Disconnected) => {
                    return Err("the program ended before it had answered".to_string())
                }
            }
        }
        Ok(Some(self.unread.drain(..length).collect()))
    }

    /// After the last answer the program must end by itself, well and with nothing left to say.
    pub fn finish(&mut self) -> Result<(), String> {
        self.end_input();
        while self.unread.is_empty() {
            match self.next_piece() {
                Ok(bytes) => self.unread.extend(bytes),
                Err(RecvTimeoutError::Timeout) => return Err(silence()),
                Err(RecvTimeoutError::Disconnected) => return self.wait(),
            }
        }
        Err("the output goes on after the last answer".to_string())
    }

    /// All that the program writes which is given these pieces and nothing more, each when it has
    /// read the last.
    pub fn output_of(path: &str, pieces: Vec<Vec<u8>>, most: usize) -> Result<Vec<u8>, String> {
        // A program that does not read all shows by what it writes.
        let write = |input| drained::write(input, pieces).unwrap_or_default();
        Program::start_by(&mut Command::new(path), write)?.whole_output(most)
    }

    /// The output to its end, after which the program ends well. More than the most that is of
    /// interest is not waited for.
    pub fn whole_output(&mut self, most: usize) -> Result<Vec<u8>, String> {
        let mut output = Vec::new();
        while output.len() <= most {
            match self.next_piece() {
                Ok(bytes) => output.extend(bytes),
                Err(RecvTimeoutError::Timeout) => return Err(silence()),
                Err(RecvTimeoutError::Disconnected) => {
                    self.wait()?;
                    break;
                }
            }
        }
        Ok(output)
    }

    fn next_piece(&self) -> Result<Vec<u8>, RecvTimeoutError> {
        match self.requests {
            Some(_) => self.answers.recv_timeout(Duration::ZERO),
            None => self.answers.recv_timeout(PATIENCE),
        }
    }

    fn wait(&mut self) -> Result<(), String> {
        let begun = Instant::now();
        let mut nap = SHORTEST_NAP;
        while begun.elapsed() < PATIENCE {
            match self.child.try_wait() {
                Ok(Some(status)) if status.success() => return Ok(()),
                Ok(Some(status)) => return Err(format!("the program ended with {status}")),
                Ok(None) => {
                    thread::sleep(nap);
                    nap = LONGEST_NAP.min(2 * nap);
                }
                Err(error) => return Err(error.to_string()),
            }
        }
        Err(silence())
    }
}

impl Drop for Program {
    fn drop(&mut self) {
        let _ = self.child.kill();
        let _ = self.child.wait();
    }
}

fn silence() -> String {
    format!("the program was silent for {} seconds", PATIENCE.as_secs())
}

/// Ends, and with it the program's input, when no more requests come.
fn write_all(mut input: ChildStdin, requests: Receiver<Vec<u8>>) {
    for bytes in requests {
        if input.write_all(&bytes).is_err() {
            return;
        }
    }
}

fn read_all(mut output: ChildStdout, answers: SyncSender<Vec<u8>>) {
    let mut piece = vec![0; 65536];
    while let Ok(length) = output.read(&mut piece) {
        if length == 0 || answers.send(piece[..length].to_vec()).is_err() {
            return;
        }
    }
}
