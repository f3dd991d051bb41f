//! A program run once, from its start to its end.

use crate::clock;
use std::fs::File;
use std::io::{Read, Write};
use std::path::Path;
use std::process::{Child, Command, Stdio};
use std::time::Duration;

/// What the program writes, and its processor time; the input must fit into a pipe.
pub fn run_on_bytes(program: &Path, input: &[u8]) -> Result<(Vec<u8>, Duration), String> {
    let before = clock::of_ended_children();
    let mut child = start(program, None, Stdio::piped(), Stdio::piped())?;
    let mut pipe = child.stdin.take().expect("the input is a pipe");
    pipe.write_all(input)
        .map_err(|error| told(program, error))?;
    drop(pipe);
    let output = output_of(program, child)?;
    Ok((output, clock::of_ended_children() - before))
}

/// How a program is told of the file that it reads.
#[derive(Clone, Copy)]
pub enum Told {
    /// The file is its standard input.
    Input,
    /// The file's name is its argument.
    Argument,
}

/// What the program writes that reads the file.
pub fn run_on_file(program: &Path, file: &Path, by: Told) -> Result<Vec<u8>, String> {
    output_of(program, start_on_file(program, file, by, Stdio::piped())?)
}

/// The processor time of the program that reads the file and writes to nobody.
pub fn time_on_file(program: &Path, file: &Path, by: Told) -> Result<Duration, String> {
    let before = clock::of_ended_children();
    let child = start_on_file(program, file, by, Stdio::null())?;
    ends_well(program, child)?;
    Ok(clock::of_ended_children() - before)
}

fn start_on_file(program: &Path, file: &Path, by: Told, output: Stdio) -> Result<Child, String> {
    match by {
        Told::Input => {
            let input = File::open(file).map_err(|error| told(file, error))?;
            start(program, None, input.into(), output)
        }
        Told::Argument => start(program, Some(file), Stdio::null(), output),
    }
}

fn start(
    program: &Path,
    argument: Option<&Path>,
    input: Stdio,
    output: Stdio,
) -> Result<Child, String> {
    let mut command = Command::new(program);
    command.args(argument).stdin(input).stdout(output);
    command.spawn().map_err(|error| told(program, error))
}

fn output_of(program: &Path, mut child: Child) -> Result<Vec<u8>, String> {
    let mut output = Vec::new();
    let mut pipe = child.stdout.take().expect("the output is a pipe");
    pipe.read_to_end(&mut output)
        .map_err(|error| told(program, error))?;
    ends_well(program, child)?;
    Ok(output)
}

fn ends_well(program: &Path, mut child: Child) -> Result<(), String> {
    let status = child.wait().map_err(|error| told(program, error))?;
    match status.success() {
        true => Ok(()),
        false => Err(told(program, status)),
    }
}

fn told(path: &Path, what: impl std::fmt::Display) -> String {
    format!("{}: {what}", path.display())
}
