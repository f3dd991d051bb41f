//! The program: `tracetext encode [FILE]`, `tracetext decode [FILE]` and `tracetext --help`.

use std::env;
use std::ffi::{OsStr, OsString};
use std::fs;
use std::io::{self, Read, Write};
use std::process::ExitCode;
use tracetext::{decode::decode, encode::Error, encode::encode, words::is_text, words::plain};

const USAGE: &str = include_str!("usage.txt");
/// The most errors of a text that are shown.
const SHOWN_ERRORS: usize = 10;

fn main() -> ExitCode {
    let arguments: Vec<OsString> = env::args_os().skip(1).collect();
    let (direction, file) = match arguments.as_slice() {
        [help, ..] | [_, help, ..] if help == "--help" => return finish(write(USAGE.as_bytes())),
        [direction] => (direction, None),
        [direction, file] => (
            direction,
            Some(file.as_os_str()).filter(|&file| file != "-"),
        ),
        _ => return usage(),
    };
    let result = match direction.to_str() {
        Some("encode") => read(file).and_then(|text| {
            encode(&text).map_err(|errors| messages(&shown(file), &text, &errors))
        }),
        Some("decode") => read(file).map(|bytes| decode(&bytes).into_bytes()),
        _ => return usage(),
    };
    finish(result.and_then(|bytes| write(&bytes)))
}

/// What is said about a text with errors: the first of them, how many more there are, and whether it is a trace.
fn messages(name: &str, text: &[u8], errors: &[Error]) -> Vec<String> {
    let first = errors.iter().take(SHOWN_ERRORS);
    let mut messages: Vec<String> = first.map(|error| format!("{name}: {error}")).collect();
    match errors.len() - messages.len() {
        0 => {}
        1 => messages.push(format!("{name}: 1 more error")),
        more => messages.push(format!("{name}: {more} more errors")),
    }
    if !is_text(text) {
        messages.push(format!(
            "{name}: it looks like a trace, of which tracetext decode makes a text"
        ));
    }
    messages
}

/// Reports the errors, if there are any, and gives the exit status.
fn finish(result: Result<(), Vec<String>>) -> ExitCode {
    match result {
        Ok(()) => ExitCode::SUCCESS,
        Err(messages) => {
            let lines = messages.iter().map(|m| format!("tracetext: {m}\n"));
            complain(&lines.collect::<String>());
            ExitCode::from(1)
        }
    }
}

fn usage() -> ExitCode {
    complain(USAGE);
    ExitCode::from(2)
}

/// All bytes of the file, or of standard input.
fn read(file: Option<&OsStr>) -> Result<Vec<u8>, Vec<String>> {
    let result = match file {
        Some(file) => fs::read(file),
        None => {
            let mut bytes = Vec::new();
            io::stdin().read_to_end(&mut bytes).map(|_| bytes)
        }
    };
    result.map_err(|error| vec![format!("{}: cannot be read: {error}", shown(file))])
}

/// The name of the file, or of standard input, for a message.
fn shown(file: Option<&OsStr>) -> String {
    match file {
        Some(file) => plain(&file.to_string_lossy()),
        None => "standard input".to_string(),
    }
}

/// Writes all bytes to standard output.
fn write(bytes: &[u8]) -> Result<(), Vec<String>> {
    let mut out = io::stdout().lock();
    out.write_all(bytes)
        .and_then(|()| out.flush())
        .map_err(|error| vec![format!("cannot write standard output: {error}")])
}

/// Writes to standard error. Where that fails there is nobody left to tell.
fn complain(text: &str) {
    let _ = io::stderr().write_all(text.as_bytes());
}
