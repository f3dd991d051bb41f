//! The program as a user meets it: files, standard input and output, messages and exit status.

use std::fs;
use std::io::Write;
use std::path::PathBuf;
use std::process::{Command, Stdio};

/// What a run gave: exit status, standard output, standard error.
type Run = (i32, Vec<u8>, String);

fn run(arguments: &[&str], input: &[u8]) -> Run {
    let mut child = Command::new(env!("CARGO_BIN_EXE_tracetext"))
        .args(arguments)
        .stdin(Stdio::piped())
        .stdout(Stdio::piped())
        .stderr(Stdio::piped())
        .spawn()
        .unwrap();
    // A program that does not read its input may be gone by now.
    let _ = child.stdin.take().unwrap().write_all(input);
    let output = child.wait_with_output().unwrap();
    let errors = String::from_utf8(output.stderr).unwrap();
    (output.status.code().unwrap(), output.stdout, errors)
}

/// A file of this test's own folder with these bytes.
fn file(name: &str, bytes: &[u8]) -> PathBuf {
    let path = PathBuf::from(env!("CARGO_TARGET_TMPDIR")).join(name);
    fs::write(&path, bytes).unwrap();
    path
}

const BYTES: [u8; 8] = [0x10, 0, 0, 5, 0x80, 0, 0, 1];

#[test]
fn standard_input_and_output() {
    let good = |out: &[u8]| (0, out.to_vec(), String::new());
    assert_eq!(run(&["encode"], b"store 5 80000001\n"), good(&BYTES));
    assert_eq!(run(&["decode"], &BYTES), good(b"store 5 80000001\n"));
    assert_eq!(run(&["encode"], b""), good(b""));
    assert_eq!(run(&["decode"], b""), good(b""));
    assert_eq!(run(&["encode", "-"], b"store 5 80000001\n"), good(&BYTES));
    assert_eq!(run(&["decode", "-"], &BYTES), good(b"store 5 80000001\n"));
}

#[test]
fn files() {
    let text = file("files.text", b"store 5 80000001 # a root\n");
    let trace = file("files.trace", &BYTES);
    let (status, out, errors) = run(&["encode", text.to_str().unwrap()], b"ctrl 1\n");
    assert_eq!((status, out, errors.as_str()), (0, BYTES.to_vec(), ""));
    let (status, out, errors) = run(&["decode", trace.to_str().unwrap()], b"");
    assert_eq!((status, errors.as_str()), (0, ""));
    assert_eq!(out, b"store 5 80000001\n");
}

#[test]
fn errors_of_the_text_leave_the_output_empty() {
    let text = b"enable 1\n\nstore 5\nread user 0 draw 4\ncontext 8G\n";
    let errors = |name: &str| {
        format!(
            "tracetext: {name}: line 3: store takes an index and a value\n\
             tracetext: {name}: line 4: draw 4 is above 3\n\
             tracetext: {name}: line 5: 8G is no hexadecimal number\n"
        )
    };
    assert_eq!(
        run(&["encode"], text),
        (1, vec![], errors("standard input"))
    );
    let path = file("errors.text", text);
    let name = path.to_str().unwrap();
    assert_eq!(run(&["encode", name], b""), (1, vec![], errors(name)));
}

#[test]
fn many_errors_are_counted() {
    let text = "store\n";
    let all = |lines: std::ops::RangeInclusive<usize>| -> String {
        let sentence = "store takes an index and a value";
        let line = |i| format!("tracetext: standard input: line {i}: {sentence}\n");
        lines.map(line).collect()
    };
    for (count, last) in [(10, ""), (11, "1 more error"), (12, "2 more errors")] {
        let (status, out, errors) = run(&["encode"], text.repeat(count).as_bytes());
        assert_eq!((status, out), (1, vec![]));
        let mut expected = all(1..=10);
        if !last.is_empty() {
            expected += &format!("tracetext: standard input: {last}\n");
        }
        assert_eq!(errors, expected);
    }
}

#[test]
fn a_trace_is_for_decode() {
    let hint = "tracetext: standard input: it looks like a trace, of which tracetext decode makes a text\n";
    let (status, out, errors) = run(&["encode"], &BYTES.repeat(1000));
    assert_eq!((status, out), (1, vec![]));
    assert!(errors.ends_with(hint), "{errors}");
    assert_eq!(errors.matches(hint).count(), 1);
    let (_, _, errors) = run(&["encode"], b"draw 1\n");
    assert!(!errors.contains(hint), "{errors}");
    // A comment may have any byte.
    assert_eq!(run(&["encode"], b"# \0\n"), (0, vec![], String::new()));
}

#[test]
fn a_name_disturbs_no_terminal() {
    let path = file("odd\n\u{1b}\u{e9}.text", b"store\n");
    let (status, _, errors) = run(&["encode", path.to_str().unwrap()], b"");
    assert_eq!(status, 1);
    assert!(errors.contains("odd??\u{e9}.text: line 1: "), "{errors}");
}

#[test]
fn a_byte_order_mark_is_dropped() {
    let text = b"\xEF\xBB\xBFstore 5 80000001\n";
    assert_eq!(run(&["encode"], text), (0, BYTES.to_vec(), String::new()));
}

#[test]
fn one_bad_tail_is_one_error() {
    let (status, out, errors) = run(&["encode"], b"tail 0\nenable 1\nctrl 7\n");
    assert_eq!((status, out), (1, vec![]));
    assert_eq!(errors.lines().count(), 1, "{errors}");
}

const USAGE: &str = "usage: tracetext encode [FILE]";

#[test]
fn help() {
    for call in [
        &["--help"] as &[&str],
        &["--help", "a", "b"],
        &["encode", "--help"],
        &["decode", "--help"],
    ] {
        let (status, out, errors) = run(call, b"");
        assert_eq!((status, errors.as_str()), (0, ""));
        assert!(out.starts_with(USAGE.as_bytes()));
    }
}

#[test]
fn usage() {
    let calls: [&[&str]; 6] = [
        &[],
        &["-h"],
        &["Encode"],
        &["encode", "a", "b"],
        &["decode", "a", "b"],
        &["recode", "a"],
    ];
    for call in calls {
        let (status, out, errors) = run(call, b"");
        assert_eq!((status, out), (2, vec![]), "{call:?}");
        assert!(errors.starts_with(USAGE), "{errors}");
    }
}

#[test]
fn a_failed_read_is_reported() {
    let (status, out, errors) = run(&["encode", "no/such/file"], b"enable 1\n");
    assert_eq!((status, out), (1, vec![]));
    assert!(
        errors.starts_with("tracetext: no/such/file: cannot be read: "),
        "{errors}"
    );
    let (status, out, errors) = run(&["decode", "/"], b"");
    assert_eq!((status, out), (1, vec![]));
    assert!(
        errors.starts_with("tracetext: /: cannot be read: "),
        "{errors}"
    );
    // Standard input that is a folder cannot be read.
    let output = Command::new(env!("CARGO_BIN_EXE_tracetext"))
        .arg("encode")
        .stdin(fs::File::open("/").unwrap())
        .output()
        .unwrap();
    let errors = String::from_utf8(output.stderr).unwrap();
    assert_eq!(output.status.code(), Some(1));
    assert!(
        errors.starts_with("tracetext: standard input: cannot be read: "),
        "{errors}"
    );
}

#[test]
fn a_failed_write_is_reported() {
    let trace = file("full.trace", &BYTES);
    for direction in ["encode", "decode"] {
        let input = if direction == "encode" {
            file("full.text", b"enable 1")
        } else {
            trace.clone()
        };
        let output = Command::new(env!("CARGO_BIN_EXE_tracetext"))
            .arg(direction)
            .arg(input)
            .stdout(
                fs::OpenOptions::new()
                    .write(true)
                    .open("/dev/full")
                    .unwrap(),
            )
            .stderr(Stdio::piped())
            .output()
            .unwrap();
        let errors = String::from_utf8(output.stderr).unwrap();
        assert_eq!(output.status.code(), Some(1), "{direction}");
        assert!(
            errors.starts_with("tracetext: cannot write standard output: "),
            "{errors}"
        );
    }
}
