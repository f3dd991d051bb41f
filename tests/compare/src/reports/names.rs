//! Names of all kinds, of files and of what is none.

use super::case::{Case, CountBy};
use super::comparison::Comparison;
use super::outcome::{named, unread};
use super::script;
use crate::random::Random;
use std::ffi::{OsStr, OsString};
use std::os::unix::ffi::OsStrExt;

const RECORDS: usize = 40;

/// A directory.
pub const FOLDER: &str = "folder";

/// The longest name that can be opened, and the longest of a file in its folder.
const LONGEST: usize = 4095;
const LONGEST_IN_FOLDER: usize = 255;

/// How each file is named.
pub const NAMED: [&str; 7] = [
    "from the root",
    "one letter",
    "255 bytes in its folder",
    "4,095 bytes",
    "like an option",
    "with a space and a newline",
    "through a symbolic link",
];

/// Why each name is unread.
pub const UNREAD: [&str; 10] = [
    "no such file",
    "a directory",
    "an empty name",
    "4,096 bytes that lead to a file",
    "4,096 bytes, 4,095 of which lead to a file",
    "10,000 bytes, 4,095 of which lead to a file",
    "256 bytes in its folder",
    "a file as a folder",
    "a symbolic link to itself",
    "a name that is not UTF-8",
];

/// Each alone, then all of them in one call, files and others in turn.
pub fn put(comparison: &mut Comparison, random: &mut Random) -> Result<(), String> {
    let folder = comparison.folder();
    let trace = script::trace(random, RECORDS, 0);
    for name in files() {
        folder.write(&name, &trace)?;
    }
    folder.make(FOLDER)?;
    folder.link("link", "f")?;
    folder.link("loop", "loop")?;
    let from_the_root = folder.path().join("f").into_os_string();
    let readable = move || readable(from_the_root.clone(), &trace);
    for case in readable().into_iter().chain(unreadable()) {
        comparison.put(vec![case])?;
    }
    let others = [(); 3].map(|()| Case::of(script::trace(random, RECORDS, 0), CountBy::Walks));
    let files = readable().into_iter().chain(others);
    let in_turn = unreadable().into_iter().zip(files);
    comparison.put(in_turn.flat_map(|(other, file)| [other, file]).collect())
}

fn readable(from_the_root: OsString, trace: &[u8]) -> Vec<Case> {
    let [long, option, odd, _] = other_files();
    let names = [
        from_the_root,
        "f".into(),
        long,
        filled_up("f", LONGEST),
        option,
        odd,
        "link".into(),
    ];
    names
        .into_iter()
        .zip(NAMED)
        .map(|(name, how)| Case::named(name, trace.to_vec()).remark(named(how)))
        .collect()
}

fn unreadable() -> Vec<Case> {
    let [.., not_text] = other_files();
    let names = [
        "none".into(),
        FOLDER.into(),
        OsString::new(),
        filled_up("f", LONGEST + 1),
        behind_a_file(LONGEST + 1),
        behind_a_file(10_000),
        "n".repeat(LONGEST_IN_FOLDER + 1).into(),
        "f/f".into(),
        "loop".into(),
        not_text,
    ];
    names
        .into_iter()
        .zip(UNREAD)
        .map(|(name, why)| Case::unread(name).remark(unread(why)))
        .collect()
}

fn files() -> Vec<OsString> {
    let mut files = vec!["f".into()];
    files.extend(other_files());
    files
}

fn other_files() -> [OsString; 4] {
    [
        "n".repeat(LONGEST_IN_FOLDER).into(),
        "--help".into(),
        "a b\nc".into(),
        OsStr::from_bytes(b"\xFF\x80").to_os_string(),
    ]
}

/// The file's name of one letter behind so many bytes that lead from the folder to the folder.
fn filled_up(letter: &str, length: usize) -> OsString {
    let begin = match length % 2 {
        0 => ".//",
        _ => "./",
    };
    let steps = "./".repeat((length - begin.len() - letter.len()) / 2);
    let name = [begin, &steps, letter].concat();
    assert_eq!(name.len(), length);
    name.into()
}

/// A name of so many bytes, the first 4,095 of which are a file's.
fn behind_a_file(length: usize) -> OsString {
    let mut name = filled_up("f", LONGEST);
    name.push("f".repeat(length - LONGEST));
    name
}
