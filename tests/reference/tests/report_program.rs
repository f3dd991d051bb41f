//! The report's text on small traces, whose lines are worked out by hand.

use reference::report::{self, ByCounts, ByWalks, LeafWords, Report};
use std::ffi::OsStr;
use std::io::{self, Read};
use std::path::PathBuf;

const USER: u64 = 8 << 56;
const WRITE: u64 = 4 << 56;

fn access(address: u32) -> u64 {
    u64::from(address)
}

fn store(index: u64, word: u32) -> u64 {
    1 << 60 | index << 32 | u64::from(word)
}

fn context(value: u32) -> u64 {
    2 << 60 | u64::from(value)
}

fn ctrl(value: u32) -> u64 {
    3 << 60 | u64::from(value)
}

fn enable(value: u32) -> u64 {
    7 << 60 | u64::from(value)
}

fn bytes(records: &[u64]) -> Vec<u8> {
    records.iter().flat_map(|r| r.to_be_bytes()).collect()
}

fn text_by<L: LeafWords>(number: usize, trace: &[u8]) -> String {
    let mut text = Vec::new();
    let report = Report::of::<L>(trace);
    report.write(number, &mut text).unwrap();
    String::from_utf8(text).unwrap()
}

/// The text on which both counts agree.
fn text(number: usize, trace: &[u8]) -> String {
    let text = text_by::<ByCounts>(number, trace);
    assert_eq!(text, text_by::<ByWalks>(number, trace));
    text
}

/// The 63 lines of a file of which all is zero but these totals, given by identification.
fn lines(number: usize, totals: &[(usize, &str)]) -> String {
    let zeros = "0 0 0 0 0 0 0 0 0 0 0 0 0 0";
    (0..63)
        .map(|id| {
            let told = totals.iter().find(|(told, _)| *told == id);
            format!("{number} {id} {}\n", told.map_or(zeros, |(_, told)| told))
        })
        .collect()
}

/// Document 01's worked example.
const WORKED: &[u8] = include_bytes!("../../../examples/worked.trace");

#[test]
fn the_worked_example() {
    // Under 0 the leaf comes; under 5 three accesses, one load, one fault 16, and the leaf goes.
    let expected = lines(
        3,
        &[
            (0, "0 0 0 0 0 0 0 0 0 0 0 0 0 1"),
            (5, "3 1 0 0 0 0 0 0 0 0 1 0 1 -1"),
        ],
    );
    assert_eq!(text(3, WORKED), expected);
}

#[test]
fn the_example_s_lines() {
    let report = include_bytes!("../../../examples/report.trace");
    let expected = include_str!("../../../examples/report.lines");
    assert_eq!([text(0, WORKED), text(1, report)].concat(), expected);
}

#[test]
fn empty_files_and_last_pieces_give_zeros() {
    for length in 0..8 {
        assert_eq!(text(0, &vec![0; length]), lines(0, &[]), "{length}");
    }
}

#[test]
fn a_last_piece_is_no_access() {
    let trace = [bytes(&[access(0)]), vec![0; 7]].concat();
    assert_eq!(
        text(12, &trace),
        lines(12, &[(0, "1 0 0 0 0 0 0 0 0 0 0 0 0 0")])
    );
}

#[test]
fn refused_records_book_nothing() {
    let trace = bytes(&[
        context(62),
        context(63),
        access(0) | 1 << 32,
        store(5, 0x8000_0001) | 1 << 56,
        store(16384, 0x8000_0001),
        ctrl(8),
        15 << 60,
        access(0),
    ]);
    assert_eq!(
        text(0, &trace),
        lines(0, &[(62, "1 0 0 0 0 0 0 0 0 0 0 0 0 0")])
    );
}

/// Root 7 and directory 1 name a table 1 whose pages 0 to 7 are valid or not, kernel or not and
/// writable or not, bit by bit; page 1024 has a broken directory word and page 8 no leaf.
fn eight_pages() -> Vec<u64> {
    let mut records = vec![
        store(7, 0x8000_0001),
        store(512, 0x8000_0001),
        store(513, 0x8000_0000),
    ];
    records.extend((0..8).map(|page| {
        let (valid, kernel, we) = (page >> 2 & 1, page >> 1 & 1, page & 1);
        store(
            1024 + u64::from(page),
            1 << 31 | valid << 30 | kernel << 29 | we << 28,
        )
    }));
    records.extend([context(7), enable(1)]);
    records
}

/// A user's write to each of the eight pages, to page 8 and to page 1024.
fn ten_writes() -> Vec<u64> {
    (0..9)
        .chain([1024])
        .map(|page| USER | WRITE | access(8192 * page))
        .collect()
}

#[test]
fn each_fault_value_has_its_column() {
    // All exceptions on: invalid is 4, kernel 2, no we 1. Page 7 gives an address.
    let trace = bytes(&[eight_pages(), vec![ctrl(7)], ten_writes()].concat());
    let under_7 = "10 8 1 1 1 1 1 1 1 0 1 1 0 0";
    let under_0 = "0 0 0 0 0 0 0 0 0 0 0 0 0 8";
    assert_eq!(text(0, &trace), lines(0, &[(0, under_0), (7, under_7)]));
}

#[test]
fn fault_8_loads_each_time() {
    // All exceptions off: the four pages with valid 0 fault with 8 and are loaded anew at each try.
    let trace = bytes(&[eight_pages(), ten_writes(), ten_writes()].concat());
    let under_7 = "20 12 0 0 0 0 0 0 0 8 2 2 0 0";
    let under_0 = "0 0 0 0 0 0 0 0 0 0 0 0 0 8";
    assert_eq!(text(0, &trace), lines(0, &[(0, under_0), (7, under_7)]));
}

#[test]
fn linear_and_disabled_accesses_are_served() {
    let kseg = 4 << 60 | 1;
    let trace = bytes(&[access(5), kseg, enable(1), context(1), access(5)]);
    let one = "1 0 0 0 0 0 0 0 0 0 0 0 0 0";
    assert_eq!(text(0, &trace), lines(0, &[(0, one), (1, one)]));
}

#[test]
fn a_store_is_booked_under_its_context_whoever_s_slots_and_leaves_they_are() {
    let mut records = eight_pages();
    // Two pages are loaded under 7; the root goes under 9 with both slots and eight leaves, and
    // comes back under 10.
    records.extend([USER | access(4 * 8192), USER | access(5 * 8192)]);
    records.extend([context(9), store(7, 0), context(10), store(7, 0x8000_0001)]);
    let expected = lines(
        0,
        &[
            (0, "0 0 0 0 0 0 0 0 0 0 0 0 0 8"),
            (7, "2 2 0 0 0 0 0 0 0 0 0 0 0 0"),
            (9, "0 0 0 0 0 0 0 0 0 0 0 0 2 -8"),
            (10, "0 0 0 0 0 0 0 0 0 0 0 0 0 8"),
        ],
    );
    assert_eq!(text(0, &bytes(&records)), expected);
}

#[test]
fn a_shared_leaf_counts_once_and_the_global_root_s_counts() {
    let mut records = eight_pages();
    // A second root and the global one name the directory too; then only the global one does.
    records.extend([8, 63].map(|root| store(root, 0x8000_0001)));
    records.extend([store(7, 0), store(8, 1), context(62), store(63, 0)]);
    let expected = lines(
        0,
        &[
            (0, "0 0 0 0 0 0 0 0 0 0 0 0 0 8"),
            (62, "0 0 0 0 0 0 0 0 0 0 0 0 0 -8"),
        ],
    );
    assert_eq!(text(0, &bytes(&records)), expected);
}

/// A root that comes under one identification and goes under another, again and again: directory
/// 1 names all fifteen tables, whose 15,360 words are present.
fn see_saw(cycles: usize) -> Vec<u64> {
    let mut records = Vec::new();
    records.extend((1..16).map(|table| store(512 + table, 0x8000_0000 | table as u32)));
    records.extend((1024..16384).map(|index| store(index, 0x8000_0000)));
    for _ in 0..cycles {
        records.extend([context(1), store(1, 0x8000_0001), context(2), store(1, 0)]);
    }
    records
}

/// So many cycles take the totals to 4,294,963,200 either way: 4,095 are left to the limit.
const CYCLES: usize = 279_620;

/// Keeps four of the fifteen tables, and of their 4,096 words all but so many.
fn four_tables_but(missing: u64) -> Vec<u64> {
    let tables = (5..16).map(|table| store(512 + table, 0));
    let words = (0..missing).map(|n| store(1024 + n, 0));
    tables.chain(words).collect()
}

#[test]
fn a_net_change_at_the_limit_is_printed() {
    let last = [context(1), store(1, 0x8000_0001), context(2), store(1, 0)];
    let records = [see_saw(CYCLES), four_tables_but(1), last.to_vec()].concat();
    let expected = lines(
        0,
        &[
            (1, "0 0 0 0 0 0 0 0 0 0 0 0 0 4294967295"),
            (2, "0 0 0 0 0 0 0 0 0 0 0 0 0 -4294967295"),
        ],
    );
    assert_eq!(text_by::<ByCounts>(0, &bytes(&records)), expected);
}

#[test]
fn a_net_change_past_the_limit_stops_the_file_for_good() {
    let up = [context(1), store(1, 0x8000_0001)];
    let back = [store(1, 0), context(2), access(0)];
    let records = [see_saw(CYCLES), four_tables_but(0), up.to_vec()].concat();
    for rest in [&[][..], &back] {
        let trace = bytes(&[&records[..], rest].concat());
        assert_eq!(text_by::<ByCounts>(4, &trace), "4 refused 9\n");
    }
}

#[test]
fn a_net_change_past_the_limit_below_zero_too() {
    // The last root comes under 3, so that only 2 passes the limit.
    let records = [see_saw(CYCLES), four_tables_but(0)].concat();
    let up = [context(3), store(1, 0x8000_0001), context(2)];
    let short = bytes(&[&records[..], &up].concat());
    assert_eq!(text_by::<ByCounts>(0, &short).lines().count(), 63);
    let whole = bytes(&[&records[..], &up, &[store(1, 0)]].concat());
    assert_eq!(text_by::<ByCounts>(0, &whole), "0 refused 9\n");
}

/// An input that fails behind its bytes.
struct Failing<'a>(&'a [u8]);

impl Read for Failing<'_> {
    fn read(&mut self, buffer: &mut [u8]) -> io::Result<usize> {
        match self.0.read(buffer) {
            Ok(0) => Err(io::Error::other("the disk is gone")),
            read => read,
        }
    }
}

#[test]
fn a_read_that_fails_leaves_the_file_unread() {
    for trace in [&[][..], WORKED] {
        let report = Report::of::<ByCounts>(Failing(trace));
        assert_eq!(report, Report::Unread);
    }
}

/// A folder of its own, gone with the test.
struct Folder(PathBuf);

impl Folder {
    fn new(name: &str) -> Folder {
        let path = std::env::temp_dir().join(format!("report-{name}-{}", std::process::id()));
        std::fs::create_dir(&path).unwrap();
        Folder(path)
    }

    fn file(&self, name: &str, trace: &[u8]) -> PathBuf {
        let path = self.0.join(name);
        std::fs::write(&path, trace).unwrap();
        path
    }
}

impl Drop for Folder {
    fn drop(&mut self) {
        let _ = std::fs::remove_dir_all(&self.0);
    }
}

#[test]
fn numbers_go_by_argument_and_each_file_starts_anew() {
    let folder = Folder::new("names");
    let worked = folder.file("worked", WORKED);
    let empty = folder.file("empty", &[]);
    let names = [
        worked.as_os_str(),
        OsStr::new(""),
        folder.0.as_os_str(),
        empty.as_os_str(),
        worked.as_os_str(),
        OsStr::new("no such file"),
    ];
    let mut output = Vec::new();
    report::run(names, &mut output).unwrap();
    let expected = [
        text(0, WORKED),
        "1 unread\n2 unread\n".to_string(),
        lines(3, &[]),
        text(4, WORKED),
        "5 unread\n".to_string(),
    ];
    assert_eq!(String::from_utf8(output).unwrap(), expected.concat());
}

#[test]
fn no_argument_prints_nothing() {
    let mut output = Vec::new();
    report::run(Vec::<PathBuf>::new(), &mut output).unwrap();
    assert!(output.is_empty());
}
