//! The trace program: document 01's worked example, and the shapes that are refused.

use reference::trace::text_of;

/// The bytes of records given as numbers.
fn trace(records: &[u64]) -> Vec<u8> {
    records
        .iter()
        .flat_map(|record| record.to_be_bytes())
        .collect()
}

fn text(trace: &[u8]) -> String {
    String::from_utf8(text_of(trace)).expect("the text is plain")
}

const EXAMPLE: [u64; 10] = [
    0x1000000580000001,
    0x1000020080000001,
    0x10000401D0000123,
    0x2000000000000005,
    0x7000000000000001,
    0x0A00000000002ABC,
    0x0C00000000002ABC,
    0x0900000000004000,
    0x1000040100000000,
    0xF000000000000000,
];

const EXAMPLE_TEXT: &str = "\
0 done 00000000 0
1 done 00000000 0
2 done 00000000 0
3 done 00000000 0
4 done 00000000 0
5 at 00246ABC 1
6 at 00246ABC 0
7 fault 00000310 0
8 done 00000001 0
9 refused 00000008 0
";

#[test]
fn the_worked_example_byte_for_byte() {
    assert_eq!(text(&trace(&EXAMPLE)), EXAMPLE_TEXT);
}

#[test]
fn the_examples_print_their_lines() {
    let examples = [
        (
            &include_bytes!("../../../examples/worked.trace")[..],
            include_str!("../../../examples/worked.lines"),
        ),
        (
            include_bytes!("../../../examples/aged.trace"),
            include_str!("../../../examples/aged.lines"),
        ),
        (
            include_bytes!("../../../examples/stops.trace"),
            include_str!("../../../examples/stops.lines"),
        ),
    ];
    for (trace, lines) in examples {
        assert_eq!(text(trace), lines);
    }
}

#[test]
fn empty_input_prints_nothing() {
    assert_eq!(text(&[]), "");
}

#[test]
fn a_last_piece_is_one_refused_record() {
    for length in 1..8 {
        let piece = vec![0; length];
        assert_eq!(text(&piece), "0 refused 00000008 0\n", "{length}");
        let after_one = [trace(&EXAMPLE), piece].concat();
        let expected = format!("{EXAMPLE_TEXT}10 refused 00000008 0\n");
        assert_eq!(text(&after_one), expected, "{length}");
    }
}

#[test]
fn each_malformed_shape_is_refused_and_nothing_stops() {
    let mut malformed = Vec::new();
    malformed.extend((8..16).map(|kind: u64| kind << 60));
    malformed.extend([0, 2, 3, 4, 5, 6, 7].map(|kind: u64| kind << 60 | 1 << 32));
    malformed.extend([0, 2, 3, 4, 5, 6, 7].map(|kind: u64| kind << 60 | 1 << 55));
    for modes in [1, 2, 4, 8] {
        malformed.extend((1..8).map(|kind: u64| kind << 60 | modes << 56));
    }
    for record in malformed {
        let text = text(&trace(&[record, 0x0000000012345678]));
        let expected = "0 refused 00000008 0\n1 at 12345678 0\n";
        assert_eq!(text, expected, "{record:016X}");
    }
}

#[test]
fn the_other_refusals_that_a_trace_can_show() {
    let records = [
        (0x1000_3FFF_0000_0000, "done 00000000"),
        (0x1000_4000_0000_0000, "refused 00000006"),
        (0x10FF_FFFF_0000_0000, "refused 00000006"),
        (0x1080_0000_0000_0000, "refused 00000006"),
        (0x1100_0000_0000_0000, "refused 00000008"),
        (0x2000_0000_0000_003E, "done 00000000"),
        (0x2000_0000_0000_003F, "refused 00000005"),
        (0x2000_0000_FFFF_FFFF, "refused 00000005"),
        (0x3000_0000_0000_0008, "refused 00000007"),
        (0x4000_0000_0001_0000, "refused 00000007"),
        (0x5000_0000_FFFF_FFFF, "done 00000000"),
        (0x6000_0000_FFFF_FFFF, "done 00000000"),
        (0x7000_0000_0000_0002, "refused 00000007"),
    ];
    for (record, expected) in records {
        assert_eq!(
            text(&trace(&[record])),
            format!("0 {expected} 0\n"),
            "{record:016X}"
        );
    }
}

/// An input that gives its bytes in pieces of another length than a record's.
struct InPieces<'a>(&'a [u8], usize);

impl std::io::Read for InPieces<'_> {
    fn read(&mut self, buffer: &mut [u8]) -> std::io::Result<usize> {
        let length = self.0.len().min(self.1).min(buffer.len());
        buffer[..length].copy_from_slice(&self.0[..length]);
        self.0 = &self.0[length..];
        Ok(length)
    }
}

#[test]
fn the_pieces_in_which_the_input_comes_do_not_matter() {
    let trace = [trace(&EXAMPLE), vec![1, 2, 3]].concat();
    for piece in 1..20 {
        let mut text = Vec::new();
        reference::trace::run(InPieces(&trace, piece), &mut text).unwrap();
        assert_eq!(text, text_of(&trace), "{piece}");
    }
}
