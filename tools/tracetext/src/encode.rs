//! Text to records.

use crate::records::{LENGTH, MAX_DRAW, MAX_INDEX, Record, SETTINGS, Setting};
use crate::words::{bytes, digits, number, shown, split};
use std::fmt;

/// Something wrong with a line of the text; lines are counted from 1.
#[derive(Clone, Debug, PartialEq, Eq)]
pub struct Error {
    pub line: usize,
    pub message: String,
}

impl fmt::Display for Error {
    fn fmt(&self, out: &mut fmt::Formatter) -> fmt::Result {
        write!(out, "line {}: {}", self.line, self.message)
    }
}

/// The byte-order mark, which some editors put before a text. It says nothing about the records.
const BYTE_ORDER_MARK: &[u8] = b"\xEF\xBB\xBF";

/// The records of a text, or all of its errors in the order of its lines.
pub fn encode(text: &[u8]) -> Result<Vec<u8>, Vec<Error>> {
    let text = text.strip_prefix(BYTE_ORDER_MARK).unwrap_or(text);
    let mut encoder = Encoder::default();
    for (i, line) in text.split(|&b| b == b'\n').enumerate() {
        encoder.line = i + 1;
        if let [command, arguments @ ..] = split(line).as_slice() {
            encoder.command(command, arguments);
        }
    }
    if encoder.errors.is_empty() {
        Ok(encoder.bytes)
    } else {
        Err(encoder.errors)
    }
}

/// What the lines so far gave. Once there is an error the bytes are of no use.
#[derive(Default)]
struct Encoder {
    line: usize,
    /// The line of the first good tail, and whether a later line was reported for it.
    tail: Option<usize>,
    followed: bool,
    bytes: Vec<u8>,
    errors: Vec<Error>,
}

impl Encoder {
    fn command(&mut self, command: &[u8], arguments: &[&[u8]]) {
        if let (Some(line), false) = (self.tail, self.followed) {
            self.followed = true;
            self.error(format!(
                "nothing but comments may follow the tail of line {line}"
            ));
        }
        match command {
            b"store" => self.store(arguments),
            b"read" => self.access("read", arguments),
            b"write" => self.access("write", arguments),
            b"record" => self.record(arguments),
            b"tail" => self.tail(arguments),
            _ => match Setting::named(command) {
                Some(setting) => self.setting(setting, arguments),
                None => self.unknown(command),
            },
        }
    }

    fn store(&mut self, arguments: &[&[u8]]) {
        let [index, value] = arguments else {
            return self.error("store takes an index and a value");
        };
        let index = self.number("index", index, MAX_INDEX);
        let value = self.number("value", value, u32::MAX);
        self.push(Record::Store { index, value });
    }

    fn access(&mut self, command: &str, arguments: &[&[u8]]) {
        let (mode, address, draw) = match arguments {
            [mode, address] => (mode, address, None),
            [mode, address, word, draw] => (mode, address, Some((word, draw))),
            _ => {
                return self.error(format!(
                    "{command} takes user or supervisor and an address, and may end with draw and a number"
                ));
            }
        };
        let user = *mode == b"user";
        if !user && *mode != b"supervisor" {
            self.error(format!(
                "{command} takes user or supervisor, not {}",
                shown(mode)
            ));
        }
        let address = self.number("address", address, u32::MAX);
        let draw = match draw {
            Some((word, draw)) => {
                if *word != b"draw" {
                    self.error(format!(
                        "only draw may follow the address, not {}",
                        shown(word)
                    ));
                }
                self.number("draw", draw, u32::from(MAX_DRAW)) as u8
            }
            None => 0,
        };
        self.push(Record::Access {
            write: command == "write",
            user,
            address,
            draw,
        });
    }

    fn setting(&mut self, setting: Setting, arguments: &[&[u8]]) {
        let [value] = arguments else {
            return self.error(format!("{} takes a value", setting.name));
        };
        let value = self.number("value", value, u32::MAX);
        self.push(Record::Setting { setting, value });
    }

    fn record(&mut self, arguments: &[&[u8]]) {
        let [word] = arguments else {
            return self.error("record takes 16 hexadecimal digits");
        };
        let Some(digits) = self.digits(word) else {
            return;
        };
        if digits.len() != 2 * LENGTH {
            return self.error(format!(
                "record takes 16 hexadecimal digits, not {}",
                digits.len()
            ));
        }
        self.bytes.extend(bytes(digits));
    }

    fn tail(&mut self, arguments: &[&[u8]]) {
        let [word] = arguments else {
            return self.error("tail takes 2 to 14 hexadecimal digits, an even number");
        };
        let Some(digits) = self.digits(word) else {
            return;
        };
        if digits.len() % 2 != 0 || digits.len() >= 2 * LENGTH {
            return self.error(format!(
                "tail takes 2 to 14 hexadecimal digits, an even number, not {}",
                digits.len()
            ));
        }
        self.tail.get_or_insert(self.line);
        self.bytes.extend(bytes(digits));
    }

    fn unknown(&mut self, command: &[u8]) {
        let settings = SETTINGS.map(|setting| setting.name).join(", ");
        self.error(format!(
            "unknown word {}: a line begins with store, read, write, {settings}, record or tail",
            shown(command)
        ));
    }

    /// The number that a word writes; an error, and 0, where it writes none or one above `max`.
    fn number(&mut self, name: &str, word: &[u8], max: u32) -> u32 {
        let Some(digits) = self.digits(word) else {
            return 0;
        };
        match number(digits) {
            Some(n) if n <= max => n,
            _ => {
                self.error(format!("{name} {} is above {max:X}", shown(word)));
                0
            }
        }
    }

    /// The hexadecimal digits of a word, or an error.
    fn digits<'a>(&mut self, word: &'a [u8]) -> Option<&'a [u8]> {
        let digits = digits(word);
        if digits.is_none() {
            self.error(format!("{} is no hexadecimal number", shown(word)));
        }
        digits
    }

    fn push(&mut self, record: Record) {
        self.bytes.extend(record.to_bytes());
    }

    fn error(&mut self, message: impl Into<String>) {
        self.errors.push(Error {
            line: self.line,
            message: message.into(),
        });
    }
}

#[cfg(test)]
mod tests {
    use super::*;

    fn words(text: &str) -> Vec<u64> {
        let bytes = encode(text.as_bytes()).expect(text);
        assert_eq!(bytes.len() % LENGTH, 0);
        bytes
            .chunks(LENGTH)
            .map(|record| u64::from_be_bytes(record.try_into().unwrap()))
            .collect()
    }

    /// The messages of a text, a line each.
    fn messages(text: &str) -> String {
        let errors = encode(text.as_bytes()).expect_err(text);
        errors.iter().map(|error| format!("{error}\n")).collect()
    }

    #[test]
    fn each_command_at_its_limits() {
        for (line, word) in [
            ("store 0 0", 0x1000_0000_0000_0000),
            ("store FFFFFF FFFFFFFF", 0x10FF_FFFF_FFFF_FFFF),
            ("read supervisor 0", 0),
            ("read supervisor 0 draw 0", 0),
            ("read user 0", 0x0800_0000_0000_0000),
            ("read user FFFFFFFF draw 3", 0x0B00_0000_FFFF_FFFF),
            ("write supervisor 0", 0x0400_0000_0000_0000),
            ("write user FFFFFFFF draw 3", 0x0F00_0000_FFFF_FFFF),
            ("context 0", 0x2000_0000_0000_0000),
            ("context FFFFFFFF", 0x2000_0000_FFFF_FFFF),
            ("ctrl 0", 0x3000_0000_0000_0000),
            ("ctrl FFFFFFFF", 0x3000_0000_FFFF_FFFF),
            ("kseg 0", 0x4000_0000_0000_0000),
            ("kseg FFFFFFFF", 0x4000_0000_FFFF_FFFF),
            ("kbase_lo 0", 0x5000_0000_0000_0000),
            ("kbase_lo FFFFFFFF", 0x5000_0000_FFFF_FFFF),
            ("kbase_hi 0", 0x6000_0000_0000_0000),
            ("kbase_hi FFFFFFFF", 0x6000_0000_FFFF_FFFF),
            ("enable 0", 0x7000_0000_0000_0000),
            ("enable FFFFFFFF", 0x7000_0000_FFFF_FFFF),
            ("record 0000000000000000", 0),
            ("record ffffffffffffffff", u64::MAX),
            ("record 0x0123456789aBcDeF", 0x0123_4567_89AB_CDEF),
        ] {
            assert_eq!(words(line), [word], "{line}");
        }
    }

    #[test]
    fn a_tail_has_one_to_seven_bytes() {
        for n in 1..8 {
            let text = format!("context 1\ntail {} # cut\n\n# end\n", "9a".repeat(n));
            let bytes = encode(text.as_bytes()).unwrap();
            assert_eq!(bytes[..8], [0x20, 0, 0, 0, 0, 0, 0, 1]);
            assert_eq!(bytes[8..], vec![0x9A; n]);
        }
    }

    #[test]
    fn lines_comments_and_line_ends() {
        let text = "# a trace\r\n\n \t\r\n\tcontext\t0x2a # id\r\nenable 1#on\nctrl 7";
        assert_eq!(
            words(text),
            [
                0x2000_0000_0000_002A,
                0x7000_0000_0000_0001,
                0x3000_0000_0000_0007
            ]
        );
        assert_eq!(encode(b""), Ok(vec![]));
        assert_eq!(encode(b"\n# only \xFF\n"), Ok(vec![]));
    }

    #[test]
    fn each_error_message() {
        const ACCESS: &str =
            "takes user or supervisor and an address, and may end with draw and a number";
        const RECORD: &str = "record takes 16 hexadecimal digits";
        const TAIL: &str = "tail takes 2 to 14 hexadecimal digits, an even number";
        for (line, message) in [
            ("store", "store takes an index and a value"),
            ("store 5", "store takes an index and a value"),
            ("store 5 6 7", "store takes an index and a value"),
            ("store 5G 6", "5G is no hexadecimal number"),
            ("store 5 80000000G", "80000000G is no hexadecimal number"),
            ("store 1000000 0", "index 1000000 is above FFFFFF"),
            ("store 0 100000000", "value 100000000 is above FFFFFFFF"),
            ("read", &format!("read {ACCESS}")),
            ("read user", &format!("read {ACCESS}")),
            ("read user 0 draw", &format!("read {ACCESS}")),
            ("write user 0 draw 0 0", &format!("write {ACCESS}")),
            ("read kernel 0", "read takes user or supervisor, not kernel"),
            (
                "write User 0 draw 1",
                "write takes user or supervisor, not User",
            ),
            ("read user 0x", "0x is no hexadecimal number"),
            (
                "write user 0100000000",
                "address 0100000000 is above FFFFFFFF",
            ),
            (
                "read user 0 set 1",
                "only draw may follow the address, not set",
            ),
            ("read user 0 draw x", "x is no hexadecimal number"),
            ("read user 0 draw 4", "draw 4 is above 3"),
            ("write user 0 draw 100000000", "draw 100000000 is above 3"),
            ("context", "context takes a value"),
            ("context 1 2", "context takes a value"),
            ("kbase_lo", "kbase_lo takes a value"),
            ("ctrl -1", "-1 is no hexadecimal number"),
            ("enable 100000000", "value 100000000 is above FFFFFFFF"),
            ("record", RECORD),
            ("record 00000000 00000000", RECORD),
            ("record 000000000000000", &format!("{RECORD}, not 15")),
            ("record 00000000000000000", &format!("{RECORD}, not 17")),
            (
                "record 000000000000000h",
                "000000000000000h is no hexadecimal number",
            ),
            ("tail", TAIL),
            ("tail 00 00", TAIL),
            ("tail 0", &format!("{TAIL}, not 1")),
            ("tail 0000000000000", &format!("{TAIL}, not 13")),
            ("tail 0000000000000000", &format!("{TAIL}, not 16")),
            ("tail zz", "zz is no hexadecimal number"),
            (
                "stroe 5 6",
                "unknown word stroe: a line begins with store, read, write, context, ctrl, kseg, \
                 kbase_lo, kbase_hi, enable, record or tail",
            ),
        ] {
            assert_eq!(messages(line), format!("line 1: {message}\n"), "{line}");
        }
    }

    #[test]
    fn a_tail_that_is_followed_is_reported_once() {
        assert_eq!(
            messages("tail 00\n\n# free\ncontext 1\nenable 1\ntail 01\ntail 0\nctrl 7\n"),
            "line 4: nothing but comments may follow the tail of line 1\n\
             line 7: tail takes 2 to 14 hexadecimal digits, an even number, not 1\n"
        );
    }

    #[test]
    fn a_bad_tail_is_one_error() {
        for (tail, message) in [
            (
                "tail",
                "tail takes 2 to 14 hexadecimal digits, an even number",
            ),
            (
                "tail 000",
                "tail takes 2 to 14 hexadecimal digits, an even number, not 3",
            ),
            ("tail zz", "zz is no hexadecimal number"),
        ] {
            assert_eq!(
                messages(&format!("{tail}\nenable 1\ncontext 2\n")),
                format!("line 1: {message}\n")
            );
        }
    }

    #[test]
    fn a_byte_order_mark_is_dropped_at_the_front_alone() {
        assert_eq!(words("\u{feff}enable 1"), [0x7000_0000_0000_0001]);
        assert_eq!(
            words("\u{feff}# a comment\nenable 1"),
            [0x7000_0000_0000_0001]
        );
        assert_eq!(encode("\u{feff}".as_bytes()), Ok(vec![]));
        for text in ["\u{feff}\u{feff}enable 1", "\n\u{feff}enable 1"] {
            assert!(messages(text).contains("unknown word \u{feff}enable: "));
        }
    }

    #[test]
    fn all_errors_are_reported_with_their_lines() {
        assert_eq!(
            messages("enable 1\nstore 1000000 q\n\nwrite me 8 drawn 9 # no\nctrl 7\ncontext\n"),
            "line 2: index 1000000 is above FFFFFF\n\
             line 2: q is no hexadecimal number\n\
             line 4: write takes user or supervisor, not me\n\
             line 4: only draw may follow the address, not drawn\n\
             line 4: draw 9 is above 3\n\
             line 6: context takes a value\n"
        );
    }
}
