//! Words of the text: lines, comments, hexadecimal digits, and how a word is shown in a message.

/// The words of a line: its comment is left out, spaces and tabs separate. A carriage return before
/// the end of the line belongs to the end.
pub fn split(line: &[u8]) -> Vec<&[u8]> {
    let line = line.strip_suffix(b"\r").unwrap_or(line);
    let end = line.iter().position(|&b| b == b'#').unwrap_or(line.len());
    line[..end]
        .split(|&b| b == b' ' || b == b'\t')
        .filter(|word| !word.is_empty())
        .collect()
}

/// The digits of a word of hexadecimal digits, at least one, after a 0x where there is one.
pub fn digits(word: &[u8]) -> Option<&[u8]> {
    let digits = word
        .strip_prefix(b"0x")
        .or_else(|| word.strip_prefix(b"0X"))
        .unwrap_or(word);
    let good = !digits.is_empty() && digits.iter().all(u8::is_ascii_hexdigit);
    good.then_some(digits)
}

/// The number that hexadecimal digits write, or nothing above FFFFFFFF. Leading zeros are free.
pub fn number(digits: &[u8]) -> Option<u32> {
    digits.iter().try_fold(0, |n: u32, &digit| {
        Some(n.checked_mul(16)? + u32::from(nibble(digit)))
    })
}

/// The bytes that hexadecimal digits write, two digits a byte. Their number is even.
pub fn bytes(digits: &[u8]) -> Vec<u8> {
    digits
        .chunks(2)
        .map(|pair| nibble(pair[0]) << 4 | nibble(pair[1]))
        .collect()
}

/// What one hexadecimal digit is worth.
fn nibble(digit: u8) -> u8 {
    match digit {
        b'0'..=b'9' => digit - b'0',
        b'a'..=b'f' => digit - b'a' + 10,
        _ => digit - b'A' + 10,
    }
}

/// The most bytes that are looked at to tell a text from a trace.
const LOOKED_AT: usize = 64;

/// Does it begin as a text does, without a control character but tabs and ends of lines? Every well-formed record has
/// one.
pub fn is_text(bytes: &[u8]) -> bool {
    let mut first = bytes.iter().take(LOOKED_AT);
    first.all(|b| !b.is_ascii_control() || b"\t\r\n".contains(b))
}

/// The most characters of a word that a message has.
const SHOWN: usize = 40;

/// A word for a message: not too long, and plain.
pub fn shown(word: &[u8]) -> String {
    let text = String::from_utf8_lossy(word);
    match text.char_indices().nth(SHOWN) {
        Some((end, _)) => plain(&text[..end]) + "..",
        None => plain(&text),
    }
}

/// A text without characters that would disturb a terminal.
pub fn plain(text: &str) -> String {
    text.replace(char::is_control, "?")
}

#[cfg(test)]
mod tests {
    use super::*;

    #[test]
    fn comments_and_spaces_are_left_out() {
        let none: Vec<&[u8]> = Vec::new();
        for line in ["", " \t ", "# store", "\t# store 5", "#", "\r"] {
            assert_eq!(split(line.as_bytes()), none, "{line:?}");
        }
        for line in [
            "store 5",
            "\tstore \t 5  ",
            "store 5# 6",
            "store 5 # 6 # 7",
            "store 5\r",
        ] {
            assert_eq!(
                split(line.as_bytes()),
                [b"store" as &[u8], b"5"],
                "{line:?}"
            );
        }
        assert_eq!(split(b"a\rb"), [b"a\rb"]);
    }

    #[test]
    fn digits_take_either_case_and_a_prefix() {
        assert_eq!(digits(b"09afAF"), Some(b"09afAF" as &[u8]));
        assert_eq!(digits(b"0x5"), Some(b"5" as &[u8]));
        assert_eq!(digits(b"0XfF"), Some(b"fF" as &[u8]));
        for word in [
            "", "0x", "x5", "+5", "-5", "5_0", "0x0x5", "G", "5h", "\u{665}",
        ] {
            assert_eq!(digits(word.as_bytes()), None, "{word}");
        }
    }

    #[test]
    fn numbers_have_their_value_up_to_32_bits() {
        for (word, n) in [
            ("0", Some(0)),
            ("00000000000000000000000012ab", Some(0x12AB)),
            ("12AB", Some(0x12AB)),
            ("90cdefCDEF", None),
            ("9Acdef01", Some(0x9ACD_EF01)),
            ("ffffFFFF", Some(u32::MAX)),
            ("100000000", None),
            ("10000000000000000000000", None),
        ] {
            assert_eq!(number(word.as_bytes()), n, "{word}");
        }
    }

    #[test]
    fn bytes_are_written_in_order() {
        assert_eq!(bytes(b"00ff1aB9"), [0, 0xFF, 0x1A, 0xB9]);
        assert_eq!(bytes(b""), []);
    }

    #[test]
    fn a_text_begins_without_control_characters() {
        for text in [b"" as &[u8], b"\tenable 1 # \xC3\xA9\r\n", &[b' '; 100]] {
            assert!(is_text(text), "{text:?}");
        }
        for byte in [0, 8, 0xB, 0xC, 0xE, 0x1F, 0x7F] {
            assert!(!is_text(&[b'a', byte]), "{byte}");
        }
        let at = |place: usize| [vec![b'a'; place], vec![0]].concat();
        assert!(!is_text(&at(63)) && is_text(&at(64)));
    }

    #[test]
    fn a_shown_word_is_short_and_plain() {
        assert_eq!(shown(b"stroe"), "stroe");
        assert_eq!(shown("\u{1b}[1m\u{7}\u{e9}".as_bytes()), "?[1m?\u{e9}");
        assert_eq!(shown(b"a\xFFb"), "a\u{FFFD}b");
        assert_eq!(shown(&[b'x'; 40]), "x".repeat(40));
        assert_eq!(shown(&[b'x'; 41]), "x".repeat(40) + "..");
    }
}
