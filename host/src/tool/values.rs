//! Arguments as numbers, bytes and ranges; an error is a message.

use codebook::{Digest, Range};
use std::ffi::OsStr;
use std::os::unix::ffi::OsStrExt;

/// The width of a book's rows, end byte included.
#[derive(Clone, Copy, Debug, PartialEq, Eq)]
pub enum Width {
    Given(u32),
    /// The width is to be found.
    Auto,
}

pub fn number(what: &str, word: &OsStr) -> Result<u32, String> {
    let text = word.to_string_lossy();
    let negative = text.strip_prefix('-').is_some_and(|digits| !digits.is_empty() && digits.bytes().all(|byte| byte.is_ascii_digit()));
    match text.parse() {
        // `parse` accepts a plus sign, this does not
        Ok(number) if !text.starts_with('+') => Ok(number),
        _ if negative => Err(format!("{what} is a number from 0 to 4294967295; {text} is negative")),
        _ => Err(format!("{what} is a number from 0 to 4294967295, not '{text}'")),
    }
}

/// A SHA-256 in hexadecimal.
pub fn digest(what: &str, word: &OsStr) -> Result<Digest, String> {
    let text = word.to_string_lossy();
    Digest::from_hex(&text).ok_or_else(|| format!("{what} is 64 hexadecimal digits, not '{text}'"))
}

/// A width, or `auto`.
pub fn width(what: &str, word: &OsStr) -> Result<Width, String> {
    match word.as_bytes() {
        b"auto" => Ok(Width::Auto),
        _ => number(what, word).map(Width::Given).map_err(|words| words.replace("4294967295", "4294967295, or auto")),
    }
}

/// The first and the last row of `7`, `5..20`, `5..` or `..20`; the last one is none if it is not given.
pub fn rows(word: &OsStr) -> Result<(u32, Option<u32>), String> {
    let text = word.to_string_lossy();
    let read = |part: &str| {
        number("a row", OsStr::new(part)).map_err(|words| match words.ends_with("is negative") {
            true => format!("rows go from 1; {part} is negative"),
            false => format!("ROWS is a row's number, or a range such as 5..20, not '{text}'"),
        })
    };
    let Some((first, last)) = text.split_once("..") else {
        return read(&text).map(|row| (row, Some(row)));
    };
    let first = if first.is_empty() { 1 } else { read(first)? };
    let last = if last.is_empty() { None } else { Some(read(last)?) };
    match last {
        Some(last) if first > last => Err(format!("{text}: row {first} is after row {last}")),
        _ => Ok((first, last)),
    }
}

/// A byte: one character, `0xHH`, or an escape. A digit is a character, so that no byte is written in decimal.
pub fn byte(word: &OsStr) -> Result<u8, String> {
    let read = match word.as_bytes() {
        [one] => Some(*one),
        [b'0', b'x', high, low] => escaped(&[b'x', *high, *low]).map(|(byte, _)| byte),
        [b'\\', letters @ ..] => escaped(letters).filter(|(_, length)| *length == letters.len()).map(|(byte, _)| byte),
        _ => None,
    };
    read.ok_or_else(|| {
        let text = word.to_string_lossy();
        let decimal = text.parse::<u8>().map_or(String::new(), |byte| format!("; byte {byte} is 0x{byte:02x}"));
        format!("a byte is one character, 0x00 to 0xff, \\n, \\r, \\t, \\\\ or \\xHH, not '{text}'{decimal}")
    })
}

/// Bytes separated by commas, or `none`.
pub fn bytes(word: &OsStr) -> Result<Vec<u8>, String> {
    if word == "none" {
        return Ok(Vec::new());
    }
    word.as_bytes().split(|&byte| byte == b',').map(|part| byte(OsStr::from_bytes(part))).collect()
}

/// The bytes of an argument, in which `\n`, `\r`, `\t`, `\\` and `\xHH` are one byte each.
pub fn pattern(word: &OsStr) -> Result<Vec<u8>, String> {
    let mut bytes = Vec::new();
    let mut rest = word.as_bytes();
    while let [first, others @ ..] = rest {
        let (byte, length) = match first {
            b'\\' => escaped(others).ok_or_else(|| {
                let given = String::from_utf8_lossy(&rest[..rest.len().min(4)]).into_owned();
                format!("a backslash begins \\n, \\r, \\t, \\\\ or \\xHH, a byte in hexadecimal, not '{given}'")
            })?,
            _ => (*first, 0),
        };
        bytes.push(byte);
        rest = &others[length..];
    }
    Ok(bytes)
}

/// The byte that the letters after a backslash name, and the number of these letters.
fn escaped(letters: &[u8]) -> Option<(u8, usize)> {
    let hexadecimal = |digit: &u8| char::from(*digit).to_digit(16);
    match letters {
        [b'n', ..] => Some((10, 1)),
        [b'r', ..] => Some((13, 1)),
        [b't', ..] => Some((9, 1)),
        [b'\\', ..] => Some((b'\\', 1)),
        [b'x', high, low, ..] => Some(((16 * hexadecimal(high)? + hexadecimal(low)?) as u8, 3)),
        _ => None,
    }
}

/// A depth, or a range of depths, for each cut: `4`, `3-5`, `[3-5]`, or `?` for any; commas and spaces between them may be left out.
pub fn cuts(word: &OsStr) -> Result<Vec<Range>, String> {
    let range = |low: &u8, high: &u8| Range { low: low - b'0', high: high - b'0' };
    let mut ranges = Vec::new();
    let mut rest = word.as_bytes();
    while let [first, others @ ..] = rest {
        rest = match rest {
            [b',' | b' ', ..] => others,
            [b'?', ..] => {
                ranges.push(range(&b'0', &b'9'));
                others
            }
            [b'[', low @ b'0'..=b'9', b'-', high @ b'0'..=b'9', b']', others @ ..] | [low @ b'0'..=b'9', b'-', high @ b'0'..=b'9', others @ ..] => {
                ranges.push(range(low, high));
                others
            }
            [b'0'..=b'9', ..] => {
                ranges.push(range(first, first));
                others
            }
            _ => return Err(format!("a cut is a depth from 0 to 9, a range such as [3-5], or ?, not '{}'", String::from_utf8_lossy(rest))),
        };
    }
    Ok(ranges)
}

#[cfg(test)]
mod tests {
    use super::{byte, number, pattern, rows};
    use std::ffi::OsStr;

    #[test]
    fn numbers() {
        let read = |word: &str| number("N", OsStr::new(word));
        assert_eq!((read("0"), read("4294967295")), (Ok(0), Ok(u32::MAX)));
        assert_eq!(read("-12"), Err("N is a number from 0 to 4294967295; -12 is negative".to_owned()));
        for word in ["", "-", "--1", "-x", "1x", "+1", "4294967296", " 1"] {
            assert_eq!(read(word), Err(format!("N is a number from 0 to 4294967295, not '{word}'")));
        }
    }

    #[test]
    fn ranges_of_rows() {
        let read = |word: &str| rows(OsStr::new(word));
        assert_eq!((read("7"), read("5..20"), read("5..5")), (Ok((7, Some(7))), Ok((5, Some(20))), Ok((5, Some(5)))));
        assert_eq!((read("5.."), read("..20"), read("..")), (Ok((5, None)), Ok((1, Some(20))), Ok((1, None))));
        assert_eq!(read("5..4"), Err("5..4: row 5 is after row 4".to_owned()));
        for word in ["x", "1..x", "-1..2", "1..2..3", "1...2"] {
            assert!(read(word).is_err(), "{word}");
        }
    }

    #[test]
    fn bytes_and_patterns() {
        let one = |word: &str| byte(OsStr::new(word)).ok();
        assert_eq!(
            (one("0x41"), one("A"), one("\\n"), one("\\r"), one("\\t"), one("\\x7f"), one("\\\\"), one("\\")),
            (Some(65), Some(65), Some(10), Some(13), Some(9), Some(127), Some(92), Some(92))
        );
        // a digit is a character
        assert_eq!((one("5"), one("0x05"), one("\\x05"), one("0"), one("0xFF")), (Some(b'5'), Some(5), Some(5), Some(b'0'), Some(255)));
        for word in ["10", "256", "-1", "AB", "", "\\x7", "\\nn", "\\q", "\\x+1", "0x", "0x5", "0x005", "0xg0", "0X0a"] {
            assert_eq!(one(word), None, "{word}");
        }
        let decimal = byte(OsStr::new("10")).expect_err("no byte");
        assert!(decimal.ends_with(", not '10'; byte 10 is 0x0a"), "{decimal}");
        assert_eq!(pattern(OsStr::new("A\\t\\x20\\\\\\nB")), Ok(b"A\t \\\nB".to_vec()));
        assert!(pattern(OsStr::new("A\\")).is_err() && pattern(OsStr::new("\\xg0")).is_err());
    }
}
