//! The lines of rows that match, for standard output: they are written part by part, so that many of them take little memory and time.

use crate::json::Object;
use crate::{say, Failure};

/// Bytes that wait before they are written.
const PART: usize = 1 << 16;
/// Bytes of the longest key: a code of 12 bytes, a space and 10 cuts.
const KEY: usize = 23;
/// Bytes of the longest line of a key: its label, the key and the line's end.
const LINE: usize = LABEL + KEY + 1;
/// Bytes of the longest label, `row 4294967295: `.
const LABEL: usize = 16;

/// Lines on their way to standard output.
pub struct Lines {
    json: bool,
    label: Label,
    /// Room for a part, once there is a line.
    part: Vec<u8>,
    /// Bytes of the part that wait.
    waiting: usize,
    /// The result of writing the earlier parts; none if there was no line.
    written: Option<Result<(), Failure>>,
}

impl Lines {
    pub fn new(json: bool) -> Self {
        Lines { json, label: Label::of(0), part: Vec::new(), waiting: 0, written: None }
    }

    /// Adds the line of a row: `row 12: ROW`, or an object.
    pub fn add(&mut self, number: u32, row: &[u8]) {
        let label = self.label.next(number);
        self.label = label;
        if self.json || row.len() > KEY {
            return self.add_any(row);
        }
        if self.part.len() - self.waiting < LINE {
            self.write();
        }
        let line = &mut self.part[self.waiting..][..LINE];
        let end = label.length + row.len();
        line[..8].copy_from_slice(&(label.text as u64).to_le_bytes());
        line[8..LABEL].copy_from_slice(&((label.text >> 64) as u64).to_le_bytes());
        copy_key(&mut line[label.length..end], row);
        line[end] = b'\n';
        self.waiting += end + 1;
    }

    /// The same for an object, or for a row that is no key.
    fn add_any(&mut self, row: &[u8]) {
        if !self.json {
            let Label { text, length, .. } = self.label;
            return [&text.to_le_bytes()[..length], row, b"\n"].into_iter().for_each(|bytes| self.put(bytes));
        }
        let number = self.label.number;
        match row.iter().all(|byte| matches!(byte, b' '..=b'~') && !matches!(byte, b'"' | b'\\')) {
            // no byte has to be escaped
            true => [b"{\"row\":", number.to_string().as_bytes(), b",\"text\":\"", row, b"\"}\n"].into_iter().for_each(|bytes| self.put(bytes)),
            false => self.put(Object::new().number("row", number).bytes("text", row).line().as_bytes()),
        }
    }

    fn put(&mut self, bytes: &[u8]) {
        if self.part.len() - self.waiting < bytes.len() {
            self.write();
        }
        match self.part.get_mut(self.waiting..self.waiting + bytes.len()) {
            Some(free) => {
                free.copy_from_slice(bytes);
                self.waiting += bytes.len();
            }
            None => self.written = Some(print(self.written.take(), bytes)),
        }
    }

    /// Writes the waiting bytes; then there is room for a part.
    fn write(&mut self) {
        if self.waiting > 0 {
            self.written = Some(print(self.written.take(), &self.part[..self.waiting]));
        }
        self.waiting = 0;
        self.part.resize(PART, 0);
    }

    pub fn is_empty(&self) -> bool {
        self.waiting == 0 && self.written.is_none()
    }

    /// Writes the rest.
    pub fn finish(mut self) -> Result<(), Failure> {
        self.write();
        self.written.unwrap_or(Ok(()))
    }
}

/// Prints a part, unless one before it could not be printed.
fn print(before: Option<Result<(), Failure>>, part: &[u8]) -> Result<(), Failure> {
    before.unwrap_or(Ok(())).and_then(|()| say::print(part))
}

/// Copies a key to as many bytes. Two copies of one fixed length, which overlap, take less time than one of any length.
fn copy_key(to: &mut [u8], key: &[u8]) {
    fn ends<const N: usize>(to: &mut [u8], key: &[u8]) {
        let last = key.len() - N;
        to[..N].copy_from_slice(&key[..N]);
        to[last..][..N].copy_from_slice(&key[last..]);
    }
    match key.len() {
        16.. => ends::<16>(to, key),
        8.. => ends::<8>(to, key),
        4.. => ends::<4>(to, key),
        2.. => ends::<2>(to, key),
        _ => to.copy_from_slice(key),
    }
}

/// `row NUMBER: `
#[derive(Clone, Copy)]
struct Label {
    number: u32,
    /// The bytes, the first one lowest: in words, so that no copy waits for a digit that was written alone.
    text: u128,
    length: usize,
}

impl Label {
    fn of(number: u32) -> Self {
        let mut text = *b"row             ";
        let end = 5 + number.checked_ilog10().unwrap_or(0) as usize;
        text[end] = b':';
        let mut rest = number;
        for digit in text[4..end].iter_mut().rev() {
            *digit = b'0' + (rest % 10) as u8;
            rest /= 10;
        }
        Label { number, text: u128::from_le_bytes(text), length: end + 2 }
    }

    /// Changes the label to another number. From one number to the next, mostly one digit changes.
    fn next(self, number: u32) -> Self {
        if number == self.number.wrapping_add(1) && number % 10 != 0 {
            Label { number, text: self.text + (1 << (8 * (self.length - 3))), ..self }
        } else {
            Label::of(number)
        }
    }
}

#[cfg(test)]
mod tests {
    use super::{copy_key, Label, Lines, KEY, PART};
    use crate::json::Object;

    #[test]
    fn labels() {
        let mut label = Label::of(0);
        for number in (0..2000).chain([7, 8, 99_999, 100_000, 9, 4_294_967_294, u32::MAX, 0, 1]) {
            label = label.next(number);
            assert_eq!(&label.text.to_le_bytes()[..label.length], format!("row {number}: ").as_bytes());
        }
    }

    #[test]
    fn keys_of_all_lengths() {
        let key: Vec<u8> = (1..=KEY as u8).collect();
        for length in 0..=KEY {
            let mut copied = vec![0; length];
            copy_key(&mut copied, &key[..length]);
            assert_eq!(copied, key[..length]);
        }
    }

    /// Lines that still wait are never more than a part.
    fn waiting(json: bool, rows: &[(u32, &[u8])]) -> String {
        let mut lines = Lines::new(json);
        assert!(lines.is_empty());
        rows.iter().for_each(|(number, row)| lines.add(*number, row));
        assert!(lines.written.is_none() && !lines.is_empty());
        String::from_utf8_lossy(&lines.part[..lines.waiting]).into_owned()
    }

    #[test]
    fn lines_of_rows() {
        assert_eq!(waiting(false, &[(9, b"CH0501 142315"), (10, b""), (12, b"A 1")]), "row 9: CH0501 142315\nrow 10: \nrow 12: A 1\n");
        let long = "A".repeat(KEY + 1);
        assert_eq!(waiting(false, &[(1, b"A 1"), (2, long.as_bytes()), (3, b"B 2")]), format!("row 1: A 1\nrow 2: {long}\nrow 3: B 2\n"));
        assert!(Lines::new(false).finish().is_ok());
    }

    /// An object for each byte, as `Object` writes it.
    #[test]
    fn objects_of_rows() {
        for byte in 0..=255 {
            let row = [b'A', byte, b' ', b'1'];
            assert_eq!(waiting(true, &[(7, &row)]), Object::new().number("row", 7).bytes("text", &row).line());
        }
    }

    /// A full part is written, and so is a line longer than a part.
    #[test]
    fn no_more_than_a_part_waits() {
        let mut lines = Lines::new(false);
        let bytes = |lines: &Lines| lines.part.len();
        assert_eq!(bytes(&lines), 0);
        lines.add(1, &[b'A'; PART - 8]);
        assert_eq!((lines.waiting, bytes(&lines), lines.written.is_none()), (PART, PART, true));
    }
}
