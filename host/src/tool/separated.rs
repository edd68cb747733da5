//! Tables as text: records of fields with a separator between them, and quotes around a field, by RFC 4180. A line ends in byte 10, in 13 and 10, or in 13.

/// What separates two fields.
#[derive(Clone, Copy, Debug, PartialEq, Eq)]
pub enum Separator {
    Byte(u8),
    /// The first spaces of a line; what follows is the second field.
    Spaces,
}

impl From<u8> for Separator {
    fn from(byte: u8) -> Self {
        match byte {
            b' ' => Separator::Spaces,
            byte => Separator::Byte(byte),
        }
    }
}

impl Separator {
    /// The tab, semicolon or comma of the first line that has one of them, in this order; else spaces.
    pub fn of(text: &[u8]) -> Self {
        let mut lines = text.split(|byte| matches!(byte, 10 | 13));
        let found = lines.find_map(|line| [b'\t', b';', b','].into_iter().find(|&separator| outside_quotes(line, separator)));
        found.map_or(Separator::Spaces, Separator::Byte)
    }

    pub fn name(self) -> &'static str {
        match self {
            Separator::Byte(b'\t') => "tabs",
            Separator::Byte(b';') => "semicolons",
            Separator::Byte(b',') => "commas",
            Separator::Byte(_) => "the byte given",
            Separator::Spaces => "spaces",
        }
    }
}

fn outside_quotes(line: &[u8], separator: u8) -> bool {
    line.split(|&byte| byte == b'"').step_by(2).any(|part| part.contains(&separator))
}

/// A record: the line, from 1, in which it begins, and its fields without quotes and without spaces around them.
pub struct Record {
    pub line: usize,
    pub fields: Vec<Vec<u8>>,
    /// Why the record is malformed.
    pub broken: Option<&'static str>,
}

impl Record {
    pub fn field(&self, at: usize) -> Option<&[u8]> {
        self.fields.get(at).map(Vec::as_slice)
    }

    pub fn is_blank(&self) -> bool {
        self.broken.is_none() && self.fields.iter().all(Vec::is_empty)
    }

    /// The field of this name, in upper or lower case.
    pub fn position(&self, name: &str) -> Option<usize> {
        let name = name.to_lowercase();
        self.fields.iter().position(|field| String::from_utf8_lossy(field).to_lowercase() == name)
    }

    /// The record's fields for a message.
    pub fn shown(&self) -> String {
        let fields: Vec<String> = self.fields.iter().take(20).map(|field| format!("'{}'", field[..field.len().min(40)].escape_ascii())).collect();
        fields.join(", ")
    }
}

/// The records of a text, one after the other.
pub fn records(text: &[u8], separator: Separator) -> impl Iterator<Item = Record> + '_ {
    let (mut rest, mut line) = (text, 1);
    std::iter::from_fn(move || {
        if rest.is_empty() {
            return None;
        }
        let (mut record, length) = match separator {
            Separator::Byte(separator) => quoted_record(rest, separator),
            Separator::Spaces => spaced_record(rest),
        };
        record.line = line;
        line += line_ends(&rest[..length]);
        rest = &rest[length..];
        Some(record)
    })
}

/// The length of the line end at the start of some bytes; 0 if there is none.
fn line_end(bytes: &[u8]) -> usize {
    match bytes {
        [13, 10, ..] => 2,
        [10 | 13, ..] => 1,
        _ => 0,
    }
}

fn line_ends(bytes: &[u8]) -> usize {
    let (mut at, mut number) = (0, 0);
    while at < bytes.len() {
        let end = line_end(&bytes[at..]);
        number += usize::from(end > 0);
        at += end.max(1);
    }
    number
}

/// The line at the start of some bytes, and its length with its end.
fn first_line(bytes: &[u8]) -> (&[u8], usize) {
    let length = bytes.iter().position(|byte| matches!(byte, 10 | 13)).unwrap_or(bytes.len());
    (&bytes[..length], length + line_end(&bytes[length..]))
}

fn trimmed(field: &[u8]) -> &[u8] {
    let start = field.iter().position(|byte| !byte.is_ascii_whitespace()).unwrap_or(field.len());
    let end = field.iter().rposition(|byte| !byte.is_ascii_whitespace()).map_or(start, |last| last + 1);
    &field[start..end]
}

fn spaced_record(bytes: &[u8]) -> (Record, usize) {
    let (line, length) = first_line(bytes);
    let line = trimmed(line);
    let first = line.iter().position(|byte| byte.is_ascii_whitespace()).unwrap_or(line.len());
    let fields = [&line[..first], trimmed(&line[first..])].into_iter().filter(|field| !field.is_empty()).map(<[u8]>::to_vec).collect();
    (Record { line: 0, fields, broken: None }, length)
}

/// The record at the start of some bytes, and its length with its line end. One whose quotes are not closed is its first line.
fn quoted_record(bytes: &[u8], separator: u8) -> (Record, usize) {
    let mut record = Record { line: 0, fields: Vec::new(), broken: None };
    let mut at = 0;
    loop {
        let Some((field, length)) = field(&bytes[at..], separator) else {
            return broken(bytes, separator);
        };
        record.fields.push(trimmed(&field).to_vec());
        at += length;
        match bytes.get(at) {
            Some(&byte) if byte == separator => at += 1,
            end => return (record, at + end.map_or(0, |_| line_end(&bytes[at..]))),
        }
    }
}

/// A line with a quote that is not closed, or closed in the middle of a field.
fn broken(bytes: &[u8], separator: u8) -> (Record, usize) {
    let (line, length) = first_line(bytes);
    let fields = line.split(|&byte| byte == separator).map(|field| trimmed(field).to_vec()).collect();
    (Record { line: 0, fields, broken: Some("its quotes are not those of a field") }, length)
}

/// The field at the start of some bytes, without its quotes, and its length with them. None if its quotes are wrong.
fn field(bytes: &[u8], separator: u8) -> Option<(Vec<u8>, usize)> {
    let ends = |byte: &u8| *byte == separator || matches!(byte, 10 | 13);
    let start = bytes.iter().take_while(|&&byte| byte == b' ' && byte != separator).count();
    if bytes.get(start) != Some(&b'"') {
        let length = bytes.iter().position(ends).unwrap_or(bytes.len());
        return Some((bytes[..length].to_vec(), length));
    }
    let (mut field, mut at) = (Vec::new(), start + 1);
    loop {
        match bytes[at..] {
            [b'"', b'"', ..] => {
                field.push(b'"');
                at += 2;
            }
            [b'"', ref rest @ ..] => {
                let spaces = rest.iter().take_while(|&&byte| byte == b' ' && byte != separator).count();
                return rest.get(spaces).map_or(true, ends).then_some((field, at + 1 + spaces));
            }
            [byte, ..] => {
                field.push(byte);
                at += 1;
            }
            [] => return None,
        }
    }
}

#[cfg(test)]
mod tests {
    use super::{records, Separator};

    /// Each record's line, its fields separated by '|', and '!' where it is broken.
    fn read(text: &str) -> Vec<String> {
        let shown = |fields: &[Vec<u8>]| fields.iter().map(|field| String::from_utf8_lossy(field).into_owned()).collect::<Vec<_>>().join("|");
        let all = records(text.as_bytes(), Separator::of(text.as_bytes()));
        all.map(|record| format!("{} {}{}", record.line, shown(&record.fields), if record.broken.is_some() { "!" } else { "" })).collect()
    }

    #[test]
    fn separators() {
        let of = |text: &str| Separator::of(text.as_bytes());
        assert_eq!((of("a;b,c"), of("a,b"), of("a\tb;c")), (Separator::Byte(b';'), Separator::Byte(b','), Separator::Byte(b'\t')));
        assert_eq!((of("title\n\"a;b\",c"), of("CH 12\n"), of("")), (Separator::Byte(b','), Separator::Spaces, Separator::Spaces));
    }

    #[test]
    fn fields_and_lines() {
        assert_eq!(read("a;b\r\n;\n c ; d \re;f"), ["1 a|b", "2 |", "3 c|d", "4 e|f"]);
        assert_eq!(read("a,\"b,\"\"c\"\"\"\n\"x\ny\" , z\nq,r\n"), ["1 a|b,\"c\"", "2 x\ny|z", "4 q|r"]);
        assert_eq!(read("a;b\"c\n"), ["1 a|b\"c"]);
        assert_eq!(read("a;\"b\nc;d\n"), ["1 a|\"b!", "2 c|d"]);
        assert_eq!(read("a;\"b\"c\nd;e\n"), ["1 a|\"b\"c!", "2 d|e"]);
        assert_eq!(read("CH1  4 4 2\n\n  CH2 442 \nCH3"), ["1 CH1|4 4 2", "2 ", "3 CH2|442", "4 CH3"]);
    }
}
