//! `import`: a table of codes and cuts, as spreadsheets and databases write it, to a book of rows of code, space, cuts. Nothing is guessed: a line that
//! is not read is dropped and listed.

use crate::given::Given;
use crate::input::{Input, Source, TABLE};
use crate::json::Object;
use crate::output::Output;
use crate::say::{self, several};
use crate::separated::{records, Record, Separator};
use crate::table::{CODE, CUTS, LENIENT, SEPARATOR};
use crate::{values, Failure};
use std::borrow::Cow;
use std::ffi::OsStr;

/// The header line is looked for among this many first lines.
const TOP: usize = 10;

/// A column that the call names, by its number from 1 or by its name in the header line.
enum Column {
    Number(usize),
    Name(String),
}

/// Where codes and cuts are: their columns, from 0, and the number of records above the first row.
#[derive(Debug, PartialEq, Eq)]
struct Layout {
    code: usize,
    cuts: usize,
    headers: usize,
}

/// A book, and the lines that are not in it, each with the reason.
struct Imported {
    book: Vec<u8>,
    rows: u64,
    dropped: Vec<(usize, String)>,
}

pub fn import(given: &Given) -> Result<(), Failure> {
    let (code, cuts) = (column(given, given.value(&CODE))?, column(given, given.value(&CUTS))?);
    let separator = given.value(&SEPARATOR).map(|word| given.reading(values::byte(word))).transpose()?;
    let source = Source::open(given.file(0))?;
    let output = Output::of(given, &source)?;
    let input = source.read(&TABLE)?;
    let text = decoded(&input)?;
    let separator = separator.map_or_else(|| Separator::of(&text), Separator::from);
    let records: Vec<Record> = records(&text, separator).filter(|record| !record.is_blank()).collect();
    let layout = layout(&records, code.as_ref(), cuts.as_ref()).map_err(|words| Failure::file(&input.name, words))?;
    let (headers, others) = records.split_at(layout.headers);
    let imported = rows(others, &layout);
    tell_lines(given, &input.name, headers, &imported.dropped);
    print_dropped(given, &input.name, &imported.dropped, output.is_standard())?;
    if imported.rows == 0 && !imported.dropped.is_empty() {
        return Err(Failure::refused(&input.name, "no line has a code and cuts; nothing is written"));
    }
    let (name, standard) = (output.name.clone(), output.is_standard());
    output.write(&imported.book)?;
    report(given, &summary(&input.name, &name, &imported, &layout, separator, given.json()), standard)?;
    match imported.dropped.is_empty() || given.has(&LENIENT) {
        true => Ok(()),
        false => Err(Failure::reported(1)),
    }
}

fn column(given: &Given, word: Option<&OsStr>) -> Result<Option<Column>, Failure> {
    let Some(text) = word.map(OsStr::to_string_lossy) else {
        return Ok(None);
    };
    match text.parse() {
        Ok(0) => Err(given.usage("columns are numbered from 1")),
        Ok(number) => Ok(Some(Column::Number(number))),
        Err(_) => Ok(Some(Column::Name(text.into_owned()))),
    }
}

/// The bytes without a byte order mark; UTF-16 as UTF-8. Without a mark UTF-16 is known by the zero byte beside its first character.
fn decoded(input: &Input) -> Result<Cow<'_, [u8]>, Failure> {
    let units = |bytes: &[u8], unit: fn([u8; 2]) -> u16| {
        if bytes.len() % 2 == 1 {
            return Err(Failure::file(&input.name, "is UTF-16, and ends in the middle of a character"));
        }
        let units = bytes.chunks_exact(2).map(|pair| unit([pair[0], pair[1]]));
        let text: String = char::decode_utf16(units).map(|unit| unit.unwrap_or(char::REPLACEMENT_CHARACTER)).collect();
        Ok(Cow::Owned(text.into_bytes()))
    };
    match &input.bytes[..] {
        [0xEF, 0xBB, 0xBF, rest @ ..] => Ok(Cow::Borrowed(rest)),
        [0xFF, 0xFE, rest @ ..] => units(rest, u16::from_le_bytes),
        [0xFE, 0xFF, rest @ ..] => units(rest, u16::from_be_bytes),
        bytes @ [1..=255, 0, ..] => units(bytes, u16::from_le_bytes),
        bytes @ [0, 1..=255, ..] => units(bytes, u16::from_be_bytes),
        bytes => Ok(Cow::Borrowed(bytes)),
    }
}

/// The columns that are named, by the call or as `code` and `cuts`; without a header line the two columns that there are.
fn layout(records: &[Record], code: Option<&Column>, cuts: Option<&Column>) -> Result<Layout, String> {
    let at = |column: Option<&Column>, name: &str, record: &Record| match column {
        Some(Column::Number(number)) => Some(number - 1),
        Some(Column::Name(name)) => record.position(name),
        None => record.position(name),
    };
    let by_number = |code: usize, cuts: usize| {
        // a line above the rows has no digit among its cuts
        let is_header = |record: &&Record| !record.field(cuts).is_some_and(|field| field.iter().any(u8::is_ascii_digit));
        Layout { code, cuts, headers: records.iter().take_while(is_header).count() }
    };
    let found =
        |(above, record): (usize, &Record)| Some(Layout { code: at(code, "code", record)?, cuts: at(cuts, "cuts", record)?, headers: above + 1 });
    match (code, cuts, records.first()) {
        (Some(Column::Number(code)), Some(Column::Number(cuts)), _) => Ok(by_number(code - 1, cuts - 1)),
        (_, _, None) => Ok(by_number(0, 1)),
        (_, _, Some(first)) => match records.iter().enumerate().take(TOP).find_map(found) {
            Some(layout) => Ok(layout),
            None if code.is_none() && cuts.is_none() && first.fields.len() == 2 => Ok(by_number(0, 1)),
            None => {
                Err(format!("no header line names the columns; give --code and --cuts, by number or by name; the first line has: {}", first.shown()))
            }
        },
    }
}

/// The rows of the records, in their order.
fn rows(records: &[Record], layout: &Layout) -> Imported {
    let mut imported = Imported { book: Vec::new(), rows: 0, dropped: Vec::new() };
    for record in records {
        match row(record, layout) {
            Ok(row) => {
                imported.book.extend(row);
                imported.rows += 1;
            }
            Err(reason) => imported.dropped.push((record.line, reason)),
        }
    }
    imported
}

/// The row of a record, with its end.
fn row(record: &Record, layout: &Layout) -> Result<Vec<u8>, String> {
    if let Some(reason) = record.broken {
        return Err(reason.to_owned());
    }
    let field = |at: usize| record.field(at).ok_or_else(|| format!("it has no column {}", at + 1));
    let (code, cuts) = (code(field(layout.code)?)?, cuts(field(layout.cuts)?)?);
    Ok([code, b" ", &cuts, b"\n"].concat())
}

/// 1 to 12 bytes other than space.
fn code(field: &[u8]) -> Result<&[u8], String> {
    let shown = field.escape_ascii();
    match field {
        [] => Err("it has no code".to_owned()),
        _ if field.contains(&b' ') => Err(format!("its code '{shown}' has a space in it")),
        _ if is_unseen(field) => Err(format!("its code '{shown}' has a character that cannot be seen or read")),
        _ if field.len() > 12 => Err(format!("its code '{shown}' has {} bytes, and a code at most 12", field.len())),
        _ => Ok(field),
    }
}

/// Controls, line ends, other kinds of space, zero-width characters, and U+FFFD, which replaces what was not UTF-16. In bytes that are not UTF-8: controls.
fn is_unseen(code: &[u8]) -> bool {
    match std::str::from_utf8(code) {
        Ok(text) => {
            text.chars().any(|character| character.is_control() || character.is_whitespace() || "\u{fffd}\u{feff}\u{200b}".contains(character))
        }
        Err(_) => code.iter().any(u8::is_ascii_control),
    }
}

/// 1 to 10 cuts, a digit each: 442231, 4-4-2-2-3-1 or 4 4 2 2 3 1.
fn cuts(field: &[u8]) -> Result<Vec<u8>, String> {
    let shown = field.escape_ascii();
    let separator = [b'-', b' '].into_iter().find(|separator| field.contains(separator));
    let parts: Vec<&[u8]> = match separator {
        Some(separator) => field.split(|&byte| byte == separator).collect(),
        None => field.chunks(1).collect(),
    };
    if parts.is_empty() {
        return Err("it has no cuts".to_owned());
    }
    if let Some(part) = parts.iter().find(|part| part.len() > 1 && part.iter().all(u8::is_ascii_digit)) {
        return Err(format!("its cuts '{shown}' have the cut {}, and a cut is one digit", part.escape_ascii()));
    }
    if !parts.iter().all(|part| matches!(part, [b'0'..=b'9'])) {
        return Err(format!("its cuts '{shown}' are not digits"));
    }
    match parts.len() {
        1..=10 => Ok(parts.concat()),
        many => Err(format!("it has {many} cuts, and a row at most 10")),
    }
}

/// On standard error: the header lines, and each line that is dropped.
fn tell_lines(given: &Given, table: &str, headers: &[Record], dropped: &[(usize, String)]) {
    for record in headers.iter().filter(|_| !given.quiet()) {
        say::tell(&format!("codebook: {table}:{}: header line: {}\n", record.line, record.shown()));
    }
    for (line, reason) in dropped {
        say::tell(&format!("codebook: {table}:{line}: dropped: {reason}\n"));
    }
}

/// Each line that is dropped as an object.
fn print_dropped(given: &Given, table: &str, dropped: &[(usize, String)], standard: bool) -> Result<(), Failure> {
    let object = |(line, reason): &(usize, String)| Object::new().text("table", table).number("line", line).text("words", reason).line();
    match given.json() {
        true => print(&dropped.iter().map(object).collect::<String>(), standard),
        false => Ok(()),
    }
}

/// What was read, and from where.
fn summary(table: &str, book: &str, imported: &Imported, layout: &Layout, separator: Separator, json: bool) -> String {
    let (code, cuts, dropped) = (layout.code + 1, layout.cuts + 1, imported.dropped.len() as u64);
    if json {
        let object = Object::new().text("table", table).text("book", book).number("rows", imported.rows).number("header_lines", layout.headers);
        return object.number("dropped", dropped).number("code_column", code).number("cuts_column", cuts).text("separator", separator.name()).line();
    }
    format!(
        "{table}: {} to {book}; code from column {code}, cuts from column {cuts}, separated by {}; {}, {} dropped\n",
        several(imported.rows, "row"),
        separator.name(),
        several(layout.headers as u64, "header line"),
        several(dropped, "line")
    )
}

fn report(given: &Given, words: &str, standard: bool) -> Result<(), Failure> {
    match given.quiet() && !given.json() {
        true => Ok(()),
        false => print(words, standard),
    }
}

/// Prints to standard output, unless the book goes there.
fn print(words: &str, standard: bool) -> Result<(), Failure> {
    match standard {
        true => {
            say::tell(words);
            Ok(())
        }
        false => say::print(words.as_bytes()),
    }
}

#[cfg(test)]
mod tests {
    use super::{code, cuts, decoded, layout, Column, Layout};
    use crate::input::Input;
    use crate::separated::{records, Record, Separator};

    #[test]
    fn cuts_as_they_are_written() {
        for field in ["44224", "4-4-2-2-4", "4 4 2 2 4"] {
            assert_eq!(cuts(field.as_bytes()), Ok(b"44224".to_vec()), "{field}");
        }
        assert_eq!((cuts(b"0"), cuts(b"1234567890")), (Ok(b"0".to_vec()), Ok(b"1234567890".to_vec())));
        for (field, reason) in [
            ("", "it has no cuts"),
            ("12345678901", "it has 11 cuts, and a row at most 10"),
            ("4-10-2", "its cuts '4-10-2' have the cut 10, and a cut is one digit"),
            ("4--2", "its cuts '4--2' are not digits"),
            ("4-4 2", "its cuts '4-4 2' are not digits"),
            ("4.4", "its cuts '4.4' are not digits"),
            ("4,4", "its cuts '4,4' are not digits"),
            ("4.4224E+5", "its cuts '4.4224E+5' are not digits"),
            ("-4", "its cuts '-4' are not digits"),
        ] {
            assert_eq!(cuts(field.as_bytes()), Err(reason.to_owned()), "{field}");
        }
    }

    #[test]
    fn codes() {
        assert_eq!(code(b"TWELVE-BYTES"), Ok(b"TWELVE-BYTES".as_slice()));
        assert_eq!(code("Ä1\u{e9}".as_bytes()), Ok("Ä1\u{e9}".as_bytes()));
        assert_eq!(code(b"\xC41"), Ok(b"\xC41".as_slice()));
        for field in ["", "CH 1", "A\nB", "A\tB", "THIRTEENBYTES", "A\u{fffd}", "A\u{a0}", "\u{feff}A"] {
            assert!(code(field.as_bytes()).is_err(), "{field}");
        }
    }

    #[test]
    fn encodings() {
        let text = |bytes: &[u8]| {
            let input = Input { name: "t".to_owned(), bytes: bytes.to_vec() };
            decoded(&input).map(|text| text.into_owned()).ok()
        };
        let wide = |unit: fn(u16) -> [u8; 2]| "Ä;1\n".encode_utf16().flat_map(unit).collect::<Vec<u8>>();
        let due = Some("Ä;1\n".as_bytes().to_vec());
        assert_eq!((text("Ä;1\n".as_bytes()), text("\u{feff}Ä;1\n".as_bytes())), (due.clone(), due.clone()));
        assert_eq!(text(&[b"\xFF\xFE".as_slice(), &wide(u16::to_le_bytes)].concat()), due);
        assert_eq!(text(&[b"\xFE\xFF".as_slice(), &wide(u16::to_be_bytes)].concat()), due);
        assert_eq!((text(&wide(u16::to_le_bytes)), text(&wide(u16::to_be_bytes))), (due.clone(), due));
        assert_eq!((text(b"\xFF\xFEA"), text(b""), text(b"A"), text(b"\xC41")), (None, Some(vec![]), Some(b"A".to_vec()), Some(b"\xC41".to_vec())));
    }

    #[test]
    fn layouts() {
        let name = |name: &str| Some(Column::Name(name.to_owned()));
        let lay = |text: &str, code: Option<Column>, cuts: Option<Column>| {
            let all: Vec<Record> = records(text.as_bytes(), Separator::of(text.as_bytes())).filter(|record| !record.is_blank()).collect();
            layout(&all, code.as_ref(), cuts.as_ref()).ok()
        };
        let is = |code, cuts, headers| Some(Layout { code, cuts, headers });
        assert_eq!(lay("A;1\nB;2\n", None, None), is(0, 1, 0));
        assert_eq!(lay("Key;Depths\nB;2\n", None, None), is(0, 1, 1));
        assert_eq!(lay("Edition 3\n\nMaker;CUTS; Code\nX;1;B\n", None, None), is(2, 1, 2));
        assert_eq!(lay("X;B;1\n", None, None), None);
        assert_eq!(lay("X;B;1\n", Some(Column::Number(2)), Some(Column::Number(3))), is(1, 2, 0));
        assert_eq!(lay("Nr;Schlüssel;Tiefen\n1;B;1\n", name("schlüssel"), name("TIEFEN")), is(1, 2, 1));
        assert_eq!(lay("Nr;Schlüssel;Tiefen\n1;B;1\n", name("Code"), name("Tiefen")), None);
        assert_eq!(lay("Nr;Schlüssel;cuts\n1;B;1\n", Some(Column::Number(2)), None), is(1, 2, 1));
        assert_eq!(lay("", None, None), is(0, 1, 0));
    }
}
