//! Warnings on a book, or on several.

use crate::build::share;
use crate::say::{grouped, several};
use codebook::text_rows;
use std::mem::discriminant;

/// Is a row a key: a code of 1 to 12 bytes without a space, one space, and 1 to 10 digits, the cuts?
fn is_key(row: &[u8]) -> bool {
    let Some(space) = row.iter().position(|&byte| byte == b' ') else {
        return false;
    };
    let (code, cuts) = (&row[..space], &row[space + 1..]);
    (1..=12).contains(&code.len()) && (1..=10).contains(&cuts.len()) && cuts.iter().all(u8::is_ascii_digit)
}

/// A warning on a book or its tree.
#[derive(Clone, Debug, PartialEq, Eq)]
pub enum Warning {
    NoRows,
    ByteOrderMark,
    Uncounted,
    /// How many rows are of another form, the number of the first one, and its first bytes.
    OtherRows(u64, usize, String),
    NoSmaller,
    /// The size that --small would give, and the text's length.
    Small(usize, usize),
}

impl Warning {
    /// The message for one book.
    pub fn words(&self) -> String {
        match self {
            Warning::NoRows => "the book has no rows yet".to_owned(),
            Warning::ByteOrderMark => "the book begins with a byte order mark, which is a part of its first code".to_owned(),
            Warning::Uncounted => "byte 10 is not counted, so no row can be read".to_owned(),
            Warning::OtherRows(rows, first, shown) => {
                let are = if *rows == 1 { "is" } else { "are" };
                format!("{} {are} not code, space, cuts, and no worn key matches there; the first is row {first}: {shown}", several(*rows, "row"))
            }
            Warning::NoSmaller => "the tree is no smaller than the text: the book is short, or repeats itself too little".to_owned(),
            Warning::Small(size, length) => format!("--small would give {} bytes, {}", grouped(*size as u64), share(*size, *length)),
        }
    }

    /// The message for several books, of which `first` is the first; figures are sums over all books.
    fn words_of_several(&self, books: &str, first: &str) -> String {
        match self {
            Warning::NoRows => format!("{books} have no rows yet; the first is {first}"),
            Warning::ByteOrderMark => format!("{books} begin with a byte order mark, which is a part of their first code; the first is {first}"),
            Warning::Uncounted => format!("byte 10 is not counted in {books}, so no row of them can be read; the first is {first}"),
            Warning::OtherRows(rows, row, shown) => format!(
                "{} in {books} are not code, space, cuts, and no worn key matches there; the first is row {row} of {first}: {shown}",
                several(*rows, "row")
            ),
            Warning::NoSmaller => {
                format!(
                    "the trees of {books} are no smaller than their texts, which are short, or repeat themselves too little; the first is {first}"
                )
            }
            Warning::Small(size, length) => {
                format!("--small would give {} bytes for {books}, {}; the first is {first}", grouped(*size as u64), share(*size, *length))
            }
        }
    }

    /// Joins two warnings of one kind: the sums of their rows or bytes.
    fn and(self, other: &Warning) -> Self {
        match (self, other) {
            (Warning::OtherRows(rows, first, shown), Warning::OtherRows(more, ..)) => Warning::OtherRows(rows + more, first, shown),
            (Warning::Small(size, length), Warning::Small(more, longer)) => Warning::Small(size + more, length + longer),
            (same, _) => same,
        }
    }
}

/// Warnings on several books, each after its book's name, in a line for each kind.
pub fn lines(warnings: &[(String, Warning)]) -> Vec<String> {
    let mut kinds: Vec<(u64, &str, Warning)> = Vec::new();
    for (book, warning) in warnings {
        match kinds.iter_mut().find(|(_, _, kind)| discriminant(kind) == discriminant(warning)) {
            Some((books, _, kind)) => (*books, *kind) = (*books + 1, kind.clone().and(warning)),
            None => kinds.push((1, book, warning.clone())),
        }
    }
    let line = |(books, first, warning): (u64, &str, Warning)| match books {
        1 => format!("codebook: {first}: warning: {}\n", warning.words()),
        _ => format!("codebook: warning: {}\n", warning.words_of_several(&several(books, "book"), first)),
    };
    kinds.into_iter().map(line).collect()
}

/// Warnings on a book, and on what a tree of it counts.
pub fn warnings(text: &[u8], counted: &[u8]) -> Vec<Warning> {
    let mut warnings = Vec::new();
    if text.is_empty() {
        warnings.push(Warning::NoRows);
    }
    if [b"\xEF\xBB\xBF".as_slice(), b"\xFF\xFE", b"\xFE\xFF"].iter().any(|mark| text.starts_with(mark)) {
        warnings.push(Warning::ByteOrderMark);
    }
    if !text.is_empty() && !counted.contains(&10) {
        warnings.push(Warning::Uncounted);
    }
    warnings.extend(other_rows(text));
    warnings
}

/// Rows of another form: how many, and the first one.
fn other_rows(text: &[u8]) -> Option<Warning> {
    let mut others = text_rows(text).enumerate().filter(|(_, row)| !is_key(row));
    let (at, first) = others.next()?;
    let number = 1 + others.count() as u64;
    let shown = first[..first.len().min(40)].escape_ascii();
    let more = if first.len() > 40 { ".." } else { "" };
    Some(Warning::OtherRows(number, at + 1, format!("'{shown}{more}'")))
}

#[cfg(test)]
mod tests {
    use super::{lines, warnings, Warning};

    #[test]
    fn warnings_on_a_book() {
        let warnings = |text: &[u8], counted: &[u8]| warnings(text, counted).iter().map(Warning::words).collect::<Vec<_>>();
        assert!(warnings(b"CH0501 1423\nCH0502 1424\r\nX 1", b"\n").is_empty());
        assert_eq!(warnings(b"", b"\n"), ["the book has no rows yet"]);
        assert_eq!(warnings(b"A 1\n", b""), ["byte 10 is not counted, so no row can be read"]);
        assert_eq!(warnings(b"\xEF\xBB\xBFA 1\n", b"\n"), ["the book begins with a byte order mark, which is a part of its first code"]);
        for row in ["A", "A ", " 1", "A  1", "A 1 ", "A 1x", "THIRTEENBYTES 1", "A 12345678901", ""] {
            let text = format!("B 2\n{row}\nC 3\n{row}\n");
            let says = format!("2 rows are not code, space, cuts, and no worn key matches there; the first is row 2: '{row}'");
            assert_eq!(warnings(text.as_bytes(), b"\n"), [says]);
        }
    }

    /// One line for each kind, with the sums of its figures.
    #[test]
    fn several_books() {
        let other = |rows, first| Warning::OtherRows(rows, first, "'x'".to_owned());
        let all = [("a", other(2, 7)), ("a", Warning::Small(30, 40)), ("b", other(1, 1)), ("c", Warning::NoRows), ("c", Warning::Small(20, 60))];
        let all = all.map(|(book, warning)| (book.to_owned(), warning));
        let form = "not code, space, cuts, and no worn key matches there";
        assert_eq!(
            lines(&all),
            [
                format!("codebook: warning: 3 rows in 2 books are {form}; the first is row 7 of a: 'x'\n"),
                "codebook: warning: --small would give 50 bytes for 2 books, 50.0 % of the text; the first is a\n".to_owned(),
                "codebook: c: warning: the book has no rows yet\n".to_owned(),
            ]
        );
        assert!(lines(&[]).is_empty());
    }
}
