//! The questions about one tree.

use crate::beside::Beside;
use crate::check::open;
use crate::given::Given;
use crate::guide::check_guide;
use crate::input::{self, GUIDE, TREE};
use crate::json::Object;
use crate::lines::Lines;
use crate::manifest::Figures;
use crate::say::{self, several};
use crate::table::{self, AFTER, FROM, ROW_COLUMNS, UNCHECKED};
use crate::{by_columns, reasons, values, Failure};
use codebook::{text_rows, Answer, Range, Refusal, Tree};

/// A question.
#[derive(Clone, Debug, PartialEq, Eq)]
pub enum Question {
    /// The first and the last row, from 1; without a last one, the book's last row.
    Rows(u32, Option<u32>),
    /// The same for a book by columns, with the width of its rows.
    ColumnRows(u32, Option<u32>, u32),
    Byte(u32),
    Run(u32),
    Span(u32, u32),
    Count(u8, u32),
    Find(u8, u32),
    Places(Vec<u8>),
    /// The ranges, and the mark to start from.
    Match(Vec<Range>, u32),
    /// The first match alone.
    Next(Vec<Range>, u32),
    Text,
}

/// The output: text, or objects for programs.
struct Page {
    json: bool,
    bytes: Vec<u8>,
    /// Rows that match.
    lines: Lines,
}

impl Page {
    /// Add a part of an answer.
    fn add(&mut self, plain: impl AsRef<[u8]>, object: impl FnOnce() -> Object) {
        match self.json {
            true => self.bytes.extend_from_slice(object().line().as_bytes()),
            false => self.bytes.extend_from_slice(plain.as_ref()),
        }
    }

    /// A figure, first on its line, and the blocks entered for it.
    fn figure(&mut self, figure: &str, entered: u32, object: Object) {
        self.add(format!("{figure} ({} entered)\n", several(entered, "block")), || object.number("entered", entered));
    }

    fn row(&mut self, q: u32, row: &[u8]) {
        self.add(row, || Object::new().number("row", q).bytes("text", row));
        self.end_line();
    }

    /// An object ends its line itself.
    fn end_line(&mut self) {
        if !self.json {
            self.bytes.push(b'\n');
        }
    }

    fn is_empty(&self) -> bool {
        self.bytes.is_empty() && self.lines.is_empty()
    }

    fn print(self) -> Result<(), Failure> {
        self.lines.finish()?;
        say::print(&self.bytes)
    }
}

/// Answer the question of the call.
pub fn ask(given: &Given) -> Result<(), Failure> {
    let question = Question::of(given)?;
    let unchecked = given.has(&UNCHECKED);
    let file = given.command.words.iter().position(|word| word.name == "TREE").and_then(|at| given.file(at));
    let input = input::read(file, &TREE)?;
    let guide = given.path(&table::GUIDE).map(|path| input::read(Some(path), &GUIDE)).transpose()?;
    let beside = Beside::admit(given, file, &input.name)?;
    let tree = open(&input, unchecked)?;
    if let Some(beside) = beside.as_ref().filter(|_| !unchecked) {
        question.fits(beside, &input.name, tree)?;
    }
    if let Some(guide) = guide.as_ref().filter(|_| !unchecked) {
        check_guide(tree, guide)?;
    }
    let guide = guide.as_ref().map(|guide| guide.bytes.as_slice());
    let mut page = Page { json: given.json(), bytes: Vec::new(), lines: Lines::new(given.json()) };
    let failure = |refusal: Refusal| reasons::failure(&input.name, refusal, &question, tree);
    if let Some(words) = question.mismatch(tree).map_err(failure)? {
        return Err(reasons::refused(&input.name, &question, &words));
    }
    question.answer(tree, guide, &mut page).map_err(failure)?;
    match question.nothing() {
        Some(_) if page.is_empty() && given.quiet() => Err(Failure::reported(1)),
        Some(words) if page.is_empty() => Err(Failure::nothing(&input.name, words)),
        _ => page.print(),
    }
}

impl Question {
    fn of(given: &Given) -> Result<Self, Failure> {
        let word = |at: usize| given.words[at].as_os_str();
        Ok(match given.command.name {
            "row" => Question::rows(given)?,
            "byte" => Question::Byte(given.figure(0)?),
            "run" => Question::Run(given.figure(0)?),
            "span" => Question::Span(given.figure(0)?, given.figure(1)?),
            "count" => Question::Count(given.reading(values::byte(word(0)))?, given.figure(1)?),
            "find" => Question::Find(given.reading(values::byte(word(0)))?, given.figure(1)?),
            "places" => Question::Places(given.reading(values::pattern(word(0)))?),
            "match" => Question::matching(given)?,
            _ => Question::Text,
        })
    }

    fn rows(given: &Given) -> Result<Self, Failure> {
        let (first, last) = given.reading(values::rows(&given.words[0]))?;
        match given.number(&ROW_COLUMNS)? {
            Some(_) if given.has(&table::GUIDE) => Err(given.usage("--guide cannot be used with --columns")),
            Some(width) => Ok(Question::ColumnRows(first, last, width)),
            None => Ok(Question::Rows(first, last)),
        }
    }

    fn matching(given: &Given) -> Result<Self, Failure> {
        let ranges = given.reading(values::cuts(&given.words[0]))?;
        match (given.number(&FROM)?, given.number(&AFTER)?) {
            (Some(_), Some(_)) => Err(given.usage("--from cannot be used with --after")),
            (_, Some(mark)) => Ok(Question::Next(ranges, mark)),
            (from, None) => Ok(Question::Match(ranges, from.unwrap_or(1).saturating_sub(1))),
        }
    }

    /// The message if a search finds nothing; None for a question that is not a search.
    fn nothing(&self) -> Option<String> {
        match self {
            Question::Places(pattern) => Some(format!("'{}' does not occur", pattern.escape_ascii())),
            Question::Match(..) | Question::Next(..) => Some("no row matches".to_owned()),
            _ => None,
        }
    }

    /// A failure if the tree does not agree with its manifest, or if the manifest says that rows are read in another way.
    fn fits(&self, beside: &Beside, name: &str, tree: Tree) -> Result<(), Failure> {
        beside.describes(name, &Figures::of(tree, None))?;
        let other = match self {
            Question::ColumnRows(_, _, width) => beside.other_width(Some(*width)),
            Question::Rows(..) | Question::Match(..) | Question::Next(..) => beside.other_width(None),
            _ => None,
        };
        other.map_or(Ok(()), |words| Err(reasons::refused(name, self, &words)))
    }

    /// Why the question does not apply to the tree.
    fn mismatch(&self, tree: Tree) -> Result<Option<String>, Refusal> {
        match *self {
            Question::ColumnRows(_, _, width) => by_columns::mismatch(tree, width),
            _ => Ok(None),
        }
    }

    fn answer(&self, tree: Tree, guide: Option<&[u8]>, page: &mut Page) -> Result<(), Refusal> {
        match *self {
            Question::Rows(first, Some(last)) if first == last => page.row(first, &one_row(tree, guide, first)?),
            Question::Rows(first, last) => {
                let last = last.map_or_else(|| to_the_end(first, tree.row_count()?).ok_or(Refusal::NoSuch), Ok)?;
                let text = rows_between(tree, guide, first, last)?;
                text_rows(&text).zip(first..).for_each(|(row, q)| page.row(q, row));
            }
            Question::ColumnRows(first, last, width) => {
                let rows = tree.text_length().checked_div(width).ok_or(Refusal::Width)?;
                let last = last.map_or_else(|| to_the_end(first, rows.into()).ok_or(Refusal::Place), Ok)?;
                (first..=last).try_for_each(|q| row_by_columns(tree, width, q).map(|row| page.row(q, &row)))?;
            }
            Question::Places(ref pattern) => {
                tree.places(pattern)?.into_iter().for_each(|place| page.add(format!("{place}\n"), || Object::new().number("place", place)));
            }
            Question::Match(ref ranges, mark) => tree.each_match(ranges, mark, |q, row| page.lines.add(q, row))?,
            Question::Next(ref ranges, mut mark) => {
                if let Some(q) = tree.next_match(ranges, &mut mark)? {
                    page.lines.add(q, &one_row(tree, None, q)?);
                }
            }
            _ => self.figures(tree, guide, page)?,
        }
        Ok(())
    }

    /// The answer of a question that has one.
    fn figures(&self, tree: Tree, guide: Option<&[u8]>, page: &mut Page) -> Result<(), Refusal> {
        match *self {
            Question::Byte(place) => {
                let Answer { value, entered } = tree.byte(place)?;
                let object = Object::new().number("place", place).number("byte", value);
                page.figure(&format!("{value} '{}'", [value].escape_ascii()), entered, object);
            }
            Question::Run(place) => {
                let (offset, run) = tree.run_range(place)?;
                let object = || Object::new().number("place", place).number("offset", offset).number("length", run.len()).bytes("text", run);
                page.add(format!("offset {offset}, {}: '{}'\n", several(run.len() as u64, "byte"), run.escape_ascii()), object);
            }
            Question::Span(place, length) => {
                let Answer { value, entered } = tree.span(place, length)?;
                let object = || Object::new().number("place", place).number("length", length).bytes("text", &value).number("entered", entered);
                page.add(&value, object);
            }
            Question::Count(byte, length) => {
                let Answer { value, entered } = tree.count(byte, length)?;
                page.figure(&value.to_string(), entered, Object::new().number("byte", byte).number("length", length).number("count", value));
            }
            Question::Find(byte, number) => found(tree, guide, byte, number, page)?,
            _ if page.json => {
                let text = tree.text()?;
                page.add("", || Object::new().number("length", text.len()).bytes("text", &text));
            }
            // a long text is not copied
            _ => page.bytes = tree.text()?,
        }
        Ok(())
    }
}

/// The last row of a book with this number of rows, if the first row given is one of them; the range 1.. of a book without rows is empty.
fn to_the_end(first: u32, rows: u64) -> Option<u32> {
    let last = u32::try_from(rows).unwrap_or(u32::MAX);
    (first <= last.max(1)).then_some(last)
}

fn one_row(tree: Tree, guide: Option<&[u8]>, q: u32) -> Result<Vec<u8>, Refusal> {
    guide.map_or_else(|| tree.row(q), |guide| tree.row_guided(guide, q))
}

/// The text from the first row to the last, ends included, by two finds and one span rather than two finds for each row.
fn rows_between(tree: Tree, guide: Option<&[u8]>, first: u32, last: u32) -> Result<Vec<u8>, Refusal> {
    let (length, rows) = (tree.text_length(), tree.row_count()?);
    // all rows of a book that has none
    if last < first {
        return Ok(Vec::new());
    }
    if first == 0 || u64::from(last) > rows {
        return Err(Refusal::NoSuch);
    }
    let after = |number: u32| match guide {
        None => tree.find(10, number).map(|found| found.value + 1),
        Some(guide) => tree.find_guided(guide, 10, number).map(|found| found.place + 1),
    };
    let start = if first == 1 { 0 } else { after(first - 1)? };
    let end = if u64::from(last) <= tree.count(10, length)?.value { after(last)? } else { length };
    tree.span(start, end.checked_sub(start).ok_or(Refusal::Path)?).map(|span| span.value)
}

/// Row `q`, from 1, of a book by columns, without its end: byte 10, and one byte 13 directly before it.
fn row_by_columns(tree: Tree, width: u32, q: u32) -> Result<Vec<u8>, Refusal> {
    let a = q.checked_sub(1).ok_or(Refusal::Place)?;
    let mut row = tree.row_by_columns(width, a)?;
    let end = match row[..] {
        [.., 13, 10] => 2,
        [.., 10] => 1,
        _ => 0,
    };
    row.truncate(row.len() - end);
    Ok(row)
}

fn found(tree: Tree, guide: Option<&[u8]>, byte: u8, number: u32, page: &mut Page) -> Result<(), Refusal> {
    let object = |place: u32| Object::new().number("byte", byte).number("number", number).number("place", place);
    let Some(guide) = guide else {
        let Answer { value, entered } = tree.find(byte, number)?;
        page.figure(&value.to_string(), entered, object(value));
        return Ok(());
    };
    let found = tree.find_guided(guide, byte, number)?;
    let (blocks, steps) = (several(found.entered, "block"), several(found.steps, "step"));
    let object = || object(found.place).number("entered", found.entered).number("steps", found.steps);
    page.add(format!("{} ({blocks} entered, {steps} on level 0)\n", found.place), object);
    Ok(())
}
