//! Books rearranged by columns, and their trees compared with those by rows.

use crate::build::{self, Built};
use crate::given::Given;
use crate::input::{Input, Source, TEXT};
use crate::json::Object;
use crate::output::{self, Output};
use crate::say::{grouped, several};
use crate::trials::Request;
use crate::values::{self, Width};
use crate::Failure;
use codebook::{row_width, Refusal, Settings, Tree};

/// The tree of the book by rows, to be compared with the one by columns.
pub struct Compared {
    pub width: u32,
    settings: Settings,
    size: usize,
}

impl Compared {
    /// Whether columns make the tree smaller.
    pub fn words(&self, by_columns: usize) -> String {
        let words = if by_columns < self.size { "columns make it smaller" } else { "columns do not make it smaller" };
        format!(
            "by columns {} bytes, by rows {} ({}): {words}\n",
            grouped(by_columns as u64),
            grouped(self.size as u64),
            build::shape(&self.settings)
        )
    }

    /// Is the tree by rows smaller?
    pub fn is_larger(&self, by_columns: usize) -> bool {
        by_columns > self.size
    }

    pub fn members(&self, object: Object) -> Object {
        object.number("columns", self.width).number("size_by_rows", self.size)
    }
}

/// Build the tree of a book by columns, and the one by rows, to report which is smaller.
pub fn build(text: &Input, request: &Request, width: Width) -> Result<Built, Failure> {
    let (turned, width) = turned(text, width)?;
    let plain = build::chosen(&text.name, &text.bytes, request)?;
    let chosen = build::chosen(&text.name, &turned, request)?;
    let rows = several(text.bytes.len() as u64 / u64::from(width), "row");
    let title = format!("{}, {rows} of {width} bytes by columns", text.name);
    let small = build::smaller(&turned, &chosen, request);
    Ok(Built { chosen, title, small, besides: Some(Compared { width, settings: plain.settings, size: plain.tree.len() }) })
}

/// A book by columns, and the width of its rows.
pub fn turned(text: &Input, width: Width) -> Result<(Vec<u8>, u32), Failure> {
    let width = match width {
        Width::Given(width) => width,
        Width::Auto => row_width(&text.bytes).ok_or_else(|| Failure::refused(&text.name, uneven(&text.bytes)))?,
    };
    let turned = codebook::to_columns(&text.bytes, width).map_err(|refusal| refused(refusal, width, text))?;
    match unended(&text.bytes, width) {
        None => Ok((turned, width)),
        Some(words) => Err(Failure::refused(&text.name, words)),
    }
}

pub fn to_columns(given: &Given) -> Result<(), Failure> {
    let width = given.reading(values::width("WIDTH", &given.words[0]))?;
    rearrange(given, |text| turned(text, width))
}

pub fn from_columns(given: &Given) -> Result<(), Failure> {
    let width = given.figure(0)?;
    rearrange(given, |text| {
        let turned = codebook::from_columns(&text.bytes, width).map_err(|refusal| refused(refusal, width, text))?;
        match unended(&turned, width) {
            None => Ok((turned, width)),
            Some(_) => Err(Failure::refused(&text.name, wrong_width(width, turned.len() as u64, ends(&turned)))),
        }
    })
}

fn rearrange(given: &Given, turn: impl Fn(&Input) -> Result<(Vec<u8>, u32), Failure>) -> Result<(), Failure> {
    let source = Source::open(given.file(1))?;
    let output = Output::of(given, &source)?;
    let (name, standard) = (output.name.clone(), output.is_standard());
    let text = source.read(&TEXT)?;
    let (turned, width) = turn(&text)?;
    output.write(&turned)?;
    let object = Object::new().text("book", &text.name).number("length", turned.len()).number("columns", width).text("output", &name);
    output::report(given, standard, &object, "")
}

/// How often byte 10 occurs.
fn ends(text: &[u8]) -> u64 {
    text.iter().filter(|&&byte| byte == 10).count() as u64
}

/// The first row of this width that byte 10 does not end, or ends earlier.
fn unended(text: &[u8], width: u32) -> Option<String> {
    let end = |row: &[u8]| row.iter().position(|&byte| byte == 10).map(|at| at + 1);
    let (at, row) = text.chunks(width as usize).enumerate().find(|(_, row)| end(row) != Some(width as usize))?;
    let why = match end(row) {
        None => "does not end in byte 10".to_owned(),
        Some(length) => format!("has {}, its end included", several(length as u64, "byte")),
    };
    Some(format!("these are not rows of {}: row {} {why}", several(width, "byte"), at + 1))
}

/// Why there is no width that all rows have.
fn uneven(text: &[u8]) -> String {
    let lengths: Vec<usize> = text.split_inclusive(|&byte| byte == 10).map(<[u8]>::len).collect();
    let Some(first) = lengths.first() else { return "the book has no rows, and so no width".to_owned() };
    match lengths.iter().position(|length| length != first) {
        Some(at) => format!(
            "the rows do not all have one width: with its end row 1 has {}, row {} has {}",
            several(*first as u64, "byte"),
            at + 1,
            lengths[at]
        ),
        None => "the last row does not end in byte 10".to_owned(),
    }
}

/// Why a tree's text is no book by columns with this width: byte 10 must fill the last column and occur nowhere else.
pub fn mismatch(tree: Tree, width: u32) -> Result<Option<String>, Refusal> {
    let length = tree.text_length();
    let rows = length.checked_div(width).filter(|_| length % width == 0).ok_or(Refusal::Width)?;
    let count = |place: u32| match tree.settings().counted.contains(&10) {
        true => tree.count(10, place).map(|count| count.value),
        false => tree.span(0, place).map(|span| ends(&span.value)),
    };
    let (all, before) = (count(length)?, count(length - rows)?);
    let fits = all == u64::from(rows) && before == 0;
    Ok((!fits).then(|| wrong_width(width, length.into(), all)))
}

/// The message, with the width of the rows if each byte 10 ends one.
fn wrong_width(width: u32, length: u64, ends: u64) -> String {
    let other = match length.checked_rem(ends) {
        Some(0) => format!("; its {} would end rows of {}", several(ends, "occurrence"), several(length / ends, "byte")),
        _ => String::new(),
    };
    format!("this is no book by columns, of rows of {}: byte 10, which ends a row, is not the last column alone{other}", several(width, "byte"))
}

fn refused(refusal: Refusal, width: u32, text: &Input) -> Failure {
    Failure::library(&text.name, refusal, format!("{refusal}; given: {width}, of {} bytes", grouped(text.bytes.len() as u64)))
}
