//! Why a question was refused, with its values.

use crate::questions::Question;
use crate::say::{grouped, several};
use crate::Failure;
use codebook::{Range, Refusal, Tree};

/// The question, and which values are valid.
pub fn failure(name: &str, refusal: Refusal, question: &Question, tree: Tree) -> Failure {
    let asked = asked(question).map_or(String::new(), |words| format!("{words}: "));
    let why = match why(refusal, question, tree) {
        Some(words) => format!("refused ({}): {words}", refusal.number()),
        None => refusal.to_string(),
    };
    Failure::library(name, refusal, format!("{asked}{why}"))
}

/// The question, and why the tool does not call the library.
pub fn refused(name: &str, question: &Question, words: &str) -> Failure {
    let asked = asked(question).map_or(String::new(), |words| format!("{words}: "));
    Failure::refused(name, format!("{asked}{words}"))
}

/// The question in words.
fn asked(question: &Question) -> Option<String> {
    let rows = |first: &u32, last: &Option<u32>| match last {
        Some(last) if first == last => format!("row {first}"),
        Some(last) => format!("row {first}..{last}"),
        None => format!("row {first}.."),
    };
    match question {
        Question::Rows(first, last) => Some(rows(first, last)),
        Question::ColumnRows(first, last, width) => Some(format!("{} --columns {width}", rows(first, last))),
        Question::Byte(place) => Some(format!("byte {place}")),
        Question::Run(place) => Some(format!("run {place}")),
        Question::Span(place, length) => Some(format!("span {place} {length}")),
        Question::Count(byte, length) => Some(format!("count {} {length}", typed(*byte))),
        Question::Find(byte, number) => Some(format!("find {} {number}", typed(*byte))),
        Question::Places(_) => Some("places".to_owned()),
        Question::Match(..) | Question::Next(..) => Some("match".to_owned()),
        Question::Text => None,
    }
}

/// A byte as a call takes it.
pub fn typed(byte: u8) -> String {
    match byte {
        b'!'..=b'~' => char::from(byte).to_string(),
        _ => format!("0x{byte:02x}"),
    }
}

/// Several bytes, as a call takes them.
pub fn all_typed(bytes: &[u8]) -> String {
    if bytes.is_empty() {
        return "none".to_owned();
    }
    bytes.iter().map(|&byte| typed(byte)).collect::<Vec<_>>().join(", ")
}

fn why(refusal: Refusal, question: &Question, tree: Tree) -> Option<String> {
    let length = tree.text_length();
    match (refusal, question) {
        (Refusal::NoSuch, Question::Rows(..)) => tree.row_count().ok().map(|rows| numbers("rows", rows, "the book has no rows")),
        (Refusal::Place, Question::ColumnRows(_, _, width)) => {
            Some(numbers(&format!("rows of {width} bytes"), (length / width).into(), "the book has no rows"))
        }
        (Refusal::NoSuch, Question::Find(byte, _)) => Some(total(tree, *byte)),
        (Refusal::Place, Question::Byte(_) | Question::Run(_)) if length > 0 => Some(format!("places go from 0 to {}", grouped(length - 1))),
        (Refusal::Place, _) => Some(format!("this is past the end of the text; the text has {}", several(length, "byte"))),
        (Refusal::Width, _) => Some(format!("the width must be above 0 and divide the text's length, {}", grouped(length))),
        (Refusal::NotCounted, Question::Rows(..) | Question::Match(..) | Question::Next(..)) => {
            Some("the tree does not count byte 10, which ends a row; build must count it".to_owned())
        }
        (Refusal::NotCounted, _) => Some(format!("the tree does not count this byte; it counts: {}", all_typed(&tree.settings().counted))),
        (Refusal::Ranges, Question::Match(ranges, _) | Question::Next(ranges, _)) => Some(wrong_range(ranges)),
        (Refusal::Pattern, Question::Places(pattern)) => {
            Some(format!("a pattern must have 1 to 256 bytes; this one has {}", grouped(pattern.len() as u64)))
        }
        _ => None,
    }
}

/// The range from 1 to the last, in words.
fn numbers(what: &str, last: u64, none: &str) -> String {
    match last {
        0 => none.to_owned(),
        last => format!("{what} go from 1 to {}", grouped(last)),
    }
}

fn total(tree: Tree, byte: u8) -> String {
    let total = tree.count(byte, tree.text_length()).map_or(0, |count| count.value);
    match total {
        0 => format!("byte {byte} does not occur in the text"),
        total => format!("byte {byte} occurs {}", several(total, "time")),
    }
}

/// What is wrong with the ranges of a worn key.
fn wrong_range(ranges: &[Range]) -> String {
    match ranges.iter().find(|range| range.low > range.high) {
        Some(range) => format!("the low depth of a cut must not be above the high one, as {}-{} is", range.low, range.high),
        None => format!("a worn key has 1 to 10 cuts; this one has {}", ranges.len()),
    }
}
