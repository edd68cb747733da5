//! `diff`: the rows that two books do not have in common, by code.

use crate::beside::Beside;
use crate::check::{open, refused};
use crate::given::Given;
use crate::input::{self, Input, TREE};
use crate::json::Object;
use crate::manifest::Figures;
use crate::say::{self, grouped, several};
use crate::Failure;
use codebook::{text_rows, Refusal, MAX_TEXT};
use std::collections::{HashMap, VecDeque};
use std::path::Path;

/// A row and its number, from 1.
#[derive(Clone, Copy, Debug, PartialEq, Eq)]
struct Row<'a> {
    number: usize,
    bytes: &'a [u8],
}

impl<'a> Row<'a> {
    /// The bytes before the first space; the whole row if there is none.
    fn code(&self) -> &'a [u8] {
        self.bytes.split(|&byte| byte == b' ').next().unwrap_or_default()
    }
}

/// A row that one book has and the other does not.
#[derive(Debug, PartialEq, Eq)]
enum Change<'a> {
    Removed(Row<'a>),
    Changed(Row<'a>, Row<'a>),
    Added(Row<'a>),
}

pub fn diff(given: &Given) -> Result<(), Failure> {
    let (one, other) = (text(given, given.file(0)).map_err(Failure::with_status_2)?, text(given, given.file(1)).map_err(Failure::with_status_2)?);
    let (old, new) = (rows(&one.bytes), rows(&other.bytes));
    let changes = changes(&old, &new);
    let printed: Vec<u8> = changes.iter().flat_map(|change| if given.json() { change.object().line().into_bytes() } else { change.line() }).collect();
    say::print(&printed)?;
    if given.json() || !given.quiet() {
        say::print(summary(given, (&one, &other), old.len(), &changes).as_bytes())?;
    }
    match changes.is_empty() {
        true => Ok(()),
        false => Err(Failure::reported(1)),
    }
}

/// The text of a tree that the check accepts, or of a book. What begins as a tree, or is named as one, is not taken for a book.
fn text(given: &Given, path: Option<&Path>) -> Result<Input, Failure> {
    let input = input::read(path, &TREE)?;
    if matches!(input.bytes[..], [1 | 2, 0, 0, 0, ..]) || input.name.ends_with(".tree") {
        let beside = Beside::admit(given, path, &input.name)?;
        let tree = open(&input, false)?;
        beside.map_or(Ok(()), |beside| beside.describes(&input.name, &Figures::of(tree, None)))?;
        let bytes = tree.text().map_err(|refusal| refused(&input, refusal))?;
        return Ok(Input { name: input.name, bytes });
    }
    if input.bytes.len() > MAX_TEXT {
        let words = format!("{}; it has {}", Refusal::Text, grouped(input.bytes.len() as u64));
        return Err(Failure::library(&input.name, Refusal::Text, words));
    }
    Ok(input)
}

fn rows(text: &[u8]) -> Vec<Row<'_>> {
    text_rows(text).zip(1..).map(|(bytes, number)| Row { number, bytes }).collect()
}

/// The rows of each book that the other does not have. Equal rows are paired, first those with the same number from the start or from the end, so that
/// of several equal rows the one that was changed is left.
fn unpaired<'a>(old: &[Row<'a>], new: &[Row<'a>]) -> (Vec<Row<'a>>, Vec<Row<'a>>) {
    let (mut old_left, mut new_left) = (vec![true; old.len()], vec![true; new.len()]);
    let mut pair = |one: usize, other: usize| {
        let equal = old_left[one] && new_left[other] && old[one].bytes == new[other].bytes;
        old_left[one] &= !equal;
        new_left[other] &= !equal;
    };
    let shorter = old.len().min(new.len());
    (0..shorter).for_each(|at| pair(at, at));
    (1..=shorter).for_each(|at| pair(old.len() - at, new.len() - at));
    let mut others: HashMap<&[u8], VecDeque<usize>> = HashMap::new();
    for at in (0..new.len()).filter(|&at| new_left[at]) {
        others.entry(new[at].bytes).or_default().push_back(at);
    }
    for (row, left) in old.iter().zip(&mut old_left).filter(|(_, left)| **left) {
        if let Some(at) = others.get_mut(row.bytes).and_then(VecDeque::pop_front) {
            (*left, new_left[at]) = (false, false);
        }
    }
    let rows = |rows: &[Row<'a>], left: &[bool]| rows.iter().zip(left).filter(|(_, left)| **left).map(|(row, _)| *row).collect();
    (rows(old, &old_left), rows(new, &new_left))
}

/// The rows that are removed and changed, in the order of the old book, then those that are added, in the order of the new one. Rows of one code that
/// differ are paired in their order.
fn changes<'a>(old: &[Row<'a>], new: &[Row<'a>]) -> Vec<Change<'a>> {
    let (gone, come) = unpaired(old, new);
    let mut by_code: HashMap<&[u8], VecDeque<Row<'a>>> = HashMap::new();
    for row in &come {
        by_code.entry(row.code()).or_default().push_back(*row);
    }
    let mut paired = vec![false; new.len() + 1];
    let mut changes = Vec::new();
    for row in gone {
        changes.push(match by_code.get_mut(row.code()).and_then(VecDeque::pop_front) {
            Some(other) => {
                paired[other.number] = true;
                Change::Changed(row, other)
            }
            None => Change::Removed(row),
        });
    }
    changes.extend(come.into_iter().filter(|row| !paired[row.number]).map(Change::Added));
    changes
}

impl Change<'_> {
    fn line(&self) -> Vec<u8> {
        let shown = |row: &Row| [format!("row {}: ", row.number).as_bytes(), row.bytes].concat();
        let (word, rows) = match self {
            Change::Removed(row) => ("removed", shown(row)),
            Change::Changed(row, other) => ("changed", [shown(row), b" -> ".to_vec(), shown(other)].concat()),
            Change::Added(row) => ("added", shown(row)),
        };
        [format!("{word:<8}").as_bytes(), &rows, b"\n"].concat()
    }

    fn object(&self) -> Object {
        let shown = |row: &Row| Object::new().number("row", row.number).bytes("text", row.bytes);
        match self {
            Change::Removed(row) => Object::new().text("change", "removed").object("old", &shown(row)),
            Change::Changed(row, other) => Object::new().text("change", "changed").object("old", &shown(row)).object("new", &shown(other)),
            Change::Added(row) => Object::new().text("change", "added").object("new", &shown(row)),
        }
    }
}

/// How many rows are removed, changed, added and the same.
fn summary(given: &Given, (one, other): (&Input, &Input), rows: usize, changes: &[Change]) -> String {
    let many = |is: fn(&Change) -> bool| changes.iter().filter(|change| is(change)).count() as u64;
    let removed = many(|change| matches!(change, Change::Removed(_)));
    let changed = many(|change| matches!(change, Change::Changed(..)));
    let added = many(|change| matches!(change, Change::Added(_)));
    let same = rows as u64 - removed - changed;
    if given.json() {
        let object = Object::new().text("one", &one.name).text("other", &other.name).number("removed", removed).number("changed", changed);
        return object.number("added", added).number("same", same).line();
    }
    let order = match changes.is_empty() && one.bytes != other.bytes {
        true => "; in another order, or with other line ends",
        false => "",
    };
    let several = |number: u64| several(number, "row");
    format!("{} removed, {} changed, {} added, {} the same{order}\n", several(removed), several(changed), several(added), several(same))
}

#[cfg(test)]
mod tests {
    use super::{changes, rows, Change};

    /// A letter for each change, and the rows' numbers.
    fn listed(one: &str, other: &str) -> Vec<String> {
        let (old, new) = (rows(one.as_bytes()), rows(other.as_bytes()));
        let listed = |change: &Change| match change {
            Change::Removed(row) => format!("-{}", row.number),
            Change::Changed(row, other) => format!("{}>{}", row.number, other.number),
            Change::Added(row) => format!("+{}", row.number),
        };
        changes(&old, &new).iter().map(listed).collect()
    }

    #[test]
    fn rows_by_code() {
        assert!(listed("A 1\nB 2\n", "B 2\r\nA 1").is_empty());
        assert_eq!(listed("A 1\nB 2\nC 3\n", "A 1\nC 4\nD 5\n"), ["-2", "3>2", "+3"]);
        // of several rows of a code those that are the same are left out first
        assert_eq!(listed("A 1\nA 2\nA 3\n", "A 2\nA 3\n"), ["-1"]);
        assert_eq!(listed("A 1\nA 2\n", "A 2\nA 3\nA 1\nA 4\n"), ["+2", "+4"]);
        assert_eq!(listed("A 1\nA 1\n", "A 1\n"), ["-2"]);
        // of several equal rows the one that was changed is listed
        assert_eq!(listed("A 1\nB 1\nA 1\nA 1\n", "A 1\nB 1\nA 2\nA 1\n"), ["3>3"]);
        assert_eq!(listed("A 1\nB 1\nA 1\nC 1\n", "A 2\nX 1\nB 1\nA 1\nC 1\n"), ["1>1", "+2"]);
        // a row without a space is its own code
        assert_eq!(listed("title\n 1\n", "Title\n 2\n"), ["-1", "2>2", "+1"]);
        assert!(listed("", "").is_empty());
    }
}
