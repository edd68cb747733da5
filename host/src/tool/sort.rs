//! Two trees compared by their books, and several sorted, in lexicographic order.

use crate::check::{open, refused};
use crate::given::Given;
use crate::input::{self, Input, TREE};
use crate::json::Object;
use crate::say::{self, several};
use crate::table::UNCHECKED;
use crate::Failure;
use codebook::Tree;
use std::cmp::Ordering;
use std::ffi::OsString;
use std::os::unix::ffi::OsStrExt;
use std::path::Path;

/// Print whether one tree's book comes before the other's.
pub fn compare(given: &Given) -> Result<(), Failure> {
    let inputs = (input::read(given.file(0), &TREE)?, input::read(given.file(1), &TREE)?);
    let unchecked = given.has(&UNCHECKED);
    let trees = (open(&inputs.0, unchecked)?, open(&inputs.1, unchecked)?);
    let (one, other) = (&inputs.0.name, &inputs.1.name);
    let both = Input { name: format!("{one} and {other}"), bytes: Vec::new() };
    let compared = trees.0.compare(&trees.1).map_err(|refusal| refused(&both, refusal))?;
    let (comes, order) = match compared.ordering {
        Ordering::Less => ("comes before", "before"),
        Ordering::Equal => ("has the same book as", "same"),
        Ordering::Greater => ("comes after", "after"),
    };
    if given.json() {
        let object = Object::new().text("one", one).text("other", other).text("order", order).number("shared", compared.shared);
        return say::print(object.line().as_bytes());
    }
    say::print(format!("{one} {comes} {other}; {} shared\n", several(compared.shared, "byte")).as_bytes())
}

/// Print the names of trees, as they were given, in the order of their books, one a line. Trees of the same book keep the order given. Refused trees are
/// reported.
pub fn sort(given: &Given) -> Result<(), Failure> {
    let mut inputs = Vec::new();
    let read = given.words.iter().map(|path| {
        let input = input::read(Some(Path::new(path)), &TREE)?;
        open(&input, false)?;
        inputs.push((path, input));
        Ok(())
    });
    let all = match given.words.len() {
        1 => read.collect::<Result<(), Failure>>(),
        _ => given.all(read),
    };
    inputs.sort_by(|(_, one), (_, other)| ordering(one, other));
    let line = |(path, input): &(&OsString, Input)| match given.json() {
        true => Object::new().text("tree", &input.name).line().into_bytes(),
        false => [path.as_bytes(), b"\n"].concat(),
    };
    say::print(&inputs.iter().flat_map(line).collect::<Vec<u8>>())?;
    all
}

/// Trees that the check accepts are never refused, and this is a total order on them.
fn ordering(one: &Input, other: &Input) -> Ordering {
    let compared = Tree::unchecked(&one.bytes).compare(&Tree::unchecked(&other.bytes));
    compared.map_or(Ordering::Equal, |compared| compared.ordering)
}
