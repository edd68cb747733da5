//! `code`: the rows of a key code, in one or several books.

use crate::beside::Beside;
use crate::check::{open, refused};
use crate::given::Given;
use crate::input::{self, Input, GUIDE, TREE};
use crate::json::Object;
use crate::manifest::{Figures, Manifest};
use crate::table::{self, PREFIX, UNCHECKED};
use crate::{say, values, Failure};
use codebook::{Refusal, Tree};
use std::path::Path;

/// After this many rows a guide is made for the others: it takes about as long as the finds of some hundred rows.
const ROWS_WITHOUT_GUIDE: usize = 256;

pub fn code(given: &Given) -> Result<(), Failure> {
    let prefix = prefix(given)?;
    let trees: Vec<Option<&Path>> = match given.words.len() {
        1 => vec![None],
        words => (1..words).map(|at| given.file(at)).collect(),
    };
    if trees.len() > 1 && given.has(&table::GUIDE) {
        return Err(given.usage("--guide is the guide of one tree"));
    }
    let (mut found, mut worst) = (false, 0);
    for path in &trees {
        match rows(given, &prefix, *path) {
            Ok(some) => found |= some,
            Err(failure) if trees.len() == 1 => return Err(failure),
            Err(failure) => {
                failure.tell(given.json());
                worst = worst.max(failure.status());
            }
        }
    }
    match (worst, found) {
        (0, true) => Ok(()),
        (0, false) if given.quiet() => Err(Failure::reported(1)),
        (0, false) => Err(Failure::nothing(&only(&trees), format!("no row starts with '{}'", prefix.escape_ascii()))),
        (worst, _) => Err(Failure::reported(worst)),
    }
}

/// The name of a single tree; empty for several.
fn only(trees: &[Option<&Path>]) -> String {
    match trees {
        [Some(path)] if *path != Path::new("-") => path.to_string_lossy().into_owned(),
        [_] => "standard input".to_owned(),
        _ => String::new(),
    }
}

/// The bytes that a row must begin with: a code and the space after it, or the beginning of a row.
fn prefix(given: &Given) -> Result<Vec<u8>, Failure> {
    let mut prefix = given.reading(values::pattern(&given.words[0]))?;
    if given.has(&PREFIX) {
        return Ok(prefix);
    }
    if prefix.is_empty() {
        return Err(given.usage("CODE is empty"));
    }
    prefix.push(b' ');
    Ok(prefix)
}

/// Print the rows of one tree. Returns whether there are any.
fn rows(given: &Given, prefix: &[u8], path: Option<&Path>) -> Result<bool, Failure> {
    let unchecked = given.has(&UNCHECKED);
    let input = input::read(path, &TREE)?;
    let guide = given.path(&table::GUIDE).map(|path| input::read(Some(path), &GUIDE)).transpose()?;
    let beside = Beside::admit(given, path, &input.name)?;
    let tree = open(&input, unchecked)?;
    if let Some(beside) = beside.as_ref().filter(|_| !unchecked) {
        beside.describes(&input.name, &Figures::of(tree, None))?;
        beside.other_width(None).map_or(Ok(()), |words| Err(Failure::refused(&input.name, format!("code: {words}"))))?;
    }
    if let Some(guide) = guide.as_ref().filter(|_| !unchecked) {
        tree.check_guide(&guide.bytes).map_err(|refusal| refused(guide, refusal))?;
    }
    let book = Book { name: &input.name, manifest: beside.map(|beside| beside.manifest).unwrap_or_default() };
    let mut guide = guide.map(|guide| guide.bytes);
    let (mut mark, mut found) = (0, 0);
    let (mut printed, mut buffer) = (Vec::new(), Vec::new());
    while let Some(q) = next(tree, guide.as_deref(), prefix, &mut mark).map_err(|refusal| failure(&input, refusal, prefix))? {
        let row = tree.read_row(guide.as_deref(), q, &mut buffer).map_err(|refusal| failure(&input, refusal, prefix))?;
        book.print(given.json(), q, row, &mut printed);
        found += 1;
        if found == ROWS_WITHOUT_GUIDE && guide.is_none() {
            guide = tree.make_guide().ok();
        }
    }
    say::print(&printed).map(|()| found > 0)
}

fn next(tree: Tree, guide: Option<&[u8]>, prefix: &[u8], mark: &mut u32) -> Result<Option<u32>, Refusal> {
    match guide {
        None => tree.next_with_prefix(prefix, mark),
        Some(guide) => tree.next_with_prefix_guided(guide, prefix, mark),
    }
}

/// A book as its rows are printed.
struct Book<'a> {
    name: &'a str,
    manifest: Manifest,
}

impl Book<'_> {
    fn print(&self, json: bool, q: u32, row: &[u8], printed: &mut Vec<u8>) {
        if json {
            let object = Object::new().text("tree", self.name).number("row", q).bytes("text", row);
            printed.extend(self.manifest.book(object).line().into_bytes());
            return;
        }
        let known = self.manifest.known();
        let known = if known.is_empty() { String::new() } else { format!(" ({})", known.join(", ")) };
        printed.extend(format!("{}{known}: row {q}: ", self.name).into_bytes());
        printed.extend([row, b"\n"].concat());
    }
}

/// Why a search was refused.
fn failure(input: &Input, refusal: Refusal, prefix: &[u8]) -> Failure {
    let why = match refusal {
        Refusal::NotCounted => Some("the tree does not count byte 10, which ends a row; build must count it".to_owned()),
        Refusal::Pattern => Some(format!("a prefix of a row must have 1 to 256 bytes; this one has {}", say::grouped(prefix.len() as u64))),
        _ => None,
    };
    let words = why.map_or_else(|| refusal.to_string(), |why| format!("refused ({}): {why}", refusal.number()));
    Failure::library(&input.name, refusal, format!("code: {words}"))
}
