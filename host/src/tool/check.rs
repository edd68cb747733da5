//! `check` and `verify`: whether a tree is valid, has the expected digests, and is a tree of a given book.

use crate::beside::Beside;
use crate::given::Given;
use crate::guide::check_guide;
use crate::input::{self, Input, GUIDE, TEXT, TREE};
use crate::json::Object;
use crate::manifest::{self, Digests, Figures};
use crate::say::{self, grouped, several};
use crate::sums::{self, Sum};
use crate::table::{Opt, COLUMNS, LIST, SHA256, SUMS, TEXT_SHA256};
use crate::{by_columns, progress, trials, values, Failure};
use codebook::{digest_text, Digest, Refusal, Tree};
use std::os::unix::ffi::OsStrExt;
use std::path::Path;

/// A tree that the check accepts, or with --unchecked any bytes.
pub fn open(input: &Input, unchecked: bool) -> Result<Tree<'_>, Failure> {
    let tree = Tree::unchecked(&input.bytes);
    if unchecked {
        return Ok(tree);
    }
    Tree::checked(&input.bytes).map_err(|refusal| refused(input, refusal))
}

/// Why a tree is refused.
pub fn refused(input: &Input, refusal: Refusal) -> Failure {
    let (tree, length) = (Tree::unchecked(&input.bytes), grouped(input.bytes.len() as u64));
    let hint = match refusal {
        Refusal::Short | Refusal::Input => format!("; it has {length} bytes"),
        Refusal::Layout => format!("; its layout is {}", tree.layout()),
        Refusal::Header => format!("; it has {length} bytes, and by its header {}", grouped(tree.stated_size())),
        _ => String::new(),
    };
    Failure::library(&input.name, refusal, format!("{refusal}{hint}"))
}

pub fn check(given: &Given) -> Result<(), Failure> {
    let (due, text_due) = (expected(given, &SHA256)?, expected(given, &TEXT_SHA256)?);
    match given.path(&LIST) {
        Some(list) => check_listed(given, list),
        None => given.each(|path| check_one(given, path, due, text_due)),
    }
}

/// The trees of a list, each with its digest.
fn check_listed(given: &Given, list: &Path) -> Result<(), Failure> {
    if !given.words.is_empty() || [&SHA256, &TEXT_SHA256, &SUMS].into_iter().any(|option| given.has(option)) {
        return Err(given.usage("-c LIST names the trees and their digests: it cannot be used with TREE, --sha256, --text-sha256 or --sums"));
    }
    let list = input::read(Some(list), &input::LIST)?;
    let sums = sums::read(&list.bytes).map_err(|(line, words)| Failure::file(&format!("{}:{line}", list.name), words))?;
    if sums.is_empty() {
        return Err(Failure::file(&list.name, "names no tree"));
    }
    given.all(sums.iter().map(|Sum { digest, name }| check_one(given, Some(Path::new(name)), Some(*digest), None)))
}

fn check_one(given: &Given, path: Option<&Path>, due: Option<Digest>, text_due: Option<Digest>) -> Result<(), Failure> {
    let input = input::read(path, &TREE)?;
    let tree = open(&input, false)?;
    let digests = Digests::of(tree, &input.bytes).map_err(|refusal| refused(&input, refusal))?;
    for (due, found, what) in [(due, digests.tree, "its SHA-256"), (text_due, digests.text, "the SHA-256 of its text")] {
        differs(&input, what, due, found)?;
    }
    let beside = compared(&input, path, tree, &digests)?.map(|beside| beside.name());
    if given.has(&SUMS) && !given.json() {
        return say::print(&sums::line(&digests.tree, path.map_or(b"-", |path| path.as_os_str().as_bytes())));
    }
    let length = tree.text_length();
    let object = members(Object::new().text("tree", &input.name).flag("good", true).number("length", length), &digests);
    let object = beside.as_ref().map_or(object.clone(), |name| object.text("manifest", name));
    let described = beside.map_or(String::new(), |name| format!("; described by {name}"));
    let Digests { tree: digest, text } = digests;
    let words = format!("{}: valid tree of {} of text; SHA-256 of the tree {digest}, of its text {text}", input.name, several(length, "byte"));
    report(given, &object, &format!("{words}{described}\n"))
}

/// The manifest beside a tree, if there is one and all of it is true of the tree and of its guide.
pub fn compared(input: &Input, path: Option<&Path>, tree: Tree, digests: &Digests) -> Result<Option<Beside>, Failure> {
    let Some(beside) = Beside::read(path).map_err(|unusable| unusable.failure())? else { return Ok(None) };
    beside.describes(&input.name, &Figures::of(tree, Some(digests)))?;
    if let Some(width) = beside.manifest.columns {
        let mismatch = u32::try_from(width).map_err(|_| Refusal::Width).and_then(|width| by_columns::mismatch(tree, width));
        if let Some(words) = mismatch.unwrap_or_else(|refusal| Some(format!("{refusal}; given: {width}"))) {
            return Err(Failure::refused(&input.name, format!("by {} its rows are by columns: {words}", beside.name())));
        }
    }
    compare_guide(&beside, tree)?;
    Ok(Some(beside))
}

/// The guide that a manifest names must exist, have the figures of the manifest, and be the tree's.
fn compare_guide(beside: &Beside, tree: Tree) -> Result<(), Failure> {
    let manifest::Guide { name: Some(name), size, sha256 } = &beside.manifest.guide else { return Ok(()) };
    let guide = input::read(Some(&beside.path.with_file_name(name)), &GUIDE)?;
    let due = Figures { size: *size, sha256: *sha256, ..Figures::default() };
    let found = Figures { size: Some(guide.bytes.len() as u64), sha256: Some(digest_text(&guide.bytes)), ..Figures::default() };
    match due.difference(&found) {
        Some(difference) => Err(Failure::refused(&guide.name, format!("by {} {difference}", beside.name()))),
        None => check_guide(tree, &guide),
    }
}

/// Both digests of a tree, as members of its object.
fn members(object: Object, digests: &Digests) -> Object {
    object.text("sha256", &digests.tree.to_string()).text("text_sha256", &digests.text.to_string())
}

/// The digest that an option gives, of one tree.
fn expected(given: &Given, option: &Opt) -> Result<Option<Digest>, Failure> {
    let Some(word) = given.value(option) else { return Ok(None) };
    if given.words.len() > 1 {
        return Err(given.usage(format!("{} is the digest of one tree", option.long)));
    }
    given.reading(values::digest(option.long, word)).map(Some)
}

/// A failure if a digest is not the expected one.
fn differs(input: &Input, what: &str, due: Option<Digest>, found: Digest) -> Result<(), Failure> {
    match due {
        Some(due) if due != found => Err(Failure::refused(&input.name, format!("valid tree, but {what} is {found}, not {due}"))),
        _ => Ok(()),
    }
}

/// The report of a valid tree.
pub fn report(given: &Given, object: &Object, words: &str) -> Result<(), Failure> {
    match (given.json(), given.quiet()) {
        (true, _) => say::print(object.line().as_bytes()),
        (false, true) => Ok(()),
        (false, false) => say::print(words.as_bytes()),
    }
}

pub fn verify(given: &Given) -> Result<(), Failure> {
    let pairs = given.words.chunks(2);
    match &given.words[..] {
        [book, tree] => verify_one(given, Path::new(book), Path::new(tree)),
        words if words.len() % 2 == 0 => given.all(pairs.map(|pair| verify_one(given, Path::new(&pair[0]), Path::new(&pair[1])))),
        words => Err(given.usage(format!("each BOOK is followed by its TREE; {} files are given", words.len()))),
    }
}

fn verify_one(given: &Given, book: &Path, tree: &Path) -> Result<(), Failure> {
    let book = input::read(Some(book), &TEXT)?;
    let input = input::read(Some(tree), &TREE)?;
    let tree = open(&input, false)?;
    let due = match given.value(&COLUMNS) {
        None => book.bytes.clone(),
        Some(width) => by_columns::turned(&book, given.reading(values::width("--columns", width))?)?.0,
    };
    let text = tree.text().map_err(|refusal| refused(&input, refusal))?;
    if let Some(words) = difference(&due, &text) {
        return Err(Failure::refused(&input.name, format!("not a tree of {}: {words}", book.name)));
    }
    let small = tree.layout() == 1;
    let mut built = false;
    progress::show("trees", &[trials::cost(&due, &tree.settings())], given.quiet(), |_| {
        built = trials::build(&due, &tree.settings(), small).is_ok_and(|built| built == input.bytes);
    });
    let object = Object::new().text("tree", &input.name).text("book", &book.name).flag("good", true).flag("as_built", built);
    let object = members(object, &Digests { tree: digest_text(&input.bytes), text: digest_text(&due) });
    let which = match (built, small) {
        (true, false) => "the block tree",
        (true, true) => "the block tree, without edges,",
        (false, _) => "valid tree, though not the one that build makes,",
    };
    report(given, &object, &format!("{}: {which} of {}, {}\n", input.name, book.name, several(due.len() as u64, "byte")))
}

/// Which byte of a tree's text differs first from the book.
fn difference(book: &[u8], text: &[u8]) -> Option<String> {
    if book == text {
        return None;
    }
    let at = book.iter().zip(text).take_while(|(one, other)| one == other).count();
    let row = 1 + book[..at].iter().filter(|&&byte| byte == 10).count() as u64;
    let shown = |byte: u8| format!("{byte} '{}'", [byte].escape_ascii());
    let differs = match (book.get(at), text.get(at)) {
        (Some(&book), Some(&text)) => format!("the book has {}, the tree {}", shown(book), shown(text)),
        (Some(_), None) => format!("the tree's text ends there, the book has {}", several(book.len() as u64, "byte")),
        _ => format!("the book ends there, the tree's text has {}", several(text.len() as u64, "byte")),
    };
    Some(format!("byte {}, in row {}, differs first: {differs}", grouped(at as u64), grouped(row)))
}

#[cfg(test)]
mod tests {
    use super::difference;

    #[test]
    fn first_differences() {
        let words = |one: &str, other: &str| difference(one.as_bytes(), other.as_bytes());
        assert_eq!(words("A 1\n", "A 1\n"), None);
        assert_eq!(words("A 1\nB 2\n", "A 1\nB 3\n").as_deref(), Some("byte 6, in row 2, differs first: the book has 50 '2', the tree 51 '3'"));
        assert_eq!(words("A 1\n", "A").as_deref(), Some("byte 1, in row 1, differs first: the tree's text ends there, the book has 4 bytes"));
        assert_eq!(words("", "A").as_deref(), Some("byte 0, in row 1, differs first: the book ends there, the tree's text has 1 byte"));
    }
}
