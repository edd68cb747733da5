//! `stats`, `list` and `sizes`.

use crate::beside::Beside;
use crate::build::{self, listed, shape, share};
use crate::check::{open, refused};
use crate::given::Given;
use crate::input::{self, TREE};
use crate::json::Object;
use crate::manifest::{Figures, Manifest};
use crate::say::{self, grouped};
use crate::Failure;
use codebook::{scan_words, size_bound, Tree};
use std::path::Path;

pub fn stats(given: &Given) -> Result<(), Failure> {
    given.each(|path| {
        let input = input::read(path, &TREE)?;
        let tree = open(&input, false)?;
        let beside = beside(given, path, &input.name, tree);
        let text = match (given.json(), given.words.len() > 1) {
            (true, _) => described(object(&input.name, tree), beside.as_ref()).line(),
            (false, true) => line(&input.name, tree, beside.as_ref()),
            (false, false) => table(&input.name, tree, beside.as_ref()),
        };
        say::print(text.as_bytes())
    })
}

/// The manifest beside a tree. An error in it is reported, and the tree is still described.
fn beside(given: &Given, path: Option<&Path>, name: &str, tree: Tree) -> Option<Beside> {
    let beside = Beside::read(path).map_err(|unusable| unusable.warn(given)).ok()??;
    let difference = beside.manifest.figures.difference(&Figures::of(tree, None));
    if let Some(difference) = difference.filter(|_| !given.quiet()) {
        say::tell(&format!("codebook: {name}: warning: by {} {difference}\n", beside.name()));
    }
    Some(beside)
}

/// The members that the manifest adds to a tree's object.
fn described(object: Object, beside: Option<&Beside>) -> Object {
    let Some(beside) = beside else { return object };
    let Manifest { columns, guide, .. } = &beside.manifest;
    let object = beside.manifest.book(object.text("manifest", &beside.name()));
    let object = columns.map_or(object.clone(), |columns| object.number("columns", columns));
    guide.name.as_ref().map_or(object.clone(), |guide| object.text("guide", guide))
}

/// The manifest, a line for each member.
fn from_manifest(beside: &Beside) -> String {
    let Manifest { maker, edition, columns, guide, .. } = &beside.manifest;
    let escaped = |value: &Option<String>| value.as_ref().map(|value| value.escape_debug().to_string());
    let lines = [
        ("maker", escaped(maker)),
        ("edition", escaped(edition)),
        ("licence", beside.manifest.term().map(|term| term.to_string())),
        ("columns", columns.map(|columns| format!("rows of {} by columns", say::several(columns, "byte")))),
        ("guide", escaped(&guide.name)),
    ];
    let shown = |(what, value): (&str, Option<String>)| value.map(|value| format!("{what:<12}{value}\n"));
    format!("manifest    {}\n", beside.name()) + &lines.into_iter().filter_map(shown).collect::<String>()
}

/// The bytes of each part of a tree.
pub fn parts(tree: Tree) -> [(&'static str, u64); 4] {
    let blocks: u64 = tree.levels().iter().map(|level| u64::from(level.blocks)).sum();
    let settings = tree.settings();
    let edges = if tree.layout() == 2 { blocks * 2 * u64::from(settings.leaf) } else { 0 };
    let records = blocks * (16 + 12 * settings.counted.len() as u64);
    [("header", 100), ("records", records), ("edges", edges), ("leaf bytes", tree.leaf_bytes().into())]
}

/// The size that a tree has without its edges.
pub fn without_edges(tree: Tree) -> u64 {
    parts(tree).iter().filter(|(part, _)| *part != "edges").map(|(_, bytes)| bytes).sum()
}

/// Adds the size without edges to the object of a tree with edges.
pub fn saving(object: Object, tree: Tree) -> Object {
    match tree.layout() {
        2 => object.number("size_without_edges", without_edges(tree)),
        _ => object,
    }
}

/// How often each counted byte occurs.
fn totals(tree: Tree) -> Vec<(u8, u64)> {
    let total = |&byte: &u8| (byte, tree.count(byte, tree.text_length()).map_or(0, |count| count.value));
    tree.settings().counted.iter().map(total).collect()
}

/// The line of one tree of several.
fn line(name: &str, tree: Tree, beside: Option<&Beside>) -> String {
    let rows = tree.row_count().map_or(String::new(), |rows| format!(", {}", say::several(rows, "row")));
    let (size, length) = (tree.size(), tree.text_length());
    let manifest = beside.map(|beside| &beside.manifest);
    let term = manifest.and_then(Manifest::term).map(|term| term.to_string());
    let known: String = manifest.map(Manifest::known).unwrap_or_default().into_iter().chain(term).map(|value| format!("; {value}")).collect();
    format!(
        "{name}: {} bytes, {}; {} bytes of text{rows}; {}{known}\n",
        grouped(size as u64),
        share(size, length as usize),
        grouped(length),
        shape(&tree.settings())
    )
}

fn table(name: &str, tree: Tree, beside: Option<&Beside>) -> String {
    let (settings, length) = (tree.settings(), tree.text_length());
    let mut text = format!("{name}: {} bytes, {}\n", grouped(tree.size() as u64), share(tree.size(), length as usize));
    let edges = if tree.layout() == 2 { "with edges, for short spans in one walk" } else { "without edges" };
    text += &format!("text        {} bytes\nlayout      {}, {edges}\nsettings    {}\n", grouped(length), tree.layout(), shape(&settings));
    for (byte, total) in totals(tree) {
        text += &format!("counted     {byte} '{}': {} times\n", [byte].escape_ascii(), grouped(total));
    }
    if let Ok(rows) = tree.row_count() {
        text += &format!("rows        {}\n", grouped(rows));
    }
    text += &beside.map_or(String::new(), from_manifest);
    text += "the tree's bytes\n";
    for (part, bytes) in parts(tree) {
        text += &format!("  {part:<10}{:>12}  {:>5.1} %\n", grouped(bytes), 100.0 * bytes as f64 / tree.size() as f64);
    }
    if tree.layout() == 2 {
        let size = without_edges(tree);
        text += &format!("without edges {} bytes, {}: codebook slim\n", grouped(size), share(size as usize, length as usize));
    }
    text + &levels(tree)
}

fn levels(tree: Tree) -> String {
    let mut text = "level  block length    blocks      kept  pointing\n".to_owned();
    for (number, level) in tree.levels().iter().enumerate() {
        let kept = level.blocks - level.pointing;
        let (length, blocks) = (grouped(level.block_length), grouped(level.blocks));
        text += &format!("{number:>5}  {length:>12}  {blocks:>8}  {:>8}  {:>8}\n", grouped(kept), grouped(level.pointing));
    }
    text
}

fn object(name: &str, tree: Tree) -> Object {
    let settings = tree.settings();
    let counted = totals(tree).into_iter().map(|(byte, times)| Object::new().number("byte", byte).number("times", times));
    let bytes = parts(tree).iter().fold(Object::new(), |object, (part, bytes)| object.number(&part.replace(' ', "_"), bytes));
    let levels = tree.levels().into_iter().map(|level| {
        let object = Object::new().number("block_length", level.block_length).number("blocks", level.blocks);
        object.number("kept", level.blocks - level.pointing).number("pointing", level.pointing)
    });
    let object = Object::new().text("tree", name).number("size", tree.size()).number("length", tree.text_length()).number("layout", tree.layout());
    let object = object.number("leaf", settings.leaf).number("arity", settings.arity).number("levels", settings.levels);
    let object = object.numbers("counted", &settings.counted).objects("totals", counted);
    let object = tree.row_count().map_or(object.clone(), |rows| object.number("rows", rows));
    saving(object.object("bytes", &bytes).objects("by_level", levels), tree)
}

/// The lines of the list program; one line for each tree if there are several.
pub fn list(given: &Given) -> Result<(), Failure> {
    given.each(|path| {
        let input = input::read(path, &TREE)?;
        let (lines, answer) = codebook::list(&input.bytes);
        if given.json() {
            return answer.map_err(|refusal| refused(&input, refusal)).and_then(|()| say::print(listing(&input.name, &lines).line().as_bytes()));
        }
        let lines = if given.words.len() > 1 { format!("{}: {}\n", input.name, lines.trim_end().replace('\n', " / ")) } else { lines };
        say::print(lines.as_bytes())?;
        answer.map_err(|refusal| refused(&input, refusal))
    })
}

/// The lines of the list program as an object.
fn listing(name: &str, lines: &str) -> Object {
    let level = |line: &str| {
        let figures = ["blocks", "kept", "pointing"].into_iter().zip(line.split(' ').skip(1));
        figures.fold(Object::new(), |object, (figure, number)| object.number(figure, number))
    };
    Object::new().text("tree", name).objects("by_level", lines.lines().map(level))
}

/// The sizes of the buffers that a caller of the library needs.
pub fn sizes(given: &Given) -> Result<(), Failure> {
    let length = given.figure(0)?;
    let counted = build::counted(given)?;
    let settings = build::settings(given, &counted)?.ok_or_else(|| given.usage("--leaf, --arity and --levels are missing"))?;
    let parts = format!("{}; bytes counted: {}", shape(&settings), listed(&counted));
    let tree = size_bound(length as usize, &settings)
        .map_err(|refusal| Failure::library("", refusal, format!("{refusal}; given: {} bytes, {parts}", grouped(length))))?;
    let words = scan_words(length, settings.leaf);
    if given.json() {
        return say::print(Object::new().number("length", length).number("size", tree).number("table_words", words).line().as_bytes());
    }
    say::print(
        format!("a text of {} bytes; {parts}\ntree   at most {} bytes\ntable  {} words\n", grouped(length), grouped(tree), grouped(words)).as_bytes(),
    )
}
