//! `slim`: trees without their edges.

use crate::beside::{self, Beside};
use crate::build::{apart, target, Naming};
use crate::check::{open, refused};
use crate::given::Given;
use crate::input::{Input, Source, TREE};
use crate::json::Object;
use crate::manifest::{Digests, Figures, Guide, Manifest};
use crate::output::{report, Output};
use crate::say::{self, grouped};
use crate::table::FORCE;
use crate::Failure;
use codebook::{digest_text, Tree};
use std::path::Path;

/// The names of the trees that are written.
const SMALL: Naming = Naming { replaced: &["tree"], ending: "small.tree" };

pub fn slim(given: &Given) -> Result<(), Failure> {
    apart(given, &SMALL, true)?;
    given.each(|path| slim_one(given, path))
}

fn slim_one(given: &Given, path: Option<&Path>) -> Result<(), Failure> {
    let source = Source::open(path)?;
    let target = target(given, path, &SMALL)?;
    let output = Output::create(target.as_deref(), given.has(&FORCE), &source)?.timed(given, &source)?;
    let beside = Beside::read(path).map_err(|unusable| unusable.failure())?;
    let manifest = match (&beside, &target) {
        (Some(_), Some(target)) if output.is_file() => Some(output.beside(&beside::path(target), given, &source)?),
        _ => None,
    };
    let input = source.read(&TREE)?;
    let tree = open(&input, false)?;
    let digests = Digests::of(tree, &input.bytes).map_err(|refusal| refused(&input, refusal))?;
    let small = tree.without_edges().map_err(|refusal| refused(&input, refusal))?;
    let written = Digests { tree: digest_text(&small), text: digests.text };
    match (&beside, &target) {
        (Some(beside), _) => beside.describes(&input.name, &Figures::of(tree, Some(&digests)))?,
        (None, Some(target)) => Beside::not_left(target, Tree::unchecked(&small), &small)?,
        (None, None) => {}
    }
    let manifest = manifest.zip(beside.as_ref()).map(|(mut output, beside)| {
        output.fill(carried(beside, Tree::unchecked(&small), &written).line().as_bytes())?;
        Ok(output)
    });
    let manifest = manifest.transpose()?;
    let lost = beside.as_ref().filter(|_| !given.quiet()).and_then(|beside| not_carried(beside, manifest.is_some()));
    write(given, &input, &small, &written, output, manifest)?;
    if tree.layout() == 1 && !given.quiet() {
        say::tell(&format!("codebook: {}: warning: it has no edges already, and was copied\n", input.name));
    }
    lost.iter().for_each(|words| say::tell(words));
    Ok(())
}

/// The manifest of the new tree: the old one's values for the book, and the figures of the new tree.
fn carried(beside: &Beside, small: Tree, digests: &Digests) -> Manifest {
    Manifest { figures: Figures::of(small, Some(digests)), guide: Guide::default(), others: Vec::new(), ..beside.manifest.clone() }
}

/// The members that the new manifest does not take over, since they may be about the old tree.
fn not_carried(beside: &Beside, written: bool) -> Option<String> {
    let Manifest { guide, others, .. } = &beside.manifest;
    let names = guide.name.iter().map(|_| "guide").chain(others.iter().map(|(name, _)| name.as_str()));
    let words = match (written, names.map(|name| format!("'{}'", name.escape_debug())).collect::<Vec<_>>()) {
        (false, _) => "no manifest is written beside what is no file".to_owned(),
        (true, names) if names.is_empty() => return None,
        (true, names) => format!("not carried over to the new manifest: {}", names.join(", ")),
    };
    Some(format!("codebook: {}: warning: {words}\n", beside.name()))
}

/// Write the tree, then the report, to the stream that the tree does not go to.
fn write(given: &Given, input: &Input, small: &[u8], digests: &Digests, mut output: Output, manifest: Option<Output>) -> Result<(), Failure> {
    let (name, standard) = (output.name.clone(), output.is_standard());
    let beside = manifest.as_ref().map(|output| output.name.clone());
    output.fill(small)?;
    output.finish(manifest)?;
    let Digests { tree, text } = digests;
    let object = Object::new().text("tree", &input.name).number("size", input.bytes.len());
    let object = object.text("written", &name).number("written_size", small.len());
    let object = object.text("sha256", &tree.to_string()).text("text_sha256", &text.to_string());
    let object = beside.as_ref().map_or(object.clone(), |name| object.text("manifest", name));
    let share = 100.0 * small.len() as f64 / input.bytes.len() as f64;
    let sizes = format!("{name}: {} bytes, {share:.1} % of {}", grouped(small.len() as u64), input.name);
    let beside = beside.map_or(String::new(), |name| format!("; manifest {name}"));
    report(given, standard, &object, &format!("{sizes}; SHA-256 of the tree {tree}, of its text {text}{beside}\n"))
}
