//! `guide make` and `guide check`.

use crate::beside::Beside;
use crate::build::spelled_out;
use crate::check::{open, refused, report};
use crate::given::Given;
use crate::input::{self, Input, Source, GUIDE, TREE};
use crate::json::Object;
use crate::manifest::{self, Figures};
use crate::output::{self, Output};
use crate::say::{self, grouped, several};
use crate::table::OUTPUT;
use crate::Failure;
use codebook::{digest_text, Tree};
use std::ffi::OsStr;
use std::path::Path;

pub fn make(given: &Given) -> Result<(), Failure> {
    let source = Source::open(given.file(0))?;
    let output = Output::of(given, &source)?;
    let beside = Beside::read(given.file(0)).map_err(|unusable| unusable.failure())?;
    let name = given.file(0).and_then(|tree| name_beside(tree, given.path(&OUTPUT).filter(|_| output.is_file())?));
    let manifest = match (&beside, &name) {
        (Some(beside), Some(_)) => Some(Output::create(Some(&beside.path), true, &source)?),
        _ => None,
    };
    let input = source.read(&TREE)?;
    let tree = open(&input, false)?;
    beside.as_ref().map_or(Ok(()), |beside| beside.describes(&input.name, &Figures::of(tree, None)))?;
    let guide = tree.make_guide().map_err(|refusal| refused(&input, refusal))?;
    let (written, standard) = (output.name.clone(), output.is_standard());
    output.write(&guide)?;
    if let Some(beside) = beside {
        enter(given, beside, manifest.zip(name), &guide)?;
    }
    let entries = guide.len() as u64 / 4;
    let words = format!("{}: a guide of {} to {written}\n", input.name, several(entries, "entry"));
    output::report(given, standard, &Object::new().text("tree", &input.name).text("guide", &written).number("entries", entries), &words)
}

/// The name of a guide that is in the tree's folder.
fn name_beside(tree: &Path, guide: &Path) -> Option<String> {
    let folder = |path: &Path| spelled_out(path).parent().map(Path::to_path_buf);
    let name = guide.file_name().and_then(OsStr::to_str).filter(|_| folder(tree) == folder(guide));
    name.map(str::to_owned)
}

/// Enter the guide into the tree's manifest, whose other members stay as they are.
fn enter(given: &Given, mut beside: Beside, place: Option<(Output, String)>, guide: &[u8]) -> Result<(), Failure> {
    let Some((output, name)) = place else {
        if !given.quiet() {
            say::tell(&format!("codebook: {}: warning: left as it is: it names a guide beside the tree alone\n", beside.name()));
        }
        return Ok(());
    };
    beside.manifest.guide = manifest::Guide { name: Some(name), size: Some(guide.len() as u64), sha256: Some(digest_text(guide)) };
    output.write(beside.manifest.line().as_bytes())
}

pub fn check(given: &Given) -> Result<(), Failure> {
    let guide = input::read(given.file(0), &GUIDE)?;
    let input = input::read(given.file(1), &TREE)?;
    check_guide(open(&input, false)?, &guide)?;
    let object = Object::new().text("tree", &input.name).text("guide", &guide.name).flag("good", true);
    report(given, &object, &format!("{}: valid tree, and {} is its guide\n", input.name, guide.name))
}

/// Checks that the guide is the tree's. If not, the failure has both lengths.
pub fn check_guide(tree: Tree, guide: &Input) -> Result<(), Failure> {
    tree.check_guide(&guide.bytes).map_err(|refusal| {
        let due = tree.make_guide().map_or(0, |guide| guide.len() as u64);
        let words = format!("{refusal}; it has {} bytes, and the tree's guide {}", grouped(guide.bytes.len() as u64), grouped(due));
        Failure::library(&guide.name, refusal, words)
    })
}
