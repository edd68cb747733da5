//! `build`: the trees of books.

use crate::beside::{self, Beside};
use crate::book::Warning;
use crate::day::Term;
use crate::given::Given;
use crate::input::{Identity, Input, Source, TEXT};
use crate::manifest::{Digests, Figures, Manifest};
use crate::output::Output;
use crate::report::Report;
use crate::table::{Opt, ALLOW_LARGER, ARITY, BEST, COLUMNS, COUNT, EDITION, FIRST, FORCE, JOBS, LAST, LEAF, LEVELS, MAKER, OUTPUT, SMALL};
use crate::trials::{self, Chosen, Request};
use crate::values::{self, Width};
use crate::{batch, book, by_columns, reasons, say, stats, Failure};
use codebook::{Refusal, Settings, Tree};
use std::ffi::OsString;
use std::fs;
use std::path::{Path, PathBuf};
use std::thread;

/// What was built, and its report.
pub struct Built {
    pub chosen: Chosen,
    /// The book, and how it was rearranged.
    pub title: String,
    /// Warnings, printed after the report.
    pub besides: Option<by_columns::Compared>,
    /// The size that --small would give, if that is smaller than the text and the tree is not.
    pub small: Option<usize>,
}

/// The options of a call for each of its books.
pub struct Order {
    pub request: Request,
    pub width: Option<Width>,
    /// The manifest by the options; None if no manifest is to be written.
    pub described: Option<Manifest>,
}

/// A book's tree, built and written to a file that has no name yet.
pub struct Made {
    pub report: Report,
    output: Output,
    manifest: Option<Output>,
}

pub fn build(given: &Given) -> Result<(), Failure> {
    let (counted, jobs) = (counted(given)?, jobs(given)?);
    let settings = settings(given, &counted)?;
    let width = given.value(&COLUMNS).map(|width| given.reading(values::width("--columns", width))).transpose()?;
    if width.is_none() && given.has(&ALLOW_LARGER) {
        return Err(given.usage("--allow-larger can only be used with --columns"));
    }
    if settings.is_some() && given.has(&BEST) {
        return Err(given.usage("--best searches for settings: give it, or --leaf, --arity and --levels"));
    }
    let request = Request { settings, counted, small: given.has(&SMALL), search: given.has(&BEST), quiet: given.quiet(), silent: false, jobs };
    let order = Order { request, width, described: described(given)? };
    apart(given, &TREES, order.described.is_some())?;
    match given.words.len() {
        0 | 1 => one(given, &order),
        _ => batch::build(given, order, jobs),
    }
}

/// The number of threads that build at a time: -j, otherwise the number of processors.
fn jobs(given: &Given) -> Result<usize, Failure> {
    match given.number(&JOBS)? {
        Some(0) => Err(given.usage("-j is how many threads build at a time, 1 or more, not 0")),
        Some(jobs) => Ok(jobs as usize),
        None => Ok(thread::available_parallelism().map_or(1, usize::from)),
    }
}

/// The manifest by the options of the call.
fn described(given: &Given) -> Result<Option<Manifest>, Failure> {
    if ![&MAKER, &EDITION, &FIRST, &LAST].into_iter().any(|option| given.has(option)) {
        return Ok(None);
    }
    let text = |option: &Opt| match given.value(option).map(|value| (value, value.to_str())) {
        Some((value, None)) => Err(given.usage(format!("{} is UTF-8, not '{}'", option.long, value.to_string_lossy()))),
        value => Ok(value.and_then(|(_, text)| text).map(str::to_owned)),
    };
    let day = |option: &Opt| given.value(option).map(|word| given.day(option, word)).transpose();
    let manifest = Manifest { maker: text(&MAKER)?, edition: text(&EDITION)?, first: day(&FIRST)?, last: day(&LAST)?, ..Manifest::default() };
    match (manifest.first.is_some() == manifest.last.is_some(), manifest.term()) {
        (false, _) => Err(given.usage("--first and --last must be given together")),
        (_, Some(term @ Term { first, last })) if term.is_open(first).is_err() => {
            Err(given.usage(format!("--last {last} is before --first {first}")))
        }
        _ if manifest.line().len() > beside::MOST_DESCRIBED => Err(given.usage("--maker and --edition are too long for a manifest")),
        _ => Ok(Some(manifest)),
    }
}

fn one(given: &Given, order: &Order) -> Result<(), Failure> {
    let made = make(given, order, given.file(0))?;
    let standard = made.output.is_standard();
    let report = made.write()?;
    if given.json() || !given.quiet() {
        let text = if given.json() { report.object().line() } else { report.whole() };
        say::to(standard, &text)?;
    }
    let warnings: Vec<(String, Warning)> = report.warnings.into_iter().map(|warning| (report.book.clone(), warning)).collect();
    book::lines(&warnings).iter().filter(|_| !given.quiet()).for_each(|line| say::tell(line));
    Ok(())
}

/// Build the tree of a book. Its file and that of its manifest are opened first, so that a place that cannot be written is reported before the work.
pub fn make(given: &Given, order: &Order, path: Option<&Path>) -> Result<Made, Failure> {
    let source = Source::open(path)?;
    let target = target(given, path, &TREES)?;
    let mut output = Output::create(target.as_deref(), given.has(&FORCE), &source)?.timed(given, &source)?;
    let beside = order.described.as_ref().map(|_| output.beside(&beside::path(target.as_deref().unwrap_or(Path::new("-"))), given, &source));
    let beside = beside.transpose()?;
    let text = source.read(&TEXT)?;
    let built = match order.width {
        None => plain(&text, &order.request)?,
        Some(width) => by_columns::build(&text, &order.request, width)?,
    };
    not_larger(given, &text, &built)?;
    let tree = Tree::unchecked(&built.chosen.tree);
    let refused = |refusal: Refusal| Failure::library(&output.name, refusal, refusal.to_string());
    if let (None, Some(target)) = (&beside, &target) {
        Beside::not_left(target, tree, &built.chosen.tree)?;
    }
    let wanted = given.json() || !given.quiet() || beside.is_some();
    let digests = wanted.then(|| Digests::of(tree, &built.chosen.tree)).transpose().map_err(refused)?;
    let manifest = beside.zip(order.described.clone()).map(|(mut output, manifest)| {
        let columns = built.besides.as_ref().map(|compared| compared.width.into());
        output.fill(Manifest { figures: Figures::of(tree, digests.as_ref()), columns, ..manifest }.line().as_bytes())?;
        Ok(output)
    });
    let manifest = manifest.transpose()?;
    output.fill(&built.chosen.tree)?;
    let report = Report::of(&text, built, digests, &output.name, manifest.as_ref().map(|output| output.name.clone()));
    Ok(Made { report, output, manifest })
}

impl Made {
    /// The tree and its manifest take their names.
    pub fn write(self) -> Result<Report, Failure> {
        self.output.finish(self.manifest)?;
        Ok(self.report)
    }
}

/// A failure if the tree by rows is smaller than that by columns, unless --allow-larger is given.
fn not_larger(given: &Given, text: &Input, built: &Built) -> Result<(), Failure> {
    match &built.besides {
        Some(compared) if compared.is_larger(built.chosen.tree.len()) && !given.has(&ALLOW_LARGER) => {
            let words = compared.words(built.chosen.tree.len());
            Err(Failure::refused(&text.name, format!("{}; it is not written; --allow-larger writes it", words.trim_end())))
        }
        _ => Ok(()),
    }
}

/// Names a written file after the one that is read: the new ending replaces one of `replaced`; otherwise it is appended to the whole name, of which
/// any other ending is a part.
pub struct Naming {
    pub replaced: &'static [&'static str],
    pub ending: &'static str,
}

impl Naming {
    fn name(&self, read: &Path) -> PathBuf {
        let is_replaced = read.extension().is_some_and(|ending| self.replaced.iter().any(|replaced| ending.eq_ignore_ascii_case(replaced)));
        if is_replaced {
            return read.with_extension(self.ending);
        }
        let mut name = read.as_os_str().to_owned();
        name.push(".");
        name.push(self.ending);
        name.into()
    }
}

/// The names of books' trees.
pub const TREES: Naming = Naming { replaced: &["txt", "csv"], ending: "tree" };

/// Several books or trees go to several files, and so do their manifests.
pub fn apart(given: &Given, naming: &Naming, manifests: bool) -> Result<(), Failure> {
    if let Some(path) = given.path(&OUTPUT).filter(|path| given.words.len() > 1 && !path.is_dir()) {
        return Err(given.usage(format!("several files need a folder after -o, and '{}' is none", path.display())));
    }
    let mut targets: Vec<(PathBuf, &OsString)> = Vec::new();
    for book in &given.words {
        let Some(target) = target(given, Some(Path::new(book)), naming)? else { continue };
        let manifest = manifests.then(|| beside::path(&target));
        for target in [target].into_iter().chain(manifest) {
            if let Some(read) = given.words.iter().find(|read| *read != book && same_file(Path::new(read), &target)) {
                let (read, book) = (read.to_string_lossy(), book.to_string_lossy());
                return Err(given.usage(format!("{read} is read, and what is made of {book} would be written to it")));
            }
            let target = spelled_out(&target);
            if let Some((_, other)) = targets.iter().find(|(path, _)| *path == target) {
                let (one, other) = (other.to_string_lossy(), book.to_string_lossy());
                return Err(given.usage(format!("{one} and {other} would both be written to {}", target.display())));
            }
            targets.push((target, book));
        }
    }
    Ok(())
}

/// Do both names lead to one ordinary file?
fn same_file(one: &Path, other: &Path) -> bool {
    let identity = |path: &Path| fs::metadata(path).ok().and_then(|file| Identity::of(&file));
    identity(one).is_some_and(|one| Some(one) == identity(other))
}

/// One spelling for one place.
pub fn spelled_out(path: &Path) -> PathBuf {
    let folder = path.parent().filter(|folder| !folder.as_os_str().is_empty()).unwrap_or(Path::new("."));
    folder.canonicalize().map_or(path.to_path_buf(), |folder| folder.join(path.file_name().unwrap_or_default()))
}

/// The bytes to count.
pub fn counted(given: &Given) -> Result<Vec<u8>, Failure> {
    given.value(&COUNT).map_or(Ok(vec![10]), |word| given.reading(values::bytes(word)))
}

/// The settings that are given; none if the short list is to be tried.
pub fn settings(given: &Given, counted: &[u8]) -> Result<Option<Settings>, Failure> {
    match (given.number(&LEAF)?, given.number(&ARITY)?, given.number(&LEVELS)?) {
        (None, None, None) => Ok(None),
        (Some(leaf), Some(arity), Some(levels)) => Ok(Some(Settings { leaf, arity, levels, counted: counted.to_vec() })),
        _ => Err(given.usage("--leaf, --arity and --levels must be given together; without them a short list is tried")),
    }
}

/// The file to write: the one that is named, or one named after the file that is read, in the folder that is named or beside it. None is standard output.
pub fn target(given: &Given, book: Option<&Path>, naming: &Naming) -> Result<Option<PathBuf>, Failure> {
    let book = book.filter(|&path| path != Path::new("-"));
    match (given.path(&OUTPUT), book) {
        (Some(folder), Some(book)) if folder.is_dir() => Ok(Some(folder.join(naming.name(book).file_name().unwrap_or_default()))),
        (Some(folder), None) if folder.is_dir() => Err(given.usage("-o is a file where standard input is read")),
        (Some(path), _) => Ok(Some(path.to_path_buf())),
        (None, book) => Ok(book.map(|book| naming.name(book))),
    }
}

fn plain(text: &Input, request: &Request) -> Result<Built, Failure> {
    let chosen = chosen(&text.name, &text.bytes, request)?;
    let small = smaller(&text.bytes, &chosen, request);
    Ok(Built { chosen, title: text.name.clone(), besides: None, small })
}

/// The tree with the settings, or the best of the layout's list.
pub fn chosen(name: &str, text: &[u8], request: &Request) -> Result<Chosen, Failure> {
    trials::best(text, request).map_err(|refusal| Failure::library(name, refusal, format!("{refusal}{}", cause(refusal, request))))
}

/// The argument that was refused, in words.
fn cause(refusal: Refusal, request: &Request) -> String {
    match (refusal, &request.settings) {
        (Refusal::Settings, Some(settings)) => format!("; given: {}", shape(settings)),
        (Refusal::Counted, _) => format!("; given: {}", reasons::all_typed(&request.counted)),
        _ => String::new(),
    }
}

/// The size that --small would give, if that is smaller than the text and the tree is not; not looked for where no warning is printed.
pub fn smaller(text: &[u8], chosen: &Chosen, request: &Request) -> Option<usize> {
    if request.small || request.quiet || chosen.tree.len() < text.len() {
        return None;
    }
    let size = match request.settings {
        Some(_) => stats::without_edges(Tree::unchecked(&chosen.tree)) as usize,
        None => {
            let request = Request {
                settings: None,
                counted: request.counted.clone(),
                small: true,
                search: false,
                quiet: true,
                silent: true,
                jobs: request.jobs,
            };
            trials::best(text, &request).ok()?.tree.len()
        }
    };
    (size < text.len()).then_some(size)
}

pub fn shape(settings: &Settings) -> String {
    format!("leaf {}, arity {}, levels {}", settings.leaf, settings.arity, settings.levels)
}

/// Bytes as --count takes them.
pub fn listed(bytes: &[u8]) -> String {
    let typed = |byte: &u8| if *byte == b',' { "0x2c".to_owned() } else { reasons::typed(*byte) };
    match bytes {
        [] => "none".to_owned(),
        _ => bytes.iter().map(typed).collect::<Vec<_>>().join(","),
    }
}

/// A tree's size and its share of the text; the empty text has no share.
pub fn share(tree: usize, text: usize) -> String {
    if text == 0 {
        return "an empty text".to_owned();
    }
    format!("{:.1} % of the text", 100.0 * tree as f64 / text as f64)
}

#[cfg(test)]
mod tests {
    use super::{listed, TREES};
    use std::path::Path;

    #[test]
    fn counted_bytes() {
        assert_eq!((listed(&[]), listed(&[10]), listed(b"\n,A\xff")), ("none".into(), "0x0a".into(), "0x0a,0x2c,A,0xff".into()));
    }

    #[test]
    fn names_of_trees() {
        let name = |book: &str| TREES.name(Path::new(book)).to_string_lossy().into_owned();
        assert_eq!((name("small.txt"), name("a/small.csv"), name("SMALL.TXT")), ("small.tree".into(), "a/small.tree".into(), "SMALL.tree".into()));
        assert_eq!(
            (name("Ford.2023"), name("a.b/Ford.2024"), name("Ford")),
            ("Ford.2023.tree".into(), "a.b/Ford.2024.tree".into(), "Ford.tree".into())
        );
        assert_eq!((name(".txt"), name("small.tree"), name("small.")), (".txt.tree".into(), "small.tree.tree".into(), "small..tree".into()));
    }
}
