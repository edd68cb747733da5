//! The manifest beside a tree, `TREE.json`: finds it, compares it with the tree, and decides whether the book is open.

use crate::day::Day;
use crate::given::Given;
use crate::manifest::{Digests, Figures, Manifest};
use crate::say::{self, several};
use crate::table::{ANY_DAY, TODAY};
use crate::Failure;
use codebook::{Refusal, Tree};
use std::fs::{File, OpenOptions};
use std::io::{self, ErrorKind, Read};
use std::os::raw::c_int;
use std::os::unix::fs::OpenOptionsExt;
use std::path::{Path, PathBuf};

/// A manifest has at most this many bytes.
const MAX_MANIFEST: u64 = 65_536;
/// The largest number of bytes of a manifest for the values of the options; the figures of the tree take less than the rest.
pub const MOST_DESCRIBED: usize = 60_000;
/// O_NONBLOCK of Linux on x86-64: opening a pipe of that name does not wait.
const O_NONBLOCK: c_int = 0o4000;

/// A manifest, and where it is.
pub struct Beside {
    pub path: PathBuf,
    pub manifest: Manifest,
}

/// A manifest that cannot be used.
pub struct Unusable {
    name: String,
    words: String,
    /// It cannot be read, and is not malformed.
    unread: bool,
}

impl Unusable {
    pub fn failure(&self) -> Failure {
        match self.unread {
            true => Failure::file(&self.name, format!("cannot be read: {}", self.words)),
            false => Failure::refused(&self.name, format!("malformed manifest: {}", self.words)),
        }
    }

    /// The warning if the tree is read without its manifest.
    pub fn warn(&self, given: &Given) {
        if !given.quiet() {
            say::tell(&format!("codebook: {}: warning: the manifest is not used: {}\n", self.name, self.words));
        }
    }
}

/// The name of a tree's manifest.
pub fn path(tree: &Path) -> PathBuf {
    let mut name = tree.as_os_str().to_owned();
    name.push(".json");
    name.into()
}

impl Beside {
    /// The manifest of a tree, if there is one. A tree from standard input has none.
    pub fn read(tree: Option<&Path>) -> Result<Option<Self>, Unusable> {
        let Some(tree) = tree.filter(|tree| *tree != Path::new("-")) else {
            return Ok(None);
        };
        let path = path(tree);
        let unusable = |unread: bool, words: String| Unusable { name: path.to_string_lossy().into_owned(), words, unread };
        let bytes = match OpenOptions::new().read(true).custom_flags(O_NONBLOCK).open(&path) {
            Err(error) if error.kind() == ErrorKind::NotFound => return Ok(None),
            opened => opened.and_then(first_bytes).map_err(|error| unusable(true, error.to_string()))?,
        };
        if bytes.len() as u64 > MAX_MANIFEST {
            return Err(unusable(false, "it has more than 65,536 bytes".to_owned()));
        }
        let manifest = Manifest::read(&bytes).map_err(|words| unusable(false, words))?;
        Ok(Some(Beside { path, manifest }))
    }

    pub fn name(&self) -> String {
        self.path.to_string_lossy().into_owned()
    }

    /// The manifest of a tree for a question: the book must be open today, unless --any-day is given. Then a manifest that cannot be used is a warning.
    pub fn admit(given: &Given, tree: Option<&Path>, name: &str) -> Result<Option<Self>, Failure> {
        let any_day = given.has(&ANY_DAY);
        let today = today(given)?;
        let beside = match Beside::read(tree) {
            Ok(beside) => beside,
            Err(unusable) if any_day => {
                unusable.warn(given);
                None
            }
            Err(unusable) => return Err(unusable.failure()),
        };
        match &beside {
            Some(beside) if !any_day => beside.open(name, today)?,
            _ => {}
        }
        Ok(beside)
    }

    /// A failure if the book is closed on this day; without a day, on the clock's.
    fn open(&self, name: &str, today: Option<Day>) -> Result<(), Failure> {
        let Some(term) = self.manifest.term() else { return Ok(()) };
        let today = today.or_else(Day::today).ok_or_else(|| Failure::refused(name, "the clock's day is not in the years 2000 to 2099"))?;
        let refused = |refusal: Refusal| Failure::library(&self.name(), refusal, refusal.to_string());
        if term.is_open(today).map_err(refused)? {
            return Ok(());
        }
        let why = match term.left(today).map_err(refused)? {
            left @ i32::MIN..=-1 => format!("{} past", several(left.unsigned_abs(), "day")),
            _ => "not open yet".to_owned(),
        };
        let by = self.name();
        Err(Failure::refused(name, format!("closed on {today}, {why}: by {by} its licence is {term}; --any-day reads it nevertheless")))
    }

    /// A failure if a tree does not agree with the manifest.
    pub fn describes(&self, name: &str, found: &Figures) -> Result<(), Failure> {
        match self.manifest.figures.difference(found) {
            None => Ok(()),
            Some(difference) => Err(Failure::refused(name, format!("by {} {difference}", self.name()))),
        }
    }

    /// A failure if an old manifest would stay beside a new tree that it does not describe.
    pub fn not_left(target: &Path, tree: Tree, bytes: &[u8]) -> Result<(), Failure> {
        let Some(beside) = Beside::read(Some(target)).map_err(|unusable| unusable.failure())? else { return Ok(()) };
        let name = target.to_string_lossy();
        let digests = Digests::of(tree, bytes).map_err(|refusal| Failure::library(&name, refusal, refusal.to_string()))?;
        match beside.manifest.figures.difference(&Figures::of(tree, Some(&digests))) {
            None => Ok(()),
            Some(difference) => {
                let words = format!("by {}, which would be left beside it, {difference}", beside.name());
                Err(Failure::file(&name, format!("{words}; it is not written; remove that manifest, or have a new one written")))
            }
        }
    }

    /// Why rows are not read this way: by columns of this width, or by rows. A manifest without figures of the tree does not decide about columns.
    pub fn other_width(&self, asked: Option<u32>) -> Option<String> {
        let Manifest { columns, figures, .. } = &self.manifest;
        match (columns, asked) {
            (Some(due), Some(asked)) if *due != u64::from(asked) => {
                Some(format!("by {} its rows of {} are by columns, and {asked} was given", self.name(), several(*due, "byte")))
            }
            (Some(due), None) => {
                Some(format!("by {} its rows of {} are by columns: only row --columns {due} reads them", self.name(), several(*due, "byte")))
            }
            (None, Some(_)) if figures.size.is_some() => Some(format!("by {} its text is not by columns", self.name())),
            _ => None,
        }
    }
}

/// Reads one byte more than a manifest may have, so that a longer one is seen.
fn first_bytes(file: File) -> io::Result<Vec<u8>> {
    let mut bytes = Vec::new();
    file.take(MAX_MANIFEST + 1).read_to_end(&mut bytes)?;
    Ok(bytes)
}

/// The day that a call takes for today.
fn today(given: &Given) -> Result<Option<Day>, Failure> {
    let Some(word) = given.value(&TODAY) else { return Ok(None) };
    if given.has(&ANY_DAY) {
        return Err(given.usage("--today cannot be used with --any-day"));
    }
    given.day(&TODAY, word).map(Some)
}
