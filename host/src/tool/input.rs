//! Files and standard input.

use crate::say::grouped;
use crate::Failure;
use codebook::{Refusal, MAX_TEXT, MAX_TREE};
use std::ffi::OsStr;
use std::fs::{self, File, Metadata};
use std::io::{self, IsTerminal, Read};
use std::os::fd::AsFd;
use std::os::unix::fs::MetadataExt;
use std::path::Path;

/// The bytes that were read, and the input's name in messages.
pub struct Input {
    pub name: String,
    pub bytes: Vec<u8>,
}

/// How many bytes a file may have; a longer one is not read.
pub struct Limit {
    most: u64,
    what: &'static str,
    refusal: Option<Refusal>,
}

pub static TEXT: Limit = Limit { most: MAX_TEXT as u64, what: "a text", refusal: Some(Refusal::Text) };
pub static TREE: Limit = Limit { most: MAX_TREE, what: "a tree", refusal: None };
/// A table for `import` may have other columns besides code and cuts, and two bytes a character.
pub static TABLE: Limit = Limit { most: 16 * MAX_TEXT as u64, what: "a table", refusal: None };
/// An entry for each 64 bytes of text, rounded up for each counted byte.
pub static GUIDE: Limit = Limit { most: 4 * (MAX_TEXT as u64 / 64 + 4), what: "a guide", refusal: None };

/// A list of digests: some 100,000 names.
pub static LIST: Limit = Limit { most: 1 << 24, what: "a list of digests", refusal: None };

/// The library's WebAssembly module has some 50 KB.
pub static MODULE: Limit = Limit { most: 1 << 24, what: "a module", refusal: None };

impl Limit {
    /// Why a file is not read.
    fn refuse(&self, name: &str, length: Option<u64>) -> Failure {
        let has = length.map_or("it has more".to_owned(), |length| format!("it has {}", grouped(length)));
        match self.refusal {
            Some(refusal) => Failure::library(name, refusal, format!("{refusal}; {has}")),
            None => Failure::refused(name, format!("{} has at most {} bytes; {has}", self.what, grouped(self.most))),
        }
    }
}

/// An open file or standard input, not read yet.
pub struct Source {
    pub name: String,
    file: File,
}

/// Device and inode number: two names of one file have the same.
#[derive(Clone, Copy, PartialEq, Eq)]
pub struct Identity(u64, u64);

impl Identity {
    /// None where it is not an ordinary file.
    pub fn of(metadata: &Metadata) -> Option<Self> {
        metadata.is_file().then(|| Identity(metadata.dev(), metadata.ino()))
    }
}

/// The file that standard output goes to, if it is an ordinary one.
fn standard_output() -> Option<Identity> {
    let file = io::stdout().as_fd().try_clone_to_owned().map(File::from).ok()?;
    Identity::of(&file.metadata().ok()?)
}

/// The one of these names that is the file that standard output goes to, except `/dev/stdout`: printing would damage that file.
pub fn printed_upon<'a>(mut names: impl Iterator<Item = &'a OsStr>) -> Option<&'a OsStr> {
    let output = standard_output()?;
    names.find(|&name| name != "/dev/stdout" && fs::metadata(name).is_ok_and(|file| Identity::of(&file) == Some(output)))
}

impl Source {
    /// Open a file; standard input where it is `-` or none.
    pub fn open(path: Option<&Path>) -> Result<Self, Failure> {
        match path {
            Some(path) if path != Path::new("-") => {
                let name = path.to_string_lossy().into_owned();
                let file = File::open(path).map_err(|error| unread(&name, &error))?;
                if file.metadata().is_ok_and(|metadata| metadata.is_dir()) {
                    return Err(Failure::file(&name, "is a directory, not a file"));
                }
                Ok(Source { name, file })
            }
            _ => Source::standard(path.is_some()),
        }
    }

    fn standard(named: bool) -> Result<Self, Failure> {
        let stdin = io::stdin();
        if !named && stdin.is_terminal() {
            return Err(Failure::usage("no file is given, and nothing is piped in; - reads from the terminal"));
        }
        let name = "standard input".to_owned();
        let file = stdin.as_fd().try_clone_to_owned().map_err(|error| unread(&name, &error))?;
        let source = Source { name, file: file.into() };
        if source.identity().is_some_and(|identity| Some(identity) == standard_output()) {
            return Err(Failure::output_used(&source.name));
        }
        Ok(source)
    }

    /// None where it is not an ordinary file.
    pub fn metadata(&self) -> Option<Metadata> {
        self.file.metadata().ok().filter(Metadata::is_file)
    }

    pub fn identity(&self) -> Option<Identity> {
        self.metadata().and_then(|metadata| Identity::of(&metadata))
    }

    /// Reads the whole input, unless it is longer than allowed.
    pub fn read(self, limit: &Limit) -> Result<Input, Failure> {
        let Source { name, file } = self;
        let length = file.metadata().ok().filter(Metadata::is_file).map(|metadata| metadata.len());
        if length.is_some_and(|length| length > limit.most) {
            return Err(limit.refuse(&name, length));
        }
        let mut bytes = Vec::new();
        file.take(limit.most + 1).read_to_end(&mut bytes).map_err(|error| unread(&name, &error))?;
        if bytes.len() as u64 > limit.most {
            return Err(limit.refuse(&name, None));
        }
        Ok(Input { name, bytes })
    }
}

fn unread(name: &str, error: &io::Error) -> Failure {
    Failure::file(name, format!("cannot be read: {error}"))
}

/// Open and read.
pub fn read(path: Option<&Path>, limit: &Limit) -> Result<Input, Failure> {
    Source::open(path)?.read(limit)
}
