//! The file that a command writes: opened before the work, so that a place that cannot be written is reported at once, and written at its end.

use crate::attributes::{Access, Times};
use crate::given::Given;
use crate::input::{Identity, Source};
use crate::json::Object;
use crate::spool::Spool;
use crate::table::{FORCE, KEEP_TIME, OUTPUT};
use crate::{say, Failure};
use std::fs::{self, File, Metadata, OpenOptions};
use std::io::{self, ErrorKind, IsTerminal, Write};
use std::path::Path;

const EXISTS: &str = "exists; --force overwrites it";

pub struct Output {
    /// The output's name in messages.
    pub name: String,
    place: Place,
    /// The bytes still to be written, if the output is no file.
    waiting: Vec<u8>,
}

enum Place {
    Standard,
    /// A device or a pipe.
    Special(File),
    File(Spool),
}

impl Output {
    /// The file that the call names, or standard output.
    pub fn of(given: &Given, source: &Source) -> Result<Self, Failure> {
        Output::create(given.path(&OUTPUT), given.has(&FORCE), source)?.timed(given, source)
    }

    /// The same for a file that is made of several.
    pub fn of_all(given: &Given, sources: &[Source]) -> Result<Self, Failure> {
        Output::made_of(given.path(&OUTPUT), given.has(&FORCE), sources)
    }

    /// With --keep-time a file gets the times of what is read.
    pub fn timed(mut self, given: &Given, source: &Source) -> Result<Self, Failure> {
        if let (Place::File(spool), true) = (&mut self.place, given.has(&KEEP_TIME)) {
            let metadata = source.metadata().ok_or_else(|| given.usage(format!("--keep-time: {} is not a file, and has no times", source.name)))?;
            spool.times = Some(Times::of(&metadata));
        }
        Ok(self)
    }

    /// A file, or standard output where it is `-` or none. It must not be the file that is read.
    pub fn create(path: Option<&Path>, force: bool, source: &Source) -> Result<Self, Failure> {
        Output::made_of(path, force, std::slice::from_ref(source))
    }

    fn made_of(path: Option<&Path>, force: bool, sources: &[Source]) -> Result<Self, Failure> {
        match path {
            Some(path) if path != Path::new("-") && path != Path::new("/dev/stdout") => Output::file(path, force, sources),
            _ => Output::standard(path.is_some()),
        }
    }

    fn standard(named: bool) -> Result<Self, Failure> {
        if !named && io::stdout().is_terminal() {
            return Err(Failure::usage("this would go to the terminal; give -o FILE, or -o - if that is meant"));
        }
        Ok(Output { name: "standard output".to_owned(), place: Place::Standard, waiting: Vec::new() })
    }

    fn file(path: &Path, force: bool, sources: &[Source]) -> Result<Self, Failure> {
        Output::file_within(path, force, sources, Vec::new())
    }

    /// The manifest beside this file, `path`: its permissions are no wider than those of this file, of what this file replaces, and of what it replaces itself.
    pub fn beside(&self, path: &Path, given: &Given, source: &Source) -> Result<Self, Failure> {
        let Place::File(spool) = &self.place else {
            return Err(given.usage(format!("a manifest is written beside a file, and {} is none", self.name)));
        };
        Output::file_within(path, given.has(&FORCE), std::slice::from_ref(source), spool.access.clone())?.timed(given, source)
    }

    fn file_within(path: &Path, force: bool, sources: &[Source], mut access: Vec<Access>) -> Result<Self, Failure> {
        let name = path.to_string_lossy().into_owned();
        let unwritten = |error: io::Error| Failure::file(&name, format!("cannot be written: {error}"));
        let (target, old) = match fs::metadata(path) {
            Ok(old) if old.is_dir() => return Err(Failure::file(&name, "is a directory, not a file")),
            Ok(old) if !old.is_file() => {
                let file = OpenOptions::new().write(true).open(path).map_err(unwritten)?;
                return Ok(Output { name, place: Place::Special(file), waiting: Vec::new() });
            }
            Ok(old) => {
                sources.iter().try_for_each(|source| apart(&name, &old, source))?;
                // a link stays, and what it leads to is replaced
                (path.canonicalize().map_err(unwritten)?, Some(old))
            }
            Err(error) if error.kind() == ErrorKind::NotFound && path.is_symlink() => {
                return Err(Failure::file(&name, "cannot be written: it is a link to nothing"));
            }
            Err(error) if error.kind() == ErrorKind::NotFound && !name.ends_with('/') => (path.to_path_buf(), None),
            Err(error) => return Err(unwritten(error)),
        };
        if old.is_some() && !force {
            return Err(Failure::file(&name, EXISTS));
        }
        access.extend(sources.iter().filter_map(Source::metadata).chain(old).map(|file| Access::of(&file)));
        let spool = Spool::create(target, force, access).map_err(unwritten)?;
        Ok(Output { name, place: Place::File(spool), waiting: Vec::new() })
    }

    pub fn is_standard(&self) -> bool {
        matches!(self.place, Place::Standard)
    }

    /// An ordinary file, not a device, a pipe or standard output.
    pub fn is_file(&self) -> bool {
        matches!(self.place, Place::File(_))
    }

    /// Write all of it, or leave a file as it was.
    pub fn write(mut self, bytes: &[u8]) -> Result<(), Failure> {
        if self.is_standard() {
            return say::print_whole(bytes);
        }
        self.fill(bytes)?;
        self.finish(None)
    }

    /// Write the bytes of a file, which has no name yet. What goes elsewhere waits for its turn.
    pub fn fill(&mut self, bytes: &[u8]) -> Result<(), Failure> {
        match &mut self.place {
            Place::File(spool) => spool.fill(bytes).map_err(|error| unwritten(&self.name, &error)),
            Place::Standard | Place::Special(_) => {
                self.waiting = bytes.to_vec();
                Ok(())
            }
        }
    }

    /// Stores the file and gives it its name. A manifest gets its name first, so that an interruption leaves no tree without its licence dates.
    pub fn finish(self, manifest: Option<Output>) -> Result<(), Failure> {
        let Output { name, place, waiting } = self;
        let written = match (place, manifest) {
            (Place::File(tree), Some(Output { name: beside, place: Place::File(manifest), .. })) => {
                return manifest.finish_both(tree).map_err(|(of_tree, error)| unwritten(if of_tree { &name } else { &beside }, &error));
            }
            (_, Some(manifest)) => return Err(Failure::file(&manifest.name, "is not a file, and no manifest is written to it")),
            (Place::Standard, None) => return say::print_whole(&waiting),
            (Place::Special(mut file), None) => file.write_all(&waiting),
            (Place::File(spool), None) => spool.finish(),
        };
        written.map_err(|error| unwritten(&name, &error))
    }
}

fn unwritten(name: &str, error: &io::Error) -> Failure {
    match error.kind() {
        // a file of that name appeared meanwhile
        ErrorKind::AlreadyExists => Failure::file(name, EXISTS),
        _ => Failure::file(name, format!("cannot be written: {error}")),
    }
}

/// Report what was written: on standard error if the bytes themselves go to standard output. An empty report is not printed.
pub fn report(given: &Given, standard: bool, object: &Object, words: &str) -> Result<(), Failure> {
    let line = match (given.json(), given.quiet()) {
        (true, _) => object.line(),
        (false, true) => return Ok(()),
        (false, false) => words.to_owned(),
    };
    if standard {
        say::tell(&line);
        return Ok(());
    }
    say::print(line.as_bytes())
}

/// A failure if the file to write is one that is read, under whatever name.
fn apart(name: &str, metadata: &Metadata, source: &Source) -> Result<(), Failure> {
    let identity = Identity::of(metadata);
    if identity.is_some() && identity == source.identity() {
        return Err(Failure::file(name, format!("is the file that is read ({}); it is left as it is", source.name)));
    }
    Ok(())
}
