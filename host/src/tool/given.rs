//! The words of a call, read by the table.

use crate::beside;
use crate::day::Day;
use crate::nearest::suggestion;
use crate::table::{self, Command, Due, Opt, Word, COMMANDS};
use crate::values;
use crate::Failure;
use std::ffi::{OsStr, OsString};
use std::os::unix::ffi::{OsStrExt, OsStringExt};
use std::path::{Path, PathBuf};

/// A call: its command, its words and its options.
pub struct Given {
    pub command: &'static Command,
    pub words: Vec<OsString>,
    options: Vec<(&'static Opt, OsString)>,
}

impl Given {
    /// Reads the arguments after the tool's name.
    pub fn read(words: Vec<OsString>) -> Result<Self, Failure> {
        let (command, rest) = command(&words)?;
        let mut given = Given { command, words: Vec::new(), options: Vec::new() };
        given.sort(rest)?;
        if !given.has(&table::HELP) {
            given.enough()?;
        }
        Ok(given)
    }

    /// Separate the options from the other words.
    fn sort(&mut self, words: &[OsString]) -> Result<(), Failure> {
        let mut words = words.iter();
        while let Some(word) = words.next() {
            match word.as_bytes() {
                b"--" => {
                    self.words.extend(words.cloned());
                    return Ok(());
                }
                [b'-', b'-', ..] => self.long(word, &mut words)?,
                // a negative number is no option; the message about it comes from where it is read
                [b'-', b'0'..=b'9', ..] | b"-" => self.words.push(word.clone()),
                [b'-', letters @ ..] => self.short(letters, &mut words)?,
                _ => self.words.push(word.clone()),
            }
        }
        Ok(())
    }

    /// `--leaf 64` or `--leaf=64`.
    fn long<'a>(&mut self, word: &OsStr, words: &mut impl Iterator<Item = &'a OsString>) -> Result<(), Failure> {
        let mut parts = word.as_bytes().splitn(2, |&byte| byte == b'=');
        let name = String::from_utf8_lossy(parts.next().unwrap_or_default()).into_owned();
        let joined = parts.next().map(|value| OsString::from_vec(value.to_vec()));
        let option = self.command.all_options().find(|option| option.long == name);
        let option = option.ok_or_else(|| {
            let meant = suggestion(&name, self.command.all_options().map(|option| option.long)).unwrap_or_default();
            self.usage(format!("there is no option '{name}'{meant}"))
        })?;
        match (option.value, joined) {
            (None, Some(value)) => Err(self.usage(format!("{name} has no value; given: '{}'", value.to_string_lossy()))),
            (None, None) => self.push(option, OsString::new()),
            (Some(_), Some(value)) => self.push(option, value),
            (Some(_), None) => self.push_next(option, &name, words.next()),
        }
    }

    /// `-o FILE`, `-oFILE`, `-f` or `-fo FILE`.
    fn short<'a>(&mut self, letters: &[u8], words: &mut impl Iterator<Item = &'a OsString>) -> Result<(), Failure> {
        let (letter, rest) = (char::from(letters[0]), &letters[1..]);
        let option = self.command.all_options().find(|option| option.short == Some(letter));
        let option = option.ok_or_else(|| self.usage(format!("there is no option '-{letter}'")))?;
        match (option.value, rest) {
            (None, []) => self.push(option, OsString::new()),
            (None, rest) => {
                self.push(option, OsString::new())?;
                self.short(rest, words)
            }
            (Some(_), []) => self.push_next(option, &format!("-{letter}"), words.next()),
            (Some(_), [b'=', rest @ ..]) => {
                let value = String::from_utf8_lossy(rest);
                Err(self.usage(format!("write -{letter} {value} or {}={value}, not -{letter}={value}", option.long)))
            }
            (Some(_), rest) => self.push(option, OsString::from_vec(rest.to_vec())),
        }
    }

    fn push_next(&mut self, option: &'static Opt, name: &str, value: Option<&OsString>) -> Result<(), Failure> {
        let value = value.cloned().ok_or_else(|| self.usage(format!("{name} needs a value")))?;
        self.push(option, value)
    }

    fn push(&mut self, option: &'static Opt, value: OsString) -> Result<(), Failure> {
        self.options.push((option, value));
        Ok(())
    }

    /// Check that the required words are there, and no more.
    fn enough(&self) -> Result<(), Failure> {
        let due = self.command.words;
        let least = due.iter().filter(|word| matches!(word.due, Due::Once | Due::AtLeastOnce)).count();
        if self.words.len() < least {
            return Err(self.usage(format!("{} is missing", due[self.words.len()].name)));
        }
        let endless = due.last().is_some_and(|word| matches!(word.due, Due::AnyTimes | Due::AtLeastOnce));
        match self.words.get(due.len()) {
            Some(more) if !endless => Err(self.usage(format!("unexpected argument '{}'", more.to_string_lossy()))),
            _ if self.inputs().filter(|&file| file == "-").count() > 1 => Err(self.usage("- is standard input, which can be read once only")),
            _ => Ok(()),
        }
    }

    /// The files that the call reads.
    pub fn inputs(&self) -> impl Iterator<Item = &OsStr> {
        let due = |at: usize| self.command.words.get(at).or(self.command.words.last());
        let files = self.words.iter().enumerate().filter(move |(at, _)| due(*at).is_some_and(Word::is_file));
        files.map(|(_, word)| word.as_os_str()).chain(self.value(&table::GUIDE)).chain(self.value(&table::LIST)).chain(self.value(&table::MODULE))
    }

    /// The manifests beside the trees among them, whether or not there are any.
    pub fn manifests(&self) -> Vec<PathBuf> {
        let due = |at: usize| self.command.words.get(at).or(self.command.words.last());
        let trees = self.words.iter().enumerate().filter(|(at, _)| due(*at).is_some_and(Word::is_tree));
        trees.map(|(_, word)| beside::path(Path::new(word))).collect()
    }

    pub fn has(&self, option: &Opt) -> bool {
        self.value(option).is_some()
    }

    /// The value that was given last.
    pub fn value(&self, option: &Opt) -> Option<&OsStr> {
        self.options.iter().rev().find(|(given, _)| given.long == option.long).map(|(_, value)| value.as_os_str())
    }

    pub fn path(&self, option: &Opt) -> Option<&Path> {
        self.value(option).map(Path::new)
    }

    pub fn number(&self, option: &Opt) -> Result<Option<u32>, Failure> {
        self.value(option).map(|value| values::number(option.long, value).map_err(|words| self.usage(words))).transpose()
    }

    /// An option's value as a day.
    pub fn day(&self, option: &Opt, word: &OsStr) -> Result<Day, Failure> {
        let text = word.to_string_lossy();
        let wrong = || self.usage(format!("{} is a day such as 2024-02-29, from 2000-01-01 to 2099-12-31, not '{text}'", option.long));
        Day::read(&text).ok_or_else(wrong)
    }

    /// A word as a number.
    pub fn figure(&self, at: usize) -> Result<u32, Failure> {
        self.reading(values::number(self.command.words[at].name, &self.words[at]))
    }

    /// The value of a word, or the call's failure.
    pub fn reading<T>(&self, value: Result<T, String>) -> Result<T, Failure> {
        value.map_err(|words| self.usage(words))
    }

    /// The file at a place of the words, if there is one.
    pub fn file(&self, at: usize) -> Option<&Path> {
        self.words.get(at).map(Path::new)
    }

    /// The call is wrong.
    pub fn usage(&self, words: impl Into<String>) -> Failure {
        Failure::usage(words).with_usage(self.command.usage())
    }

    pub fn json(&self) -> bool {
        self.has(&table::JSON)
    }

    pub fn quiet(&self) -> bool {
        self.has(&table::QUIET)
    }

    /// Do `work` with each file, or with standard input if there is none. With several files all are done and each failure is reported.
    pub fn each(&self, mut work: impl FnMut(Option<&Path>) -> Result<(), Failure>) -> Result<(), Failure> {
        if self.words.len() < 2 {
            return work(self.file(0));
        }
        self.all(self.words.iter().map(|word| work(Some(Path::new(word)))))
    }

    /// Report each failure; the status is the highest.
    pub fn all(&self, done: impl Iterator<Item = Result<(), Failure>>) -> Result<(), Failure> {
        let mut status = 0;
        for failure in done.filter_map(Result::err) {
            failure.tell(self.json());
            status = status.max(failure.status());
        }
        if status > 0 {
            return Err(Failure::reported(status));
        }
        Ok(())
    }
}

/// Whether the call, right or wrong, has --json.
pub fn asks_for_json(words: &[OsString]) -> bool {
    words.iter().take_while(|word| *word != "--").any(|word| word == table::JSON.long)
}

/// The command that the words begin with, and the words after it.
fn command(words: &[OsString]) -> Result<(&'static Command, &[OsString]), Failure> {
    let Some((first, rest)) = words.split_first() else {
        return Err(Failure::usage("no command given; see codebook --help"));
    };
    let name = match first.as_bytes() {
        b"--help" | b"-h" => "help".to_owned(),
        b"--version" | b"-V" => "version".to_owned(),
        _ => first.to_string_lossy().into_owned(),
    };
    if let Some(command) = Command::named(&name) {
        return Ok((command, rest));
    }
    let seconds = Command::group(&name);
    if name.starts_with('-') {
        return Err(Failure::usage(format!("'{name}' is before the command; options follow it; see codebook --help")));
    }
    if seconds.is_empty() {
        return Err(unknown(&name));
    }
    let due = match &seconds[..] {
        [others @ .., last] if !others.is_empty() => format!("{} or {last}", others.join(", ")),
        _ => seconds.concat(),
    };
    // `guide --help` is `help guide`
    let helps = rest.first().is_some_and(|word| word == "--help" || word == "-h");
    if let Some(help) = Command::named("help").filter(|_| helps) {
        return Ok((help, &words[..1]));
    }
    match rest.split_first() {
        None => Err(Failure::usage(format!("{due} is missing; see codebook help {name}"))),
        Some((second, rest)) => {
            let second = second.to_string_lossy();
            let command = Command::named(&format!("{name} {second}"));
            command
                .map(|command| (command, rest))
                .ok_or_else(|| Failure::usage(format!("{name} is followed by {due}, not '{second}'; see codebook help {name}")))
        }
    }
}

/// Commands of version 1 that have another name now.
const RENAMED: [(&str, &str); 2] = [("shelf", "sort"), ("worn", "match")];

/// There is no such command.
pub fn unknown(name: &str) -> Failure {
    if let Some((_, now)) = RENAMED.iter().find(|(before, _)| *before == name) {
        return Failure::usage(format!("there is no command '{name}'; since version 2 it is '{now}'; see codebook help {now}"));
    }
    let first_words = COMMANDS.iter().filter_map(|command| command.name.split(' ').next());
    let meant = suggestion(name, first_words).unwrap_or("; see codebook --help".to_owned());
    Failure::usage(format!("there is no command '{name}'{meant}"))
}
