//! What `help`, `--version`, `manual` and `completion` print, all from the table.

use crate::given::{self, Given};
use crate::json::Object;
use crate::table::{Command, COMMANDS};
use crate::{completion, manual, say, Failure};

/// Bytes of a line of help.
const LINE: usize = 80;

/// Where an option's help begins.
const OPTION: usize = 22;

/// The format, as the library builds and reads it.
pub const LAYOUTS: &str = "block trees: builds layout 2, and layout 1 with --small; reads both";

/// The last words of every help.
pub const ENDING: &str =
    "Without a file, or with -, standard input is read. Status: 0 done or found, 1 refused or nothing found, 2 a wrong call or a file that cannot be read or written; of several files the highest.";

/// The tool, or a command.
pub fn show(given: &Given) -> Result<(), Failure> {
    let name = given.words.iter().map(|word| word.to_string_lossy()).collect::<Vec<_>>().join(" ");
    if name.is_empty() {
        return print(given, &overview());
    }
    let commands: Vec<&Command> = COMMANDS.iter().filter(|command| command.name == name || command.name.split(' ').next() == Some(&name)).collect();
    if commands.is_empty() {
        return Err(given::unknown(&name));
    }
    print(given, &commands.iter().map(|command| text(command)).collect::<Vec<_>>().join("\n"))
}

/// Print a text as it is, or in an object.
pub fn print(given: &Given, text: &str) -> Result<(), Failure> {
    match given.json() {
        true => say::print(Object::new().text("text", text).line().as_bytes()),
        false => say::print(text.as_bytes()),
    }
}

/// The text of `codebook --help`.
fn overview() -> String {
    let mut text = "codebook: block trees of code books\n\n".to_owned();
    for command in &COMMANDS {
        text += &format!("  {:<15}{}\n", command.name, command.summary);
    }
    text + "\ncodebook COMMAND --help has the details.\n\n" + &folded(ENDING, "")
}

/// The text of `codebook COMMAND --help`.
pub fn text(command: &Command) -> String {
    let mut text = usage(command) + "\n";
    text += &folded(&format!("{}.", capital(command.summary)), "");
    for paragraph in command.details.lines() {
        text += &folded(paragraph, "");
    }
    text.push('\n');
    for option in command.all_options() {
        let help = folded(option.help, &" ".repeat(OPTION));
        text += &format!("  {:<width$}{}", option.forms(), &help[OPTION..], width = OPTION - 2);
    }
    text + "\n" + &folded(ENDING, "")
}

/// How a command is called: an option and its value stay on one line.
fn usage(command: &Command) -> String {
    let mut lines = vec![String::new()];
    for part in command.usage().replace(" [", "\n[").lines() {
        match lines.last_mut() {
            Some(line) if line.is_empty() || line.len() + 1 + part.len() <= LINE => {
                line.push_str(if line.is_empty() { "" } else { " " });
                line.push_str(part);
            }
            _ => lines.push(format!("    {part}")),
        }
    }
    lines.join("\n") + "\n"
}

/// The text with its first letter capitalized.
pub fn capital(words: &str) -> String {
    let mut letters = words.chars();
    letters.next().map_or(String::new(), |first| first.to_uppercase().chain(letters).collect())
}

/// Words broken into lines, each after `indent`.
fn folded(words: &str, indent: &str) -> String {
    let mut text = String::new();
    let mut line = String::new();
    for word in words.split(' ') {
        if !line.trim().is_empty() && indent.len() + line.len() + word.len() > LINE {
            text += &format!("{indent}{}\n", line.trim_end());
            line.clear();
        }
        line += word;
        line.push(' ');
    }
    text + indent + line.trim_end() + "\n"
}

pub fn version(given: &Given) -> Result<(), Failure> {
    let version = env!("CARGO_PKG_VERSION");
    match given.json() {
        true => say::print(Object::new().text("version", version).number("builds", 2).numbers("reads", &[1, 2]).line().as_bytes()),
        false => say::print(format!("codebook {version}\n{LAYOUTS}\n").as_bytes()),
    }
}

pub fn manual(given: &Given) -> Result<(), Failure> {
    print(given, &manual::page())
}

pub fn completion(given: &Given) -> Result<(), Failure> {
    let script = match given.words[0].to_string_lossy().as_ref() {
        "bash" => completion::bash(),
        "zsh" => completion::zsh(),
        other => return Err(given.usage(format!("SHELL is bash or zsh, not '{other}'"))),
    };
    print(given, &script)
}
