//! Why the tool stops.

use crate::json::Object;
use crate::say;
use codebook::Refusal;

/// The message, and the exit status.
#[derive(Debug)]
pub struct Failure {
    /// 1 if nothing is found or the library refused, 2 for a wrong call or a file that cannot be read or written.
    status: u8,
    /// The library's number.
    number: Option<u32>,
    /// The file that the message is about; empty for none.
    name: String,
    /// Empty if everything has been reported.
    words: String,
    /// The usage line, for a wrong call.
    usage: Option<String>,
    /// Whether --json prints it as an object on standard output.
    object: bool,
}

impl Failure {
    /// The call, or a file that it names, is wrong.
    pub fn usage(words: impl Into<String>) -> Self {
        Failure { status: 2, number: None, name: String::new(), words: words.into(), usage: None, object: true }
    }

    pub fn with_usage(self, usage: String) -> Self {
        Failure { usage: Some(usage), ..self }
    }

    /// A file that cannot be read or written, or must not be.
    pub fn file(name: &str, words: impl Into<String>) -> Self {
        Failure { name: name.to_owned(), ..Failure::usage(words) }
    }

    /// Standard output is a file that the call reads or writes: not even an object may be added to it.
    pub fn output_used(name: &str) -> Self {
        Failure { object: false, ..Failure::file(name, "standard output goes to this file too; it is left as it is") }
    }

    /// The tool refuses, without a call of the library.
    pub fn refused(name: &str, words: impl Into<String>) -> Self {
        Failure { status: 1, ..Failure::file(name, words) }
    }

    /// The library refused; `words` name the question and the reason.
    pub fn library(name: &str, refusal: Refusal, words: impl Into<String>) -> Self {
        Failure { number: Some(refusal.number()), ..Failure::refused(name, words) }
    }

    /// Nothing is found: no object is printed.
    pub fn nothing(name: &str, words: impl Into<String>) -> Self {
        Failure { object: false, ..Failure::refused(name, words) }
    }

    /// Everything has been reported; only the status is left.
    pub fn reported(status: u8) -> Self {
        Failure { status, ..Failure::usage("") }
    }

    /// The same failure with status 2, for commands in which status 1 has another meaning.
    pub fn with_status_2(self) -> Self {
        Failure { status: 2, ..self }
    }

    pub fn status(&self) -> u8 {
        self.status
    }

    /// Print the failure on standard error, and with --json as an object on standard output.
    pub fn tell(&self, json: bool) {
        self.tell_to(json, false);
    }

    /// The same; the object goes to standard error too if a tree goes to standard output.
    pub fn tell_to(&self, json: bool, standard_error: bool) {
        if self.words.is_empty() {
            return;
        }
        let name = if self.name.is_empty() { String::new() } else { format!("{}: ", self.name) };
        let usage = self.usage.as_ref().map_or(String::new(), |usage| format!("usage: {usage}\n"));
        say::tell(&format!("codebook: {name}{}\n{usage}", self.words));
        if json && self.object {
            // an error in printing changes nothing: the call has failed already
            let _ = say::to(standard_error, &self.as_object().line());
        }
    }

    fn as_object(&self) -> Object {
        let mut object = Object::new().text("failed", &self.name).number("status", self.status);
        if let Some(number) = self.number {
            object = object.number("refused", number);
        }
        object = object.text("words", &self.words);
        match &self.usage {
            Some(usage) => object.text("usage", usage),
            None => object,
        }
    }
}
