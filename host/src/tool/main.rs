//! codebook: builds, checks and reads block trees of code books.

mod attributes;
mod batch;
mod beside;
mod book;
mod build;
mod by_columns;
mod check;
mod code;
mod completion;
mod day;
mod diff;
mod digest;
mod failure;
mod given;
mod guide;
mod help;
mod import;
mod input;
mod json;
mod json_reader;
mod licence;
mod lines;
mod manifest;
mod manual;
mod nearest;
mod ordered;
mod output;
mod page;
mod picture;
mod progress;
mod questions;
mod reasons;
mod report;
mod say;
mod separated;
mod signals;
mod slim;
mod sort;
mod spool;
mod stats;
mod sums;
mod table;
mod trials;
mod values;

use failure::Failure;
use given::Given;
use std::ffi::OsString;
use std::process::ExitCode;

fn main() -> ExitCode {
    let words: Vec<OsString> = std::env::args_os().skip(1).collect();
    // a wrong call adds no object to a file that it names
    let json = given::asks_for_json(&words) && input::printed_upon(words.iter().map(OsString::as_os_str)).is_none();
    let given = match Given::read(words) {
        Ok(given) => given,
        Err(failure) => return stop(&failure, json),
    };
    match run(&given) {
        Ok(()) => ExitCode::SUCCESS,
        Err(failure) => stop(&failure, given.json()),
    }
}

fn run(given: &Given) -> Result<(), Failure> {
    let manifests = given.manifests();
    let files = given.inputs().chain(given.value(&table::OUTPUT)).chain(manifests.iter().map(|path| path.as_os_str()));
    if let Some(name) = input::printed_upon(files) {
        return Err(Failure::output_used(&name.to_string_lossy()));
    }
    match given.has(&table::HELP) {
        true => help::print(given, &help::text(given.command)),
        false => (given.command.run)(given),
    }
}

fn stop(failure: &Failure, json: bool) -> ExitCode {
    failure.tell(json);
    ExitCode::from(failure.status())
}
