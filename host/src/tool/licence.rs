//! `licence`: whether a book is open, how many days are left, and the same day a year later.

use crate::given::Given;
use crate::json::Object;
use crate::say::{self, several};
use crate::{day, Failure};
use codebook::{days_left, open_on, renew, Refusal};
use std::ffi::OsString;
use std::os::unix::ffi::OsStrExt;

/// Open, with the days left; or closed, and why, with status 1.
pub fn open(given: &Given) -> Result<(), Failure> {
    let days = days(given, 2);
    let [first, last, today] = [0, 1, 2].map(|at| days[at].as_bytes());
    let open = open_on(first, last, today).map_err(|refusal| refused(refusal, &days))?;
    let left = days_left(last, today).map_err(|refusal| refused(refusal, &days))?;
    let words = match (open, left) {
        (true, _) => format!("open, {} left", several(left.unsigned_abs(), "day")),
        (false, 0..) => format!("closed: it opens on {}", days[0].to_string_lossy()),
        (false, _) => format!("closed, {} past", several(left.unsigned_abs(), "day")),
    };
    print(given, Object::new().flag("open", open).number("left", left), &words)?;
    if open {
        return Ok(());
    }
    Err(Failure::reported(1))
}

pub fn left(given: &Given) -> Result<(), Failure> {
    let days = days(given, 1);
    let left = days_left(days[0].as_bytes(), days[1].as_bytes()).map_err(|refusal| refused(refusal, &days))?;
    print(given, Object::new().number("left", left), &left.to_string())
}

pub fn renewed(given: &Given) -> Result<(), Failure> {
    let day = renew(given.words[0].as_bytes()).map_err(|refusal| refused(refusal, &given.words))?;
    let day = String::from_utf8_lossy(&day).into_owned();
    print(given, Object::new().text("day", &day), &day)
}

fn print(given: &Given, object: Object, words: &str) -> Result<(), Failure> {
    let line = if given.json() { object.line() } else { format!("{words}\n") };
    say::print(line.as_bytes())
}

/// The days that are given, and today's, by the clock where it is not given.
fn days(given: &Given, due: usize) -> Vec<OsString> {
    let mut days = given.words.clone();
    if days.len() == due {
        days.push(day::today().into());
    }
    days
}

/// The message names the first day that is no date, or else all of them.
fn refused(refusal: Refusal, days: &[OsString]) -> Failure {
    let wrong = days.iter().find(|day| days_left(day.as_bytes(), day.as_bytes()).is_err());
    let given = match (refusal, wrong) {
        (Refusal::Date, Some(day)) => format!("'{}'", day.to_string_lossy()),
        _ => days.iter().map(|day| day.to_string_lossy()).collect::<Vec<_>>().join(" "),
    };
    Failure::library("licence", refusal, format!("{refusal}; given: {given}"))
}
