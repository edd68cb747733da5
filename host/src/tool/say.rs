//! Standard output and standard error.

use crate::Failure;
use std::io::{self, ErrorKind, Write};

/// Write to standard output. A closed pipe is no failure.
pub fn print(bytes: &[u8]) -> Result<(), Failure> {
    match write(bytes) {
        Err(error) if error.kind() != ErrorKind::BrokenPipe => Err(unwritten(&error)),
        _ => Ok(()),
    }
}

/// Write to standard output what must arrive whole.
pub fn print_whole(bytes: &[u8]) -> Result<(), Failure> {
    write(bytes).map_err(|error| unwritten(&error))
}

fn write(bytes: &[u8]) -> io::Result<()> {
    let mut out = io::stdout().lock();
    out.write_all(bytes)?;
    out.flush()
}

fn unwritten(error: &io::Error) -> Failure {
    Failure::file("standard output", format!("cannot be written: {error}"))
}

/// Write to standard error. If that fails, there is nobody to report to.
pub fn tell(words: &str) {
    let _ = io::stderr().write_all(words.as_bytes());
}

/// Prints a report: on standard error if a tree goes to standard output, otherwise on standard output.
pub fn to(standard_error: bool, text: &str) -> Result<(), Failure> {
    if standard_error {
        tell(text);
        return Ok(());
    }
    print(text.as_bytes())
}

/// A number with separated thousands.
pub fn grouped(number: impl Into<u64>) -> String {
    let digits = number.into().to_string();
    let mut text = String::new();
    for (at, digit) in digits.chars().enumerate() {
        if at > 0 && (digits.len() - at) % 3 == 0 {
            text.push(',');
        }
        text.push(digit);
    }
    text
}

/// A number and a noun, plural if needed.
pub fn several(number: impl Into<u64>, one: &str) -> String {
    match (number.into(), one.strip_suffix('y')) {
        (1, _) => format!("1 {one}"),
        (number, Some(stem)) if !one.ends_with("day") => format!("{} {stem}ies", grouped(number)),
        (number, _) => format!("{} {one}s", grouped(number)),
    }
}

#[cfg(test)]
mod tests {
    use super::{grouped, several};

    #[test]
    fn numbers_in_words() {
        assert_eq!([0u32, 12, 999, 1000, 8_388_608].map(grouped), ["0", "12", "999", "1,000", "8,388,608"]);
        assert_eq!((several(1u32, "entry"), several(2u32, "entry"), several(0u32, "byte")), ("1 entry".into(), "2 entries".into(), "0 bytes".into()));
        assert_eq!((several(1u32, "day"), several(3654u32, "day")), ("1 day".into(), "3,654 days".into()));
    }
}
