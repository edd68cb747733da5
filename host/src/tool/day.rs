//! Days, as calls and manifests write them.

use codebook::{days_left, open_on, Refusal};
use std::fmt::{self, Display, Formatter};
use std::time::{SystemTime, UNIX_EPOCH};

/// A day that the library knows: 2000-01-01 to 2099-12-31.
#[derive(Clone, Copy, Debug, PartialEq, Eq)]
pub struct Day([u8; 8]);

impl Day {
    /// Reads 2024-02-29.
    pub fn dashed(word: &str) -> Option<Self> {
        match word.as_bytes() {
            &[a, b, c, d, b'-', e, f, b'-', g, h] => Day::new([a, b, c, d, e, f, g, h]),
            _ => None,
        }
    }

    /// Reads 2024-02-29, or 20240229 as `licence` takes it.
    pub fn read(word: &str) -> Option<Self> {
        Day::dashed(word).or_else(|| Day::new(word.as_bytes().try_into().ok()?))
    }

    /// The library decides which digits are a day.
    fn new(digits: [u8; 8]) -> Option<Self> {
        days_left(&digits, &digits).is_ok().then_some(Day(digits))
    }

    /// The clock's day, in universal time; none outside the years that the library knows.
    pub fn today() -> Option<Self> {
        Day::read(&today())
    }
}

impl Display for Day {
    fn fmt(&self, formatter: &mut Formatter) -> fmt::Result {
        let [a, b, c, d, e, f, g, h] = self.0.map(char::from);
        write!(formatter, "{a}{b}{c}{d}-{e}{f}-{g}{h}")
    }
}

/// The first and the last day of a licence, both included.
#[derive(Clone, Copy, Debug, PartialEq, Eq)]
pub struct Term {
    pub first: Day,
    pub last: Day,
}

impl Term {
    /// Whether the book is open on this day, by the proved call.
    pub fn is_open(&self, today: Day) -> Result<bool, Refusal> {
        open_on(&self.first.0, &self.last.0, &today.0)
    }

    /// The days left on this day; below zero after the last one.
    pub fn left(&self, today: Day) -> Result<i32, Refusal> {
        days_left(&self.last.0, &today.0)
    }
}

impl Display for Term {
    fn fmt(&self, formatter: &mut Formatter) -> fmt::Result {
        write!(formatter, "{} to {}", self.first, self.last)
    }
}

/// Today's date, by the clock, in universal time, in eight digits.
pub fn today() -> String {
    let seconds = SystemTime::now().duration_since(UNIX_EPOCH).map_or(0, |since| since.as_secs());
    date_of(seconds / 86_400)
}

/// The date this number of days after 1 January 1970.
fn date_of(days: u64) -> String {
    let leap = |year: u64| year % 4 == 0 && (year % 100 != 0 || year % 400 == 0);
    let (mut rest, mut year, mut month) = (days, 1970, 1);
    loop {
        let length = match month {
            2 => 28 + u64::from(leap(year)),
            4 | 6 | 9 | 11 => 30,
            _ => 31,
        };
        if rest < length {
            return format!("{year:04}{month:02}{:02}", rest + 1);
        }
        rest -= length;
        (year, month) = if month == 12 { (year + 1, 1) } else { (year, month + 1) };
    }
}

#[cfg(test)]
mod tests {
    use super::{date_of, days_left, Day, Term};

    /// The library accepts the clock's dates, day by day.
    #[test]
    fn dates_of_the_clock() {
        assert_eq!([0, 58, 59, 789, 10_957, 19_782].map(date_of), ["19700101", "19700228", "19700301", "19720229", "20000101", "20240229"]);
        for day in 0..36_525 {
            assert_eq!(days_left(date_of(10_957 + day).as_bytes(), b"20000101"), Ok(day as i32));
        }
    }

    #[test]
    fn days() {
        let day = Day::dashed("2024-02-29").expect("a day");
        assert_eq!((Day::read("2024-02-29"), Day::read("20240229"), day.to_string()), (Some(day), Some(day), "2024-02-29".to_owned()));
        for word in ["", "2023-02-29", "2024-2-29", "2024-02-290", "2024/02/29", "1999-12-31", "2100-01-01", "20240230", "2024-0229", "２０２４0229"]
        {
            assert_eq!(Day::read(word), None, "{word}");
        }
        assert_eq!(Day::dashed("20240229"), None);
        let term = Term { first: day, last: Day::dashed("2024-03-01").expect("a day") };
        let open = |word: &str| term.is_open(Day::dashed(word).expect("a day"));
        assert_eq!((open("2024-02-28"), open("2024-02-29"), open("2024-03-01"), open("2024-03-02")), (Ok(false), Ok(true), Ok(true), Ok(false)));
        assert_eq!(term.left(day), Ok(1));
    }
}
