//! Licence dates: days as eight digits, year, month and day, from 20000101 to 20991231.

use crate::calls;
use crate::refusal::{answer, Refusal};

/// Whether a book licensed from `first` to `last`, both included, is open on the day `today`.
pub fn open_on(first: &[u8], last: &[u8], today: &[u8]) -> Result<bool, Refusal> {
    let (number, open) = calls::open_on(first, last, today);
    answer(number, open == 1)
}

/// The days from `today` to `last`: 0 on the last day, negative after it.
pub fn days_left(last: &[u8], today: &[u8]) -> Result<i32, Refusal> {
    let (number, days) = calls::days_left(last, today);
    answer(number, days)
}

/// The same day one year later; 28 February for a 29 February.
pub fn renew(day: &[u8]) -> Result<Vec<u8>, Refusal> {
    let mut day = day.to_vec();
    let number = calls::renew(&mut day);
    answer(number, day)
}
