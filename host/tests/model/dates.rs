//! Licence dates, by a calendar that lists every day and is searched.

use std::sync::OnceLock;

/// Every day from 20000101 to 20991231, in order, as eight digits.
pub fn calendar() -> &'static [String] {
    static DAYS: OnceLock<Vec<String>> = OnceLock::new();
    DAYS.get_or_init(|| {
        let mut days = Vec::new();
        for year in 2000..=2099 {
            // 2000 is the only year of the calendar that is divisible by 100, and it has a 29 February
            let february = if year % 4 == 0 { 29 } else { 28 };
            let lengths = [31, february, 31, 30, 31, 30, 31, 31, 30, 31, 30, 31];
            for (month, length) in (1..).zip(lengths) {
                days.extend((1..=length).map(|day| format!("{year}{month:02}{day:02}")));
            }
        }
        days
    })
}

/// The index of a day in the calendar.
pub fn place(day: &[u8]) -> Option<usize> {
    calendar().binary_search_by(|known| known.as_bytes().cmp(day)).ok()
}

/// The refusal, and 1 for open.
pub fn open_on(first: &[u8], last: &[u8], today: &[u8]) -> (u32, u32) {
    match (place(first), place(last), place(today)) {
        (Some(first), Some(last), Some(_)) if last < first => (23, 0),
        (Some(first), Some(last), Some(today)) => (0, u32::from((first..=last).contains(&today))),
        _ => (22, 0),
    }
}

/// The refusal and the days left.
pub fn days_left(last: &[u8], today: &[u8]) -> (u32, i32) {
    match (place(last), place(today)) {
        (Some(last), Some(today)) => (0, last as i32 - today as i32),
        _ => (22, 0),
    }
}

/// The refusal, and the day in the buffer afterwards.
pub fn renew(day: &[u8]) -> (u32, Vec<u8>) {
    let next_year = |at: usize| {
        let known = &calendar()[at];
        let (year, rest) = known.split_at(4);
        let rest = if rest == "0229" { "0228" } else { rest };
        format!("{}{rest}", year.parse::<u32>().expect("a year") + 1)
    };
    let renewed = place(day).map(next_year).filter(|renewed| place(renewed.as_bytes()).is_some());
    renewed.map_or((22, day.to_vec()), |renewed| (0, renewed.into_bytes()))
}
