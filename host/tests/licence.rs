//! Licence dates: the library compared with the model on every day of its range, on random licences, and on bytes that are no date.

mod model;
mod support;

use codebook::calls;
use model::dates::{self, calendar};
use support::{to_hex, Rng};

/// Renews a copy of a day: the refusal, and the copy afterwards.
fn renew(day: &[u8]) -> (u32, Vec<u8>) {
    let mut lent = day.to_vec().into_boxed_slice();
    let number = calls::renew(&mut lent);
    (number, lent.into_vec())
}

#[test]
fn the_calendar() {
    let days = calendar();
    assert_eq!((days.len(), days[0].as_str(), days[36_524].as_str()), (36_525, "20000101", "20991231"));
    assert_eq!((dates::place(b"20000229"), dates::place(b"20010229"), dates::place(b"20240301")), (Some(59), None, Some(8_826)));
}

/// Days left from each day to the first, the last and the next; each one renewed, which lies 365 or 366 days on.
#[test]
fn every_day() {
    let days = calendar();
    for (number, day) in days.iter().enumerate() {
        let day = day.as_bytes();
        assert_eq!(calls::days_left(day, days[0].as_bytes()), (0, number as i32));
        assert_eq!(calls::days_left(days[36_524].as_bytes(), day), (0, 36_524 - number as i32));
        if let Some(next) = days.get(number + 1) {
            assert_eq!(calls::days_left(day, next.as_bytes()), (0, -1));
            assert_eq!(calls::open_on(day, day, next.as_bytes()), (0, 0));
            assert_eq!(calls::open_on(next.as_bytes(), day, day), (23, 0));
        }
        assert_eq!(calls::open_on(day, day, day), (0, 1));
        let renewed = renew(day);
        assert_eq!(renewed, dates::renew(day));
        if renewed.0 == 0 {
            let later = calls::days_left(&renewed.1, day);
            assert!(later == (0, 365) || later == (0, 366), "{later:?}");
        } else {
            assert_eq!((renewed.0, &day[..4], &renewed.1[..]), (22, b"2099".as_slice(), day));
        }
    }
}

/// Months and days that run past their ends, in years in and about the range.
#[test]
fn every_edge() {
    for year in 1998..=2101 {
        for month in 0..=13 {
            for day in [0, 1, 2, 27, 28, 29, 30, 31, 32, 99] {
                compare(format!("{year}{month:02}{day:02}").as_bytes(), b"20240229", b"20250228");
            }
        }
    }
}

#[test]
fn random_licences() {
    let mut seen = [0; 3];
    for round in 0..100_000 {
        let mut rng = Rng::new(0x112 << 32 | round);
        let [first, last, today] = [0; 3].map(|_| some_bytes(&mut rng));
        match compare(&first, &last, &today).0 {
            0 => seen[0] += 1,
            22 => seen[1] += 1,
            _ => seen[2] += 1,
        }
    }
    assert!(seen.iter().all(|&many| many > 5000), "{seen:?}");
}

/// Mostly a date, sometimes near another one; or bytes that are no date: a digit changed, bytes removed or added, or any bytes.
fn some_bytes(rng: &mut Rng) -> Box<[u8]> {
    let days = calendar();
    let near = 8_800 + rng.below(40);
    let mut bytes = days[if rng.one_in(2) { near } else { rng.below(days.len()) }].clone().into_bytes();
    match rng.below(24) {
        0 => {
            let at = rng.below(8);
            bytes[at] = b'0' + rng.below(10) as u8;
        }
        1 => {
            let at = rng.below(8);
            bytes[at] = *rng.pick(b"/: -+aO\0\xFF");
        }
        2 => bytes.truncate(rng.below(8)),
        3 => bytes.extend((0..rng.within(1, 9)).map(|_| b'0')),
        4 => bytes = (0..rng.below(12)).map(|_| rng.next() as u8).collect(),
        _ => {}
    }
    bytes.into_boxed_slice()
}

/// All three calls. Returns the result of open.
fn compare(first: &[u8], last: &[u8], today: &[u8]) -> (u32, u32) {
    let open = calls::open_on(first, last, today);
    assert_eq!(open, dates::open_on(first, last, today), "open {} {} {}", to_hex(first), to_hex(last), to_hex(today));
    assert_eq!(calls::days_left(last, today), dates::days_left(last, today), "left {} {}", to_hex(last), to_hex(today));
    assert_eq!(renew(first), dates::renew(first), "renew {}", to_hex(first));
    open
}
