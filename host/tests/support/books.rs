//! Code books: rows of a code, a space and its cuts, each ended by byte 10.
//!
//! A book is a list of sections. A fresh section is one series: codes that share a prefix and count upwards, with cuts that follow each other (in rising
//! order, or with one cut changed) or are drawn one by one. Another section repeats an earlier part of the book, with a row corrected now and then, or under
//! another prefix. The kinds differ in the share of each.

use super::Rng;

#[derive(Clone, Copy, Debug, PartialEq, Eq)]
pub enum Kind {
    /// Nearly all sections repeat an earlier part, one row in 500 corrected.
    Repetitive,
    /// More than half repeat an earlier part, one row in 60 corrected; some rename the prefix; the rest are fresh.
    Mixed,
    /// Fresh series only, cuts drawn one by one.
    NearlyRandom,
}

#[derive(Clone)]
struct Row {
    code: String,
    cuts: Vec<u8>,
}

impl Row {
    fn length(&self) -> usize {
        self.code.len() + self.cuts.len() + 2
    }
}

const PREFIXES: [&str; 16] = ["", "A", "B", "X", "V", "K", "HON", "CH", "FR", "UM", "KA-", "5K", "GM", "T2", "S/", "Z10"];

/// A book with rows of one width, 16 with the end: a code of eight bytes, a space and six cuts. `Repetitive` repeats one series of 500 rows,
/// a row in 500 corrected; `Mixed` counts on in one series, with cuts in rising order; in `NearlyRandom` the cuts are drawn one by one. No longer than `size`.
pub fn even_book(kind: Kind, size: usize, seed: u64) -> Vec<u8> {
    let mut rng = Rng::new(seed ^ ((kind as u64 + 1) << 33));
    let rule = Rule { low: 1, high: 6, step: 3 };
    let mut cuts = rule.draw(&mut rng, 6);
    let mut text: Vec<u8> = Vec::with_capacity(size);
    for number in 0..size / EVEN_WIDTH {
        if kind == Kind::Repetitive && number >= 500 {
            let from = text.len() - 500 * EVEN_WIDTH;
            text.extend_from_within(from..from + EVEN_WIDTH);
            if rng.one_in(500) {
                let at = text.len() - 2 - rng.below(6);
                text[at] = b'0' + rng.within(1, 6) as u8;
            }
            continue;
        }
        text.extend_from_slice(format!("CH{number:06} ").as_bytes());
        text.extend(cuts.iter().map(|cut| b'0' + cut));
        text.push(b'\n');
        match kind {
            Kind::NearlyRandom => cuts = rule.draw(&mut rng, 6),
            _ => rule.rise(&mut cuts),
        }
    }
    text
}

/// Bytes of a row of `even_book`, its end included.
pub const EVEN_WIDTH: usize = 16;

/// A book of exactly `size` bytes; `size` is at least 4.
pub fn book(kind: Kind, size: usize, seed: u64) -> Vec<u8> {
    let mut rng = Rng::new(seed ^ ((kind as u64 + 1) << 32));
    let mut rows: Vec<Row> = Vec::new();
    let mut length = 0;
    while length < size {
        let section = section(&mut rng, kind, &rows);
        length += section.iter().map(Row::length).sum::<usize>();
        rows.extend(section);
    }
    let mut text = Vec::with_capacity(length);
    for row in rows {
        text.extend_from_slice(row.code.as_bytes());
        text.push(b' ');
        text.extend(row.cuts.iter().map(|cut| b'0' + cut));
        text.push(b'\n');
    }
    // the last row is cut short to the size
    text.truncate(size - 1);
    text.push(b'\n');
    text
}

fn section(rng: &mut Rng, kind: Kind, rows: &[Row]) -> Vec<Row> {
    let length = rng.within(100, 1600);
    let dice = rng.below(100);
    match kind {
        Kind::NearlyRandom => fresh(rng, length, Series::Drawn),
        _ if rows.is_empty() => fresh(rng, length, Series::Rising),
        Kind::Repetitive if dice < 92 => listed_again(rng, rows, length, 500),
        Kind::Repetitive => fresh_near(rng, length / 4 + 20),
        Kind::Mixed if dice < 55 => listed_again(rng, rows, length, 60),
        Kind::Mixed if dice < 70 => renamed(rng, rows, length),
        Kind::Mixed => fresh_near(rng, length),
    }
}

#[derive(Clone, Copy)]
enum Series {
    Rising,
    OneChanged,
    Drawn,
}

fn fresh_near(rng: &mut Rng, rows: usize) -> Vec<Row> {
    let series = *rng.pick(&[Series::Rising, Series::OneChanged]);
    fresh(rng, rows, series)
}

/// A lock's rule: the depths of its cuts, and how far neighbours may differ.
struct Rule {
    low: usize,
    high: usize,
    step: usize,
}

impl Rule {
    fn draw(&self, rng: &mut Rng, cuts: usize) -> Vec<u8> {
        let mut drawn = vec![rng.within(self.low, self.high) as u8];
        while drawn.len() < cuts {
            let last = drawn[drawn.len() - 1] as usize;
            drawn.push(rng.within(self.low.max(last.saturating_sub(self.step)), self.high.min(last + self.step)) as u8);
        }
        drawn
    }

    /// The next cuts in rising order.
    fn rise(&self, cuts: &mut [u8]) {
        for i in (0..cuts.len()).rev() {
            let top = if i == 0 { self.high } else { self.high.min(cuts[i - 1] as usize + self.step) };
            if (cuts[i] as usize) < top {
                cuts[i] += 1;
                return self.lowest_from(cuts, i + 1);
            }
        }
        cuts[0] = self.low as u8;
        self.lowest_from(cuts, 1);
    }

    fn lowest_from(&self, cuts: &mut [u8], from: usize) {
        for i in from..cuts.len() {
            cuts[i] = self.low.max((cuts[i - 1] as usize).saturating_sub(self.step)) as u8;
        }
    }
}

fn fresh(rng: &mut Rng, rows: usize, series: Series) -> Vec<Row> {
    let prefix = *rng.pick(&PREFIXES);
    let width = rng.within(3, 6);
    let low = rng.below(2);
    let rule = Rule { low, high: (low + rng.within(3, 8)).min(9), step: rng.within(2, 5) };
    let length = rng.within(5, 8);
    let mut cuts = rule.draw(rng, length);
    let mut number = rng.below(10usize.pow(width as u32 - 1));
    let mut list = Vec::new();
    for _ in 0..rows {
        let code = format!("{prefix}{:0width$}", number % 10usize.pow(width as u32));
        list.push(Row { code, cuts: cuts.clone() });
        number += if rng.one_in(200) { rng.within(1, 50) } else { 1 };
        match series {
            Series::Rising => rule.rise(&mut cuts),
            Series::OneChanged => {
                let at = rng.below(length);
                cuts[at] = rng.within(rule.low, rule.high) as u8;
            }
            Series::Drawn => cuts = rule.draw(rng, length),
        }
    }
    list
}

fn stretch<'a>(rng: &mut Rng, rows: &'a [Row], length: usize) -> &'a [Row] {
    let length = length.min(rows.len());
    let from = rng.below(rows.len() - length + 1);
    &rows[from..from + length]
}

fn listed_again(rng: &mut Rng, rows: &[Row], length: usize, corrected_one_in: usize) -> Vec<Row> {
    let mut list = stretch(rng, rows, length).to_vec();
    for row in &mut list {
        if rng.one_in(corrected_one_in) {
            let at = rng.below(row.cuts.len());
            row.cuts[at] = (row.cuts[at] + rng.within(1, 9) as u8) % 10;
        }
    }
    list
}

fn renamed(rng: &mut Rng, rows: &[Row], length: usize) -> Vec<Row> {
    let prefix: String = (0..2).map(|_| (b'A' + rng.below(26) as u8) as char).collect();
    let mut list = stretch(rng, rows, length).to_vec();
    for row in &mut list {
        row.code = format!("{prefix}{}", row.code.trim_start_matches(|c: char| !c.is_ascii_digit()));
    }
    list
}
