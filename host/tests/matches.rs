//! All matches of a book in one pass over the text: the same rows as the library's calls return one by one, on valid, damaged and wild trees.
//!
//! ROUNDS sets the number of rounds of the test on short texts, SEED the start of the random numbers.

#[path = "support/damage.rs"]
mod damage;
#[path = "support/folder.rs"]
mod folder;
mod model;
mod support;

use codebook::{build, Range, Refusal, Settings, Tree};
use folder::{Done, Folder};
use model::build as model_build;
use std::collections::BTreeSet;
use std::time::{Duration, Instant};
use support::books::{even_book, Kind};
use support::{rounds, setting, to_hex, Rng};

type Rows = Result<Vec<(u32, Vec<u8>)>, Refusal>;

fn in_one_pass(tree: Tree, ranges: &[Range], mark: u32) -> Rows {
    let mut rows = Vec::new();
    tree.each_match(ranges, mark, |number, row| rows.push((number, row.to_vec()))).map(|()| rows)
}

/// The library's call for each match.
fn one_by_one(tree: Tree, ranges: &[Range], mut mark: u32) -> Rows {
    let mut rows = Vec::new();
    while let Some(number) = tree.next_match(ranges, &mut mark)? {
        rows.push((number, tree.row(number)?));
    }
    Ok(rows)
}

/// The same for any bytes: the first match and its place by the library's calls, then one by one in a valid tree of the text from there on.
fn from_the_first(tree: Tree, ranges: &[Range], mut mark: u32) -> Rows {
    let Some(first) = tree.next_match(ranges, &mut mark)? else { return Ok(Vec::new()) };
    let start = if first == 1 { 0 } else { tree.find(10, first - 1)?.value + 1 };
    let text = tree.span(start, tree.text_length() - start)?.value;
    let rest = build(&text, &Settings { leaf: 8, arity: 2, levels: 3, counted: vec![10] }).expect("a tree");
    let rows = one_by_one(Tree::checked(&rest).expect("a tree"), ranges, 0)?;
    Ok(rows.into_iter().map(|(number, row)| ((first - 1).saturating_add(number), row)).collect())
}

/// Rows that are keys or nearly: whole keys, and parts of keys, spaces and ends of rows, put together.
fn nearly_keys(rng: &mut Rng) -> Vec<u8> {
    const PARTS: [&[u8]; 16] =
        [b"A", b"CH0501", b"ABCDEFGHIJKL", b"\xff", b" ", b" ", b" ", b"0", b"12", b"345", b"0123456789", b"\n", b"\n", b"\r\n", b"\r", b"\n\n"];
    const KEYS: [&[u8]; 8] = [b"A 1\n", b"BC 2\r\n", b"D 34\n", b"\r 5\n", b"ABCDEFGHIJKL 678\n", b"E 0123456789\n", b"F  1\n", b"G 90"];
    let lists = [&KEYS[..], &PARTS];
    (0..rng.below(12))
        .flat_map(|_| {
            let list = *rng.pick(&lists);
            rng.pick(list).iter().copied()
        })
        .collect()
}

/// Ranges for 1 to 10 cuts, wide ones and single depths; sometimes refused ones.
fn ranges(rng: &mut Rng) -> Vec<Range> {
    let range = |rng: &mut Rng| match rng.below(16) {
        0 => Range { low: 3, high: 2 },
        1 => Range { low: 0, high: 10 },
        2..=5 => {
            let low = rng.below(10) as u8;
            Range { low, high: rng.within(low.into(), 9) as u8 }
        }
        _ => Range { low: 0, high: 9 },
    };
    let cuts = *rng.pick(&[1, 1, 1, 1, 2, 2, 3, 4, 10, 0, 11]);
    (0..cuts).map(|_| range(rng)).collect()
}

#[test]
fn the_same_rows_as_single_calls() {
    let (mut reached, mut shown) = (BTreeSet::new(), 0);
    rounds(20_000, |rng| {
        let text = nearly_keys(rng);
        let (shape, mut counted) = (damage::shape(rng), damage::counted(rng));
        if !rng.one_in(20) && !counted.contains(&10) {
            counted = vec![10];
        }
        let built = model_build::plain_tree(&text, shape, &counted);
        let other = damage::other_tree(rng, &text, shape, &counted);
        let mut damaged = other.clone();
        damage::damage(rng, &mut damaged);
        for (good, bytes) in [(true, built), (true, other), (false, damaged), (false, damage::wild_tree(rng))] {
            let (tree, ranges, mark) = (Tree::unchecked(&bytes), ranges(rng), if rng.one_in(3) { rng.below(9) as u32 } else { 0 });
            let rows = in_one_pass(tree, &ranges, mark);
            assert_eq!(rows, from_the_first(tree, &ranges, mark), "{ranges:?} {mark} {}", to_hex(&bytes));
            if good {
                assert_eq!(rows, one_by_one(tree, &ranges, mark), "{ranges:?} {mark} {}", to_hex(&bytes));
            }
            shown += rows.as_ref().map_or(0, Vec::len);
            reached.insert(rows.err().map_or(0, Refusal::number));
        }
    });
    let rounds = setting("ROUNDS", 20_000);
    if rounds >= 1000 {
        assert_eq!(reached, [0, 5, 6, 7, 11, 14, 19].into());
        assert!(shown > rounds as usize / 4, "{shown}");
    }
}

/// The run that took the shortest time of three, and its time.
fn timed(folder: &Folder, words: &str) -> (Done, Duration) {
    let runs = (0..3).map(|_| {
        let start = Instant::now();
        (folder.run(words), start.elapsed())
    });
    runs.min_by_key(|(_, time)| *time).expect("three runs")
}

/// All rows of the longest book match. A find for each, and a buffer of the text's length, took more than a minute; the bound here leaves room for a
/// loaded machine.
#[test]
fn every_row_of_a_long_book() {
    let folder = Folder::new("many-matches");
    let book = even_book(Kind::NearlyRandom, 8 << 20, 1);
    folder.write("long.txt", &book);
    folder.run("build long.txt -q --leaf 256 --arity 2 --levels 1").succeeds();
    let (text, reading) = timed(&folder, "text long.tree");
    assert!(text.succeeds().output.stdout == book);
    let (matched, matching) = timed(&folder, "match ?????? long.tree");
    let rows = codebook::text_rows(&book).enumerate().flat_map(|(at, row)| [format!("row {}: ", at + 1).as_bytes(), row, b"\n"].concat());
    assert!(matched.succeeds().output.stdout == rows.collect::<Vec<u8>>());
    assert!(matching < 10 * reading + Duration::from_secs(2), "{matching:?}, and {reading:?} for the text");
    // from the middle on, and the last alone
    let last: String = folder.run("match ?????? long.tree --from 524288").succeeds().printed();
    assert!(last.starts_with("row 524288: ") && last.lines().count() == 1);
    assert_eq!(folder.run("match ?????? long.tree --from 300000").succeeds().printed().lines().count(), 224_289);
}
