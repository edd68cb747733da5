//! The library compared with the model: random texts, settings and questions; valid, damaged and wild trees; short and long.
//!
//! ROUNDS sets the number of rounds of the tests on short texts (valgrind-damaged sets a small one), SEED the start of the random numbers.

#[path = "support/damage.rs"]
mod damage;
#[path = "support/judge.rs"]
mod judge;
mod model;
mod support;

use codebook::{calls, Refusal, Tree, MAX_TEXT};
use judge::{find_agrees, lent, match_agrees, row_agrees, FILL, FILL_WORD};
use model::read::Answer;
use model::{build, check, fast, keys, prefix, read, Shape};
use std::collections::{BTreeMap, BTreeSet};
use support::books::{book, Kind};
use support::{hostile, rounds, setting, to_hex, Rng};

/// A table of this many words, each filled with one value.
fn lent_words(words: usize) -> Box<[u32]> {
    vec![FILL_WORD; words].into_boxed_slice()
}

fn library_build(text: &[u8], shape: Shape, counted: &[u8], out: &mut [u8]) -> (u32, u32) {
    calls::build(text, shape.m, shape.r, shape.h, counted, out)
}

#[test]
fn builds() {
    rounds(10_000, |rng| {
        let text = damage::text(rng, 120);
        let (shape, counted) = (damage::shape(rng), damage::counted(rng));
        let tree = build::plain_tree(&text, shape, &counted);
        let lengths = [tree.len(), tree.len() + rng.below(9), tree.len() - 1 - rng.below(tree.len()), tree.len() - 1];
        for length in lengths {
            let (mut expected, mut got) = (lent(length), lent(length));
            let answer = build::build(&text, shape, &counted, &mut expected);
            assert_eq!(library_build(&text, shape, &counted, &mut got), answer, "{shape:?} {counted:?} {}", to_hex(&text));
            assert!(got == expected, "{shape:?} {counted:?} {} in {length}", to_hex(&text));
        }
        let (number, enough) = calls::size_bound(text.len() as u32, shape.m, shape.r, shape.h, counted.len() as u32);
        assert_eq!(number, 0);
        assert!(enough >= tree.len() as u64);
    });
}

#[test]
fn build_refusals() {
    rounds(4000, |rng| {
        let text = if rng.one_in(3) { Vec::new() } else { damage::text(rng, 8) };
        let odd = |rng: &mut Rng, most: usize| if rng.one_in(12) { damage::odd_word(rng, 1) } else { rng.within(0, most) as u32 };
        let shape = Shape::new(odd(rng, 257), odd(rng, 17), odd(rng, 9));
        let counted: Vec<u8> = (0..rng.below(6)).map(|i| if rng.one_in(4) { rng.next() as u8 } else { 40 * i as u8 }).collect();
        let length = rng.below(400);
        let (mut expected, mut got) = (lent(length), lent(length));
        let answer = build::build(&text, shape, &counted, &mut expected);
        assert_eq!(library_build(&text, shape, &counted, &mut got), answer, "{shape:?} {counted:?} {}", to_hex(&text));
        assert!(got == expected);
        let rising = counted.windows(2).all(|pair| pair[0] < pair[1]);
        if answer.0 < 3 || counted.len() > 4 || rising {
            let expected = if answer.0 == 4 { 0 } else { answer.0 };
            let (number, size) = calls::size_bound(text.len() as u32, shape.m, shape.r, shape.h, counted.len() as u32);
            assert_eq!((number, size == 0), (expected, expected != 0));
        }
    });
}

/// A table of exactly this many words, of any content.
fn table(rng: &mut Rng, words: usize) -> Box<[u32]> {
    (0..words).map(|_| rng.next() as u32).collect()
}

/// The builder with one scan a level, in a table of any content: its result and the buffer afterwards. Unless the result is 0 or 4, the table is
/// unchanged; unless it is 18, the first builder returns and writes the same.
fn library_scan(rng: &mut Rng, text: &[u8], shape: Shape, counted: &[u8], words: usize, out: &mut [u8]) -> (u32, u32, u32) {
    let mut first = out.to_vec().into_boxed_slice();
    let before = table(rng, words);
    let mut work = before.clone();
    let (number, size, windows) = calls::build_scanned(text, shape.m, shape.r, shape.h, counted, &mut work, out);
    assert!(number == 0 || number == 4 || work == before, "{number}");
    if number != 18 {
        assert_eq!(library_build(text, shape, counted, &mut first), (number, size));
        assert!(*first == *out);
    }
    (number, size, windows)
}

#[test]
fn scans() {
    rounds(10_000, |rng| {
        let text = damage::text(rng, 120);
        let (shape, counted) = (damage::shape(rng), damage::counted(rng));
        let tree = build::plain_tree(&text, shape, &counted);
        let needed = calls::scan_words(text.len() as u32, shape.m) as usize;
        assert_eq!(needed, 4 * text.len().div_ceil(shape.m as usize));
        let enough = needed + rng.below(9);
        let cases = [
            (needed, tree.len()),
            (enough, tree.len() + rng.below(9)),
            (enough, rng.below(tree.len())),
            (needed.saturating_sub(1), tree.len()),
            (rng.below(needed.max(1)), rng.below(tree.len())),
        ];
        for (words, length) in cases {
            let (mut expected, mut got) = (lent(length), lent(length));
            let answer = build::scan_with(&text, shape, &counted, words, &mut expected, |_, _, _| tree.clone());
            assert_eq!(
                library_scan(rng, &text, shape, &counted, words, &mut got),
                answer,
                "{shape:?} {counted:?} {words} {length} {}",
                to_hex(&text)
            );
            assert!(got == expected, "{shape:?} {counted:?} {} in {length}", to_hex(&text));
        }
    });
}

/// 1, 2 and 3 come before 18, and 18 before 4.
#[test]
fn scan_refusals() {
    let mut reached = BTreeSet::new();
    rounds(4000, |rng| {
        let text = if rng.one_in(8) { Vec::new() } else { damage::text(rng, 8) };
        let odd = |rng: &mut Rng, most: usize| if rng.one_in(12) { damage::odd_word(rng, 1) } else { rng.within(0, most) as u32 };
        let shape = if rng.one_in(3) { Shape::new(odd(rng, 257), odd(rng, 17), odd(rng, 9)) } else { damage::shape(rng) };
        let counted: Vec<u8> = (0..rng.below(6)).map(|i| if rng.one_in(8) { rng.next() as u8 } else { 40 * i as u8 }).collect();
        let (words, length) = (rng.below(40), rng.below(400));
        let (mut expected, mut got) = (lent(length), lent(length));
        let answer = build::scan(&text, shape, &counted, words, &mut expected);
        assert_eq!(library_scan(rng, &text, shape, &counted, words, &mut got), answer, "{shape:?} {counted:?} {words} {}", to_hex(&text));
        assert!(got == expected);
        reached.insert(answer.0);
    });
    // refusal 1 is tested by `past_the_longest`
    if setting("ROUNDS", 4000) >= 1000 {
        assert_eq!(reached, [0, 2, 3, 4, 18].into());
    }
}

#[test]
fn scan_words() {
    for (n, leaf, words) in
        [(0, 1, 0), (1, 1, 4), (20, 2, 40), (21, 2, 44), (1_048_576, 1, 4_194_304), (5, 0, 0), (u32::MAX, 1, 17_179_869_180), (u32::MAX, u32::MAX, 4)]
    {
        assert_eq!(calls::scan_words(n, leaf), words, "{n} {leaf}");
    }
}

#[test]
fn valid_trees() {
    rounds(3000, |rng| {
        let text = damage::text(rng, 100);
        let (shape, counted) = (damage::shape(rng), damage::counted(rng));
        let built = build::plain_tree(&text, shape, &counted);
        let other = damage::other_tree(rng, &text, shape, &counted);
        for tree in [built, other] {
            let tree = tree.into_boxed_slice();
            assert_eq!(calls::check(&tree), 0, "{}", to_hex(&tree));
            let mut back = lent(text.len());
            assert_eq!(calls::span(&tree, 0, text.len() as u32, &mut back).0, 0);
            assert!(*back == *text, "{}", to_hex(&tree));
            ask(rng, &tree, 40);
        }
    });
}

#[test]
fn damaged_trees() {
    rounds(20_000, |rng| {
        let longest = if rng.one_in(4) { 200 } else { 60 };
        let text = damage::text(rng, longest);
        let (shape, counted) = (damage::shape(rng), damage::counted(rng));
        let mut tree = if rng.one_in(2) { build::plain_tree(&text, shape, &counted) } else { damage::other_tree(rng, &text, shape, &counted) };
        for _ in 0..rng.within(1, 3) {
            damage::damage(rng, &mut tree);
            ask(rng, &tree.clone().into_boxed_slice(), 30);
        }
    });
}

#[test]
fn wild_trees() {
    rounds(20_000, |rng| {
        let tree = damage::wild_tree(rng).into_boxed_slice();
        ask(rng, &tree, 30);
    });
}

#[test]
fn wild_bytes() {
    rounds(2000, |rng| {
        let mut bytes: Vec<u8> = (0..rng.below(300)).map(|_| if rng.one_in(3) { rng.next() as u8 } else { 0 }).collect();
        if rng.one_in(2) && bytes.len() >= 4 {
            damage::set_word(&mut bytes, 0, rng.within(1, 2) as u32);
        }
        ask(rng, &bytes.into_boxed_slice(), 5);
    });
}

/// Texts of two letters, in which patterns overlap, and more places than the library keeps in its first reading of the text.
#[test]
fn patterns() {
    rounds(1500, |rng| {
        let longest = if rng.one_in(4) { 900 } else { 120 };
        let mut text: Vec<u8> = (0..rng.within(1, longest)).map(|_| if rng.one_in(8) { b'B' } else { b'A' }).collect();
        if rng.one_in(3) {
            text.fill(b'A');
        }
        let tree = fast::tree(&text, damage::shape(rng), b"").into_boxed_slice();
        for _ in 0..8 {
            let from = rng.below(text.len());
            let pattern = &text[from..text.len().min(from + if rng.one_in(2) { 3 } else { 300 })];
            ask_places(rng, &tree, pattern);
        }
        // a pattern for which the search backtracks as often as possible at every byte
        let mut pattern = vec![b'A'; rng.within(1, 255)];
        pattern.push(b'B');
        ask_places(rng, &tree, &pattern);
    });
}

/// Question 13 compares the buffer with the lines' own length, after 15 and 5 to 9; a refusal has length 0 and leaves the buffer unchanged.
#[test]
fn list_and_its_buffer() {
    let tree = build::plain_tree(b"ABCD", Shape::new(2, 2, 2), b"");
    let lines = b"0 1 1 0\n1 2 2 0\n";
    for room in 0..lines.len() {
        let mut out = lent(room);
        assert_eq!(calls::list(&tree, &mut out), (13, 0), "{room}");
        assert_eq!(calls::list(&tree[..99], &mut out), (5, 0), "{room}");
        assert_eq!(calls::list(&[0; 65537], &mut out), (15, 0), "{room}");
        assert_eq!(out, lent(room));
    }
    for room in [lines.len(), lines.len() + 1, codebook::LIST_LENGTH] {
        let mut out = lent(room);
        assert_eq!(calls::list(&tree, &mut out), (0, lines.len() as u32), "{room}");
        assert_eq!(out[..], [lines.as_slice(), &lent(room - lines.len())].concat());
        assert_eq!(calls::list(&tree[..99], &mut out), (5, 0), "{room}");
        assert_eq!(out[..], [lines.as_slice(), &lent(room - lines.len())].concat());
    }
}

/// Compares the check, the list, and `questions` calls of each other kind, on a tree.
fn ask(rng: &mut Rng, tree: &[u8], questions: usize) {
    assert_eq!(calls::check(tree), check::check(tree), "check {}", to_hex(tree));
    let (number, lines) = check::list(tree);
    let (got, refusal) = codebook::list(tree);
    assert_eq!((got, refusal.err().map_or(0, |refusal| refusal.number())), (lines, number), "list {}", to_hex(tree));
    let n = read::Tree::open(tree).map_or(9, |tree| tree.n as usize);
    for _ in 0..questions {
        let number = if rng.one_in(20) { damage::odd_word(rng, n as u32) } else { rng.below(n + 2) as u32 };
        ask_at(rng, tree, number);
    }
    for _ in 0..questions.div_ceil(10) {
        let pattern = pattern(rng, tree);
        ask_places(rng, tree, &pattern);
        let ranges = ranges(rng);
        let mark = if rng.one_in(8) { damage::odd_word(rng, n as u32) } else { rng.below(6) as u32 };
        ask_match(tree, &ranges, mark);
        ask_prefix(tree, &pattern, mark);
    }
}

/// A pattern, mostly taken from the tree's own bytes, sometimes of a length that is refused.
fn pattern(rng: &mut Rng, tree: &[u8]) -> Vec<u8> {
    let length = match rng.below(12) {
        0 => *rng.pick(&[0, 255, 256, 257, 300]),
        1 => rng.below(40),
        _ => rng.within(1, 4),
    };
    let from = tree.len() - rng.below(tree.len().min(200) + 1);
    let mut pattern = tree[from..tree.len().min(from + length)].to_vec();
    pattern.resize(length, *rng.pick(b"AB\n"));
    pattern
}

/// All places of a pattern: into tables of no word, of exactly as many as there are places, of one less, and of some other length.
fn ask_places(rng: &mut Rng, tree: &[u8], pattern: &[u8]) {
    let all = read::Tree::open(tree).map_or(0, |tree| tree.n as usize);
    let places = read::places(tree, pattern, &mut lent_words(all)).1 as usize;
    for words in [0, places, places.saturating_sub(1), rng.below(all + 3)] {
        let (mut expected, mut got) = (lent_words(words), lent_words(words));
        let answer = read::places(tree, pattern, &mut expected);
        assert_eq!(calls::places(tree, pattern, &mut got), answer, "places {} in {words} words {}", to_hex(pattern), to_hex(tree));
        assert!(got == expected, "places {} in {words} words {}", to_hex(pattern), to_hex(tree));
    }
}

/// The ranges of a worn key, sometimes ones that are refused.
fn ranges(rng: &mut Rng) -> Vec<u8> {
    let cuts = if rng.one_in(10) { *rng.pick(&[0, 9, 10, 11, 130]) } else { rng.within(1, 3) };
    let mut ranges: Vec<u8> = (0..cuts).flat_map(|_| [rng.below(5) as u8, rng.within(4, 9) as u8]).collect();
    match rng.below(20) {
        0 => ranges.push(9),
        1 if cuts > 0 => ranges[0] = *rng.pick(&[10, 255, b'3']),
        2 if cuts > 0 => ranges.swap(0, 1),
        _ => {}
    }
    ranges
}

/// The next match after a mark.
fn ask_match(tree: &[u8], ranges: &[u8], mark: u32) -> (u32, u32, u32) {
    let mut after = mark;
    let (number, row) = calls::next_match(tree, ranges, &mut after);
    let (expected, got) = (keys::next_match(tree, ranges, mark), (number, row, after));
    assert!(match_agrees(expected, mark, got), "match {} {mark} gives {got:?}, not {expected:?} {}", to_hex(ranges), to_hex(tree));
    got
}

/// Books of keys, rows that are nearly keys, and other rows: calls from mark 0 until none return each match once, in order, and wider ranges return no fewer.
#[test]
fn worn_keys() {
    rounds(4000, |rng| {
        let mut text = Vec::new();
        for _ in 0..rng.below(12) {
            text.extend_from_slice(&key_row(rng));
            let end: &&[u8] = rng.pick(&[b"\n", b"\n", b"\r\n", b"\r\r\n", b"\n\n"]);
            text.extend_from_slice(end);
        }
        if text.is_empty() || rng.one_in(2) {
            text.extend_from_slice(&key_row(rng));
            let end: &&[u8] = rng.pick(&[b"", b"", b"\r"]);
            text.extend_from_slice(end);
        }
        text.resize(text.len().max(1), b' ');
        let shape = damage::shape(rng);
        let tree = damage::other_tree(rng, &text, shape, b"\n").into_boxed_slice();
        let cuts = rng.within(1, 3);
        let narrow: Vec<u8> = (0..cuts).flat_map(|_| [rng.within(1, 4) as u8, rng.within(4, 8) as u8]).collect();
        let wide: Vec<u8> = narrow.chunks(2).flat_map(|pair| [rng.below(pair[0] as usize + 1) as u8, rng.within(pair[1].into(), 9) as u8]).collect();
        let all = [&narrow, &wide].map(|ranges| all_matches(&tree, ranges));
        assert_eq!(all, [&narrow, &wide].map(|ranges| keys::matches_in(&text, ranges)));
        assert!(all[0].iter().all(|row| all[1].contains(row)));
    });
}

/// The matches from mark 0 until none.
fn all_matches(tree: &[u8], ranges: &[u8]) -> Vec<u32> {
    let mut shown = Vec::new();
    loop {
        match ask_match(tree, ranges, shown.last().copied().unwrap_or(0)) {
            (0, 0, _) => return shown,
            (0, row, _) => shown.push(row),
            other => panic!("{other:?} {}", to_hex(tree)),
        }
    }
}

/// The next row after a mark that starts with a prefix.
fn ask_prefix(tree: &[u8], wanted: &[u8], mark: u32) -> (u32, u32, u32) {
    let mut after = mark;
    let (number, row) = calls::next_with_prefix(tree, wanted, &mut after);
    let (expected, got) = (prefix::next_with_prefix(tree, wanted, mark), (number, row, after));
    assert!(match_agrees(expected, mark, got), "prefix {} {mark} gives {got:?}, not {expected:?} {}", to_hex(wanted), to_hex(tree));
    got
}

/// Calls from mark 0 until none return the rows that start with the prefix, once each, in order; the rows of a longer prefix are among them.
#[test]
fn rows_by_prefix() {
    rounds(4000, |rng| {
        let mut text = Vec::new();
        for _ in 0..rng.below(16) {
            text.extend((0..rng.below(6)).map(|_| *rng.pick(b"AAB \r")));
            text.extend_from_slice(rng.pick::<&[u8]>(&[b"\n", b"\n", b"\r\n", b"\r\r\n", b"\n\n", b"A"]));
        }
        text.push(*rng.pick(b"AB\n\r"));
        let shape = damage::shape(rng);
        let tree = damage::other_tree(rng, &text, shape, b"\n").into_boxed_slice();
        let long: Vec<u8> = (0..rng.within(2, 5)).map(|_| *rng.pick(b"AAAB \r\n")).collect();
        let short = &long[..rng.within(1, long.len() - 1)];
        let all = [&long[..], short].map(|wanted| all_with_prefix(&tree, wanted));
        assert_eq!(all, [&long[..], short].map(|wanted| prefix::rows_with_prefix(&text, wanted)));
        assert!(all[0].iter().all(|row| all[1].contains(row)));
        assert!(!short.contains(&10) || all[1].is_empty());
    });
}

/// The rows with a prefix from mark 0 until none.
fn all_with_prefix(tree: &[u8], wanted: &[u8]) -> Vec<u32> {
    let mut rows = Vec::new();
    loop {
        match ask_prefix(tree, wanted, rows.last().copied().unwrap_or(0)) {
            (0, 0, _) => return rows,
            (0, row, _) => rows.push(row),
            other => panic!("{other:?} {}", to_hex(tree)),
        }
    }
}

/// A row, mostly a key.
fn key_row(rng: &mut Rng) -> Vec<u8> {
    let code = if rng.one_in(6) { *rng.pick(&[0, 11, 12, 13]) } else { rng.within(1, 3) };
    let cuts = if rng.one_in(6) { *rng.pick(&[0, 10, 11]) } else { rng.within(1, 3) };
    let mut row: Vec<u8> = (0..code).map(|_| *rng.pick(b"AB7\r")).collect();
    row.push(b' ');
    row.extend((0..cuts).map(|_| b'0' + rng.below(10) as u8));
    if rng.one_in(8) {
        let at = rng.below(row.len());
        row[at] = *rng.pick(b" /:A\0");
    }
    row
}

fn ask_at(rng: &mut Rng, tree: &[u8], p: u32) {
    assert_eq!(calls::byte(tree, p), read::byte(tree, p), "byte {p} {}", to_hex(tree));
    assert_eq!(calls::run_range(tree, p), read::run(tree, p), "run {p} {}", to_hex(tree));

    let length = if rng.one_in(20) { rng.next() as u32 } else { rng.below(12) as u32 };
    let space = (length.min(40) as usize + rng.below(3)).saturating_sub(rng.below(3));
    let (mut expected, mut got) = (lent(space), lent(space));
    assert_eq!(calls::span(tree, p, length, &mut got), read::span(tree, p, length, &mut expected), "span {p} {length} {space} {}", to_hex(tree));
    assert!(got == expected, "span {p} {length} {space} {}", to_hex(tree));

    let byte = match rng.below(12) {
        0 => 256 + u32::from(*rng.pick(b"\nAB")),
        1 => rng.next() as u32 % 256,
        _ => u32::from(*tree.get(24 + rng.below(4)).unwrap_or(&10)),
    };
    assert_eq!(calls::count(tree, byte, p), read::count(tree, byte, p), "count {byte} {p} {}", to_hex(tree));

    let j = if rng.one_in(4) { p } else { rng.below(12) as u32 };
    let got = calls::find(tree, byte, j);
    assert!(find_agrees(read::find(tree, byte, j), got), "find {byte} {j} gives {got:?} {}", to_hex(tree));

    let space = rng.below(30);
    let (mut expected, mut buffer) = (lent(space), lent(space));
    let answer = read::row(tree, j, &mut expected);
    let got = calls::row(tree, j, &mut buffer);
    assert!(row_agrees(tree, (answer, &expected), (got, &buffer)), "row {j} in {space} gives {got:?} {} {}", to_hex(&buffer), to_hex(tree));
}

/// Longer books: the trees byte for byte, and many questions on each.
#[test]
fn long_books() {
    let mut rng = Rng::new(setting("SEED", 1));
    let shapes = [(64, 2, 4), (48, 2, 5), (16, 4, 3), (256, 2, 1), (3, 16, 3), (1, 2, 8)];
    for (at, (m, r, h)) in shapes.into_iter().enumerate() {
        for kind in [Kind::Repetitive, Kind::Mixed, Kind::NearlyRandom] {
            let mut text = book(kind, rng.within(10_000, 20_000), at as u64);
            if rng.one_in(2) {
                // the last row without its end
                text.pop();
            }
            let mut tree = compare_book(&mut rng, &text, Shape::new(m, r, h), b"\n 01", 300);
            for _ in 0..4 {
                damage::damage(&mut rng, &mut tree);
                ask(&mut rng, &tree.clone().into_boxed_slice(), 10);
            }
        }
    }
}

#[test]
fn books_of_a_megabyte() {
    let mut rng = Rng::new(setting("SEED", 1));
    let text = book(Kind::Mixed, 1_048_576, 3);
    compare_book(&mut rng, &text, Shape::new(256, 16, 3), b"\n", 300);
    compare_book(&mut rng, &text, Shape::new(256, 16, 4), b"\n5", 300);
    compare_book(&mut rng, &text, Shape::new(100, 2, 1), b"\n", 300);
    let run = vec![b'A'; 1_048_576];
    compare_book(&mut rng, &run, Shape::new(256, 16, 3), b"A", 300);
}

/// The tree by one scan a level, and the windows looked up.
fn compare_scan(rng: &mut Rng, text: &[u8], shape: Shape, counted: &[u8], expected: &[u8]) {
    let mut tree = lent(expected.len());
    let mut work = table(rng, 4 * text.len().div_ceil(shape.m as usize));
    let windows = build::windows(text.len(), shape, expected);
    assert_eq!(
        calls::build_scanned(text, shape.m, shape.r, shape.h, counted, &mut work, &mut tree),
        (0, expected.len() as u32, windows),
        "{shape:?}"
    );
    assert!(*tree == *expected, "{shape:?}");
}

/// Seeds, for the first word of a table. The last two give the bases 0 and 1, under which most windows have equal fingerprints.
const SEEDS: [u32; 6] = [0, u32::MAX, 1, 0x9E37_79B9, 1_540_483_477, 1_540_483_476];

/// The tree and the number of windows do not depend on the table's initial words, on hostile texts too.
#[test]
fn seeds() {
    let mut rng = Rng::new(setting("SEED", 1));
    let mut texts = hostile::texts(4_096);
    texts.push(("random bytes", hostile::random_bytes(4_096)));
    for (name, text) in texts {
        for shape in [Shape::new(16, 4, 3), Shape::new(1, 2, 2), Shape::new(3, 5, 3)] {
            let expected = fast::tree(&text, shape, b"\n");
            let windows = build::windows(text.len(), shape, &expected);
            let words = 4 * text.len().div_ceil(shape.m as usize);
            let tables = SEEDS.iter().map(|&seed| vec![seed; words].into_boxed_slice());
            for mut work in tables.chain((0..4).map(|_| table(&mut rng, words)).collect::<Vec<_>>()) {
                let (seed, mut tree) = (work[0], lent(expected.len()));
                let answer = calls::build_scanned(&text, shape.m, shape.r, shape.h, b"\n", &mut work, &mut tree);
                assert_eq!(answer, (0, expected.len() as u32, windows), "{name} {shape:?} {seed}");
                assert!(*tree == *expected, "{name} {shape:?} {seed}");
            }
        }
    }
}

/// Long books with small blocks, for which the first builder would need minutes: by one scan a level only.
#[test]
fn scanned_books() {
    let mut rng = Rng::new(setting("SEED", 1));
    let equal_blocks = [b"0123456789ABCDEF".repeat(4), b"fedcba9876543210".repeat(4)].concat().repeat(1024);
    let texts = [
        book(Kind::Repetitive, 1_048_576, 5),
        book(Kind::Mixed, 1_000_003, 6),
        book(Kind::NearlyRandom, 1_048_575, 7),
        vec![b'A'; 1_048_576],
        equal_blocks,
        (0..65_536u32).map(|place| place.count_ones() as u8 % 2).collect(),
    ];
    for text in texts {
        for shape in [Shape::new(64, 2, 4), Shape::new(16, 4, 3)] {
            let expected = fast::tree(&text, shape, b"\n");
            compare_scan(&mut rng, &text, shape, b"\n", &expected);
        }
    }
}

/// A book of the longest length: its tree is the model's, is accepted, and returns the book; one block of level 0 can contain all of it.
#[test]
fn longest_book() {
    let mut rng = Rng::new(setting("SEED", 1));
    let text = book(Kind::Repetitive, MAX_TEXT, 8);
    for shape in [Shape::new(64, 2, 4), Shape::new(256, 8, 6)] {
        let tree = fast::tree(&text, shape, b"\n");
        compare_scan(&mut rng, &text, shape, b"\n", &tree);
        ask_book(&mut rng, &text, shape, b"\n", &tree, 100);
        let mut read = lent(text.len());
        assert_eq!(calls::span(&tree, 0, text.len() as u32, &mut read), (0, 0), "{shape:?}");
        assert!(*read == *text, "{shape:?}");
    }
}

/// One byte more is refused, and so are longer blocks of level 0. The size bound, from the empty text to the longest.
#[test]
fn past_the_longest() {
    let text = vec![b'A'; MAX_TEXT + 1];
    let (mut out, mut work) = (lent(4), vec![0; 4 * text.len()]);
    assert_eq!(calls::build(&text, 2, 2, 2, b"A", &mut out), (1, 0));
    assert_eq!(calls::build_scanned(&text, 2, 2, 2, b"A", &mut work, &mut out), (1, 0, 0));
    assert!(*out == *lent(4));
    assert_eq!(calls::build(&text[1..], 256, 16, 5, b"A", &mut out), (2, 0));
    assert_eq!(calls::build(&text[1..], 256, 8, 6, b"A", &mut out), (4, 0));
    let largest = MAX_TEXT as u32;
    for (n, shape, answer) in [
        (largest, Shape::new(1, 2, 8), (0, 1_111_359_588)),
        (largest + 1, Shape::new(1, 2, 8), (1, 0)),
        (0, Shape::new(1, 2, 8), (0, 100)),
        (1, Shape::new(256, 8, 6), (0, 3_557)),
        (1, Shape::new(128, 16, 5), (0, 1_701)),
        (1, Shape::new(256, 8, 7), (2, 0)),
        (1, Shape::new(129, 16, 5), (2, 0)),
        (1, Shape::new(256, 16, 5), (2, 0)),
    ] {
        assert_eq!(calls::size_bound(n, shape.m, shape.r, shape.h, 4), answer, "{n} {shape:?}");
    }
}

/// The tree of this text is accepted, and the calls return what the text has.
fn ask_book(rng: &mut Rng, text: &[u8], shape: Shape, counted: &[u8], tree: &[u8], questions: usize) {
    assert_eq!(calls::check(tree), 0);
    for _ in 0..questions {
        let p = rng.below(text.len()) as u32;
        let (number, value, entered) = calls::byte(tree, p);
        assert_eq!((number, value), (0, u32::from(text[p as usize])));
        assert_eq!(entered, read::byte(tree, p).2);
        assert_eq!(calls::run_range(tree, p), read::run(tree, p));
        let length = rng.below(200.min(text.len() - p as usize));
        let mut span = lent(length);
        let (number, entered) = calls::span(tree, p, length as u32, &mut span);
        assert!(number == 0 && entered <= 2 * shape.h);
        assert!(*span == text[p as usize..p as usize + length]);
        let byte = *rng.pick(counted);
        let before = text[..p as usize].iter().filter(|&&here| here == byte).count();
        let count = calls::count(tree, byte.into(), p);
        assert_eq!((count.0, count.1), (0, before as u64));
        assert_eq!(count, read::count(tree, byte.into(), p));
        let j = before as u32 + 1;
        assert_eq!(calls::find(tree, byte.into(), j), fast::find(tree, byte.into(), j));
        let (mut expected, mut row) = (lent(60), lent(60));
        assert_eq!(calls::row(tree, j, &mut row), fast::row(tree, j, &mut expected));
        assert!(row == expected);
    }
    for length in [1, 2, 6, 40, 256] {
        let from = rng.below(text.len() - length);
        let places = read::places_in(text, &text[from..from + length]);
        let mut table = lent_words(places.len());
        assert_eq!(calls::places(tree, &text[from..from + length], &mut table), (0, places.len() as u32), "{shape:?}");
        assert!(*table == *places, "{shape:?}");
    }
    for length in [2, 5, 8] {
        let row = rng.within(0, text.len() - length);
        let row = text[..row].iter().rposition(|&byte| byte == 10).map_or(0, |end| end + 1);
        let wanted = &text[row..text.len().min(row + length)];
        let expected = if counted.contains(&10) { Ok(prefix::rows_with_prefix(text, wanted)) } else { Err(Refusal::NotCounted) };
        assert_eq!(Tree::unchecked(tree).rows_with_prefix(None, wanted).collect::<Result<Vec<u32>, Refusal>>(), expected, "{shape:?}");
    }
}

/// The book's tree, after comparing it and the calls on it with the model.
fn compare_book(rng: &mut Rng, text: &[u8], shape: Shape, counted: &[u8], questions: usize) -> Vec<u8> {
    let expected = fast::tree(text, shape, counted);
    let mut tree = lent(expected.len());
    assert_eq!(library_build(text, shape, counted, &mut tree), (0, expected.len() as u32));
    assert!(*tree == *expected, "{shape:?}");
    compare_scan(rng, text, shape, counted, &expected);
    ask_book(rng, text, shape, counted, &tree, questions);
    let mut damaged = expected.clone();
    damage::damage(rng, &mut damaged);
    assert_eq!(calls::check(&damaged), check::check(&damaged), "{shape:?}");
    expected
}

/// The random trees and questions reach every refusal of each call, and unspecified results too.
#[test]
fn every_refusal_is_reached() {
    const FREE: u32 = 99;
    let mut reached: BTreeMap<&str, BTreeSet<u32>> = BTreeMap::new();
    for round in 0..2000 {
        let rng = &mut Rng::new(round);
        let text = damage::text(rng, 60);
        let (shape, counted) = (damage::shape(rng), damage::counted(rng));
        let good = damage::other_tree(rng, &text, shape, &counted);
        let mut damaged = good.clone();
        damage::damage(rng, &mut damaged);
        for tree in [good, damaged, damage::wild_tree(rng)] {
            let (p, length, j) = (rng.below(70) as u32, rng.below(12) as u32, rng.below(12) as u32);
            let mut buffer = [0; 8];
            let mut note = |question, number| reached.entry(question).or_default().insert(number);
            note("check", check::check(&tree));
            note("list", check::list(&tree).0);
            note("byte", read::byte(&tree, p).0);
            note("run", read::run(&tree, p).0);
            note("span", read::span(&tree, p, length, &mut buffer).0);
            note("count", read::count(&tree, 10, p).0);
            note("find", if let Answer::Exact(answer) = read::find(&tree, 10, j) { answer.0 } else { FREE });
            note("places", read::places(&tree, &text[..text.len().min(p as usize % 3)], &mut [0; 2]).0);
            note("match", if let Answer::Exact(answer) = keys::next_match(&tree, &ranges(rng), j) { answer.0 } else { FREE });
            let wanted: &[u8] = if p == 0 { &[] } else { &text[..text.len().min(p as usize % 3 + 1)] };
            note("prefix", if let Answer::Exact(answer) = prefix::next_with_prefix(&tree, wanted, j) { answer.0 } else { FREE });
            note("row", if let Answer::Exact(answer) = read::row(&tree, j, &mut buffer) { answer.0 } else { FREE });
        }
    }
    let expected: [(&str, &[u32]); 11] = [
        ("check", &[0, 5, 6, 7, 8, 9]),
        ("list", &[0, 5, 6, 7, 8, 9]),
        ("byte", &[0, 5, 6, 7, 10, 14]),
        ("run", &[0, 5, 6, 7, 10, 14]),
        ("span", &[0, 5, 6, 7, 10, 13, 14]),
        ("count", &[0, 5, 6, 7, 10, 11, 14]),
        ("find", &[0, 5, 6, 7, 11, 12, FREE]),
        ("row", &[0, 5, 6, 7, 11, 12, 13, 14, FREE]),
        ("places", &[0, 5, 6, 7, 14, 16, 17]),
        ("match", &[0, 5, 6, 7, 11, 19, FREE]),
        ("prefix", &[0, 5, 6, 7, 11, 16, FREE]),
    ];
    for (question, numbers) in expected {
        assert_eq!(reached[question], numbers.iter().copied().collect(), "{question}");
    }
}

/// The test of unspecified results rejects what the format does not allow.
#[test]
fn unspecified_results_are_tested() {
    assert!(find_agrees(Answer::Unspecified(20), (0, 19, 7)) && find_agrees(Answer::Unspecified(20), (14, 0, 0)));
    assert!(
        !find_agrees(Answer::Unspecified(20), (0, 20, 1))
            && !find_agrees(Answer::Unspecified(20), (14, 1, 0))
            && !find_agrees(Answer::Unspecified(20), (12, 0, 0))
    );
    let shown = |got| match_agrees(Answer::Unspecified(5), 3, got);
    assert!([(14, 0, 3), (0, 0, 3), (0, 0, 5), (0, 4, 4), (0, 5, 5)].into_iter().all(shown));
    assert!(![(14, 0, 4), (0, 0, 2), (0, 0, 6), (0, 3, 3), (0, 6, 6), (0, 4, 5), (11, 0, 3)].into_iter().any(shown));
    let free = |tree: &[u8], got, buffer: &[u8]| row_agrees(tree, (Answer::Unspecified(4), &[]), (got, buffer));
    let tree = build::plain_tree(b"ABAC", Shape::new(2, 2, 2), b"A");
    assert!(free(&tree, (0, 2), b"BA\xEE") && free(&tree, (0, 0), b"\xEE") && free(&tree, (14, 0), b"\0\0\xEE") && free(&tree, (13, 0), b"\xEE"));
    assert!(
        !free(&tree, (0, 2), b"BC\xEE") && !free(&tree, (0, 1), b"BA\xEE") && !free(&tree, (0, 5), b"ABAC\xEE") && !free(&tree, (0, 5), b"ABACA")
    );
    assert!(!free(&tree, (14, 0), b"\0\x01") && !free(&tree, (13, 0), &[FILL; 4]));
}
