//! One byte corrected: how count and find change, over pairs of texts that differ at one place. Each text has a valid tree with settings and a
//! layout of its own, made by the builder or not.

#[allow(dead_code)] // this test uses a part
#[path = "support/damage.rs"]
mod damage;
mod model;
mod support;

use codebook::calls;
use model::build;
use support::{to_hex, Rng};

/// A text, the place of its correction, and the text corrected.
fn pair(rng: &mut Rng) -> (Vec<u8>, usize, Vec<u8>) {
    let longest = if rng.one_in(4) { 200 } else { 40 };
    let mut text = damage::text(rng, longest);
    if text.is_empty() {
        // no place to correct
        text.push(b'A');
    }
    let mut corrected = text.clone();
    // the first and the last place more often than others
    let place = match rng.below(6) {
        0 => 0,
        1 => text.len() - 1,
        _ => rng.below(text.len()),
    };
    while corrected[place] == text[place] {
        corrected[place] = *rng.pick(b"AB\n0 \0\xFF");
    }
    (text, place, corrected)
}

/// A valid tree of the text that counts the byte, made by the builder or in another way.
fn tree(rng: &mut Rng, text: &[u8], byte: u8) -> Vec<u8> {
    let shape = damage::shape(rng);
    let mut counted = damage::counted(rng);
    counted.truncate(3);
    counted.push(byte);
    counted.sort_unstable();
    counted.dedup();
    let tree = if rng.one_in(3) { build::plain_tree(text, shape, &counted) } else { damage::other_tree(rng, text, shape, &counted) };
    assert_eq!(calls::check(&tree), 0, "{}", to_hex(&tree));
    tree
}

/// Count, which must not be refused.
fn count(tree: &[u8], byte: u8, i: usize) -> u64 {
    let (number, count, _) = calls::count(tree, byte.into(), i as u32);
    assert_eq!(number, 0, "count {byte} {i} {}", to_hex(tree));
    count
}

/// Find, which may give 12.
fn find(tree: &[u8], byte: u8, j: u64) -> Option<usize> {
    match calls::find(tree, byte.into(), j as u32) {
        (0, place, _) => Some(place as usize),
        (12, 0, 0) => None,
        other => panic!("find {byte} {j} gives {other:?} {}", to_hex(tree)),
    }
}

/// Counts the cases that occurred, so that no test passes for lack of cases.
#[derive(Default)]
struct Seen {
    more: u64,
    fewer: u64,
    same_past: u64,
    kept: u64,
    moved: u64,
    gone: u64,
}

fn compare(seen: &mut Seen, trees: [&[u8]; 2], texts: [&[u8]; 2], place: usize, byte: u8) {
    let [before, after] = texts.map(|text| u64::from(text[place] == byte));
    for i in 0..=texts[0].len() {
        let [one, other] = trees.map(|tree| count(tree, byte, i));
        // one byte was removed and one added, so the counts differ by at most one
        let (taken, put) = if i <= place { (0, 0) } else { (before, after) };
        assert_eq!(one + put, other + taken, "count {byte} {i}, corrected at {place}: {} {}", to_hex(trees[0]), to_hex(trees[1]));
        assert!(one.abs_diff(other) <= 1);
        match (i > place, one.cmp(&other)) {
            (false, order) => assert!(order.is_eq()),
            (true, order) if order.is_eq() => seen.same_past += 1,
            (true, order) if order.is_gt() => seen.fewer += 1,
            (true, _) => seen.more += 1,
        }
    }
    for j in 0..=texts[0].len() as u64 + 1 {
        let [one, other] = trees.map(|tree| find(tree, byte, j));
        if [one, other].iter().flatten().any(|&found| found < place) {
            assert_eq!(one, other, "find {byte} {j}, corrected at {place}: {} {}", to_hex(trees[0]), to_hex(trees[1]));
            seen.kept += 1;
        } else if one != other {
            *(if one.is_some() && other.is_some() { &mut seen.moved } else { &mut seen.gone }) += 1;
        }
    }
}

#[test]
fn one_byte_corrected() {
    let mut seen = Seen::default();
    for round in 0..4000 {
        let mut rng = Rng::new(0x111 << 32 | round);
        let (text, place, corrected) = pair(&mut rng);
        let other = *rng.pick(b"\nAB0\0");
        let byte = *rng.pick(&[text[place], corrected[place], other]);
        let trees = [tree(&mut rng, &text, byte), tree(&mut rng, &corrected, byte)];
        compare(&mut seen, [&trees[0], &trees[1]], [&text, &corrected], place, byte);
    }
    for many in [seen.more, seen.fewer, seen.same_past, seen.kept, seen.moved, seen.gone] {
        assert!(many >= 1000, "{many}");
    }
}

/// The worked book, and the same with place 5, an A, made Z: the bounds are reached.
#[test]
fn worked_book() {
    let (text, corrected) = (b"QABCDABCDEFGABCDABCD", b"QABCDZBCDEFGABCDABCD");
    let trees = [build::plain_tree(text, model::Shape::new(2, 2, 2), b"A"), build::plain_tree_in(1, corrected, model::Shape::new(3, 2, 3), b"AB")];
    let counts = |i: usize| [count(&trees[0], b'A', i), count(&trees[1], b'A', i)];
    assert_eq!([5, 6, 20].map(counts), [[1, 1], [2, 1], [4, 3]]);
    let places = |j: u64| [find(&trees[0], b'A', j), find(&trees[1], b'A', j)];
    assert_eq!([1, 2, 4].map(places), [[Some(1), Some(1)], [Some(5), Some(12)], [Some(16), None]]);
}
