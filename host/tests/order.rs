//! The order of two trees' texts: the library compared with the model, on valid, damaged and wild trees.
//!
//! ROUNDS sets the number of rounds of each test, SEED the start of the random numbers.

#[path = "support/damage.rs"]
mod damage;
mod model;
mod support;

use codebook::{calls, Tree};
use model::order::{order, order_of_texts, AFTER, BEFORE, SAME};
use model::{build, fast, Shape};
use std::collections::BTreeSet;
use support::books::{book, Kind};
use support::{to_hex, Rng};

fn setting(name: &str, otherwise: u64) -> u64 {
    std::env::var(name).ok().map_or(otherwise, |value| value.parse().expect("a number"))
}

fn rounds(otherwise: u64, mut round: impl FnMut(&mut Rng)) {
    for i in 0..setting("ROUNDS", otherwise) {
        round(&mut Rng::new(setting("SEED", 1) << 32 | i));
    }
}

/// A tree of the text with settings of its own, by the builder or another way, of either layout.
fn tree_of(rng: &mut Rng, text: &[u8]) -> Vec<u8> {
    let (shape, counted) = (damage::shape(rng), damage::counted(rng));
    if rng.one_in(2) {
        build::plain_tree(text, shape, &counted)
    } else {
        damage::other_tree(rng, text, shape, &counted)
    }
}

/// A text that shares a beginning with another: the same text, one with a byte changed, cut short (sometimes to nothing) or extended, or a new one.
fn beside(rng: &mut Rng, text: &[u8]) -> Vec<u8> {
    let mut other = text.to_vec();
    match rng.below(6) {
        0 => {}
        1 | 2 if !text.is_empty() => {
            let at = rng.below(other.len());
            other[at] = *rng.pick(&[0, b'A', b'C', 127, 128, 200, 255]);
        }
        3 => other.truncate(rng.below(text.len() + 1)),
        4 => other.extend((0..rng.within(1, 9)).map(|_| *rng.pick(b"\0A\xFF"))),
        _ => other = damage::text(rng, 60),
    }
    other
}

/// The library's result, which must be the model's.
fn ask(one: &[u8], other: &[u8]) -> (u32, u32, u32, u32) {
    let got = calls::compare(one, other);
    assert_eq!(got, order(one, other), "order {} {}", to_hex(one), to_hex(other));
    got
}

#[test]
fn valid_trees() {
    let mut reached = BTreeSet::new();
    rounds(4000, |rng| {
        let text = damage::text(rng, 90);
        let other = beside(rng, &text);
        let trees = [tree_of(rng, &text).into_boxed_slice(), tree_of(rng, &other).into_boxed_slice()];
        let got = ask(&trees[0], &trees[1]);
        assert_eq!(got, order_of_texts(&text, &other));
        assert_eq!(ask(&trees[1], &trees[0]), order_of_texts(&other, &text));
        assert_eq!(ask(&trees[0], &trees[0]), (0, SAME, text.len() as u32, 1));
        let safe = Tree::unchecked(&trees[0]).compare(&Tree::unchecked(&trees[1])).expect("an answer");
        assert_eq!((safe.ordering, safe.shared), (text.cmp(&other), got.2));
        reached.insert(got.1);
    });
    if setting("ROUNDS", 4000) >= 100 {
        assert_eq!(reached, [BEFORE, SAME, AFTER].into());
    }
}

/// Damage to either tree, before and after the first difference, so that every refusal and every result occurs.
#[test]
fn damaged_trees() {
    let mut reached = BTreeSet::new();
    rounds(20_000, |rng| {
        let text = damage::text(rng, 60);
        let other = beside(rng, &text);
        let mut trees = [tree_of(rng, &text), tree_of(rng, &other)];
        for _ in 0..rng.within(1, 2) {
            let at = rng.below(2);
            damage::damage(rng, &mut trees[at]);
        }
        let [one, other] = trees.map(Vec::into_boxed_slice);
        for (number, order, ..) in [ask(&one, &other), ask(&other, &one), ask(&one, &one)] {
            reached.insert((number, order));
        }
    });
    if setting("ROUNDS", 20_000) >= 2000 {
        assert_eq!(reached, [(0, BEFORE), (0, SAME), (0, AFTER), (5, 0), (6, 0), (7, 0), (14, 0)].into());
    }
}

#[test]
fn wild_trees() {
    rounds(10_000, |rng| {
        let one = damage::wild_tree(rng).into_boxed_slice();
        let mut near = one.to_vec();
        damage::damage(rng, &mut near);
        let others = [damage::wild_tree(rng), near, (0..rng.below(200)).map(|_| rng.next() as u8).collect()];
        for other in others.map(Vec::into_boxed_slice) {
            ask(&one, &other);
            ask(&other, &one);
        }
    });
}

/// A broken path matters up to the first difference, and not after it; questions 5 to 7 of both trees come first.
#[test]
fn places_that_are_read() {
    let two = Shape::new(2, 2, 2);
    let book = build::plain_tree(b"QABCDABCDEFGABCDABCD", two, b"A");
    let broken = |block: usize| {
        let mut tree = book.clone();
        damage::set_word(&mut tree, 104 + 32 * block, 2);
        tree
    };
    let (early, late) = (broken(0), broken(4));
    let [begun, other] = [b"QABCDABCD", b"QABCDABCE"].map(|text| build::plain_tree(text, Shape::new(3, 2, 1), b""));
    assert_eq!((ask(&late, &other), ask(&other, &late)), ((0, BEFORE, 8, 1), (0, AFTER, 8, 2)));
    assert_eq!((ask(&late, &begun), ask(&begun, &late)), ((0, AFTER, 9, 2), (0, BEFORE, 9, 1)));
    for (one, other) in [(&late, &book), (&book, &late), (&late, &late), (&early, &other), (&other, &early)] {
        assert_eq!(ask(one, other), (14, 0, 0, 0));
    }
    assert_eq!((ask(&early, &book[..99]).0, ask(&early, &book[1..]).0, ask(&early, &book[..531]).0), (5, 6, 7));
    assert_eq!((ask(&book[..99], &book[1..]).0, ask(&book[1..], &book[..99]).0, ask(&book[..531], &book[..99]).0), (5, 6, 7));
}

/// The empty text comes before every other, even if paths of the other break: no place is read.
#[test]
fn the_empty_text() {
    let empty = [Shape::new(2, 2, 2), Shape::new(256, 2, 1)].map(|shape| build::plain_tree(b"", shape, b"\n"));
    assert_eq!((ask(&empty[0], &empty[1]), ask(&empty[1], &empty[0])), ((0, SAME, 0, 1), (0, SAME, 0, 1)));
    let mut zero = build::plain_tree(b"\0", Shape::new(1, 2, 1), b"");
    assert_eq!((ask(&empty[0], &zero), ask(&zero, &empty[0])), ((0, BEFORE, 0, 1), (0, AFTER, 0, 2)));
    damage::set_word(&mut zero, 104, 2);
    assert_eq!((ask(&zero, &empty[0]), ask(&zero, &zero)), ((0, AFTER, 0, 2), (14, 0, 0, 0)));
    assert_eq!((ask(&empty[0], &zero[..99]).0, ask(&empty[0][..99], &zero).0), (5, 5));
}

/// Trees sorted by the library are in the order of their texts.
#[test]
fn sorted_trees() {
    rounds(200, |rng| {
        let mut texts = vec![damage::text(rng, 40)];
        for _ in 0..rng.within(1, 12) {
            let near = rng.pick(&texts).clone();
            texts.push(beside(rng, &near));
        }
        let mut shelf: Vec<(Vec<u8>, Vec<u8>)> = texts.iter().map(|text| (tree_of(rng, text), text.clone())).collect();
        shelf.sort_by(|(one, _), (other, _)| calls::compare(one, other).1.cmp(&SAME));
        texts.sort();
        assert!(shelf.iter().map(|(_, text)| text).eq(&texts));
    });
}

/// Long books of two settings: the same, and with one byte changed anywhere.
#[test]
fn long_books() {
    let mut rng = Rng::new(setting("SEED", 1));
    for (kind, seed) in [(Kind::Repetitive, 1), (Kind::Mixed, 2), (Kind::NearlyRandom, 3)] {
        let text = book(kind, 300_000, seed);
        let one = fast::tree(&text, Shape::new(64, 2, 4), b"\n");
        let same = fast::tree(&text, Shape::new(48, 3, 2), b"");
        assert_eq!(calls::compare(&one, &same), (0, SAME, text.len() as u32, 1));
        for _ in 0..4 {
            let mut other = text.clone();
            let at = rng.below(other.len());
            other[at] ^= 1 << rng.below(8);
            let tree = fast::tree(&other, Shape::new(100, 4, 3), b"01");
            assert_eq!(calls::compare(&one, &tree), order_of_texts(&text, &other));
            assert_eq!(calls::compare(&tree, &one), order_of_texts(&other, &text));
        }
    }
}
