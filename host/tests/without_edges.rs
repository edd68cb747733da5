//! Trees without their edges: the library compared with the model on valid, damaged and wild trees, and every question on both layouts.
//!
//! ROUNDS sets the number of rounds of each test, SEED the start of the random numbers.

#[path = "support/damage.rs"]
mod damage;
#[allow(dead_code)] // the judge of the other questions too
#[path = "support/judge.rs"]
mod judge;
mod model;
mod support;

use codebook::{calls, Tree};
use judge::{lent, FILL};
use model::{build, check, fast, read, without_edges, Shape};
use std::collections::BTreeSet;
use support::books::{book, Kind};
use support::{rounds, setting, to_hex, Rng};

/// The library's result with a buffer of `room` bytes must be the model's, with the same bytes in the buffer. A refusal leaves the buffer unchanged.
fn ask(tree: &[u8], room: usize) -> (u32, Vec<u8>) {
    let (mut got, mut expected) = (lent(room), lent(room));
    let (number, size) = calls::without_edges(tree, &mut got);
    assert_eq!((number, size), without_edges::without_edges(tree, &mut expected), "room {room} {}", to_hex(tree));
    assert_eq!(got, expected, "room {room} {}", to_hex(tree));
    assert!(got[size as usize..].iter().all(|&byte| byte == FILL));
    (number, got[..size as usize].to_vec())
}

/// Buffers of the exact size, larger, one byte shorter, and empty.
fn ask_with_all_rooms(rng: &mut Rng, tree: &[u8]) -> (u32, Vec<u8>) {
    let (number, small) = ask(tree, tree.len());
    assert!(small.len() <= tree.len());
    assert_eq!(ask(tree, small.len() + rng.below(9)), (number, small.clone()));
    if number == 0 {
        assert_eq!((ask(tree, small.len() - 1).0, ask(tree, 0).0, ask(tree, rng.below(small.len())).0), (13, 13, 13));
        assert_eq!(ask(&small, small.len()), (0, small.clone()), "a tree of layout 1 is copied");
    }
    (number, small)
}

/// From a built tree the call makes the block tree of the text in layout 1; from another valid tree, an accepted tree of the same text.
#[test]
fn valid_trees() {
    rounds(3000, |rng| {
        let (text, shape, counted) = (damage::text(rng, 120), damage::shape(rng), damage::counted(rng));
        let (number, small) = ask_with_all_rooms(rng, &build::plain_tree(&text, shape, &counted));
        assert_eq!((number, &small), (0, &build::plain_tree_in(1, &text, shape, &counted)));
        let other = damage::other_tree(rng, &text, shape, &counted);
        let (number, small) = ask_with_all_rooms(rng, &other);
        assert_eq!((number, calls::check(&small), check::check(&small)), (0, 0, 0));
        assert_eq!(Tree::unchecked(&small).text().as_deref(), Ok(&text[..]));
        assert_eq!(Tree::unchecked(&other).without_edges().as_deref(), Ok(&small[..]));
    });
}

/// Questions 5 to 7 and 13 are tested in order, and a rewritten tree keeps its text and every byte's path.
#[test]
fn damaged_and_wild_trees() {
    let mut reached = BTreeSet::new();
    rounds(12_000, |rng| {
        let tree = damage::hurt_tree(rng, |rng| {
            let (text, shape, counted) = (damage::text(rng, 60), damage::shape(rng), damage::counted(rng));
            damage::other_tree(rng, &text, shape, &counted)
        });
        let (number, small) = ask_with_all_rooms(rng, &tree);
        reached.insert(number);
        if number != 0 {
            return;
        }
        // the check's result, if edges are ignored
        let verdicts = (calls::check(&tree), calls::check(&small));
        assert!(verdicts.0 == verdicts.1 || verdicts == (9, 0), "{verdicts:?} {}", to_hex(&tree));
        for place in 0..=model::word(&tree, 4).min(40) {
            assert_eq!(calls::byte(&small, place), calls::byte(&tree, place), "{place} {}", to_hex(&tree));
        }
    });
    if setting("ROUNDS", 12_000) >= 1000 {
        assert_eq!(reached, [0, 5, 6, 7].into());
    }
}

/// A tree refused only for an edge is accepted without its edges.
#[test]
fn wrong_edges() {
    let mut tree = build::plain_tree(b"QABCDABCDEFGABCDABCD", Shape::new(2, 2, 2), b"A");
    tree[128] ^= 1;
    assert_eq!(calls::check(&tree), 9);
    let (number, small) = ask(&tree, 480);
    assert_eq!((number, small.len(), calls::check(&small)), (0, 480, 0));
    assert_eq!((ask(&tree[..99], 480).0, ask(&tree[1..], 480).0, ask(&tree[..531], 479).0), (5, 6, 7));
}

/// Long books: every question has the same result on both layouts, except a run's offset and a short span's blocks entered.
#[test]
fn long_books() {
    for (kind, seed) in [(Kind::Repetitive, 1), (Kind::Mixed, 2), (Kind::NearlyRandom, 3)] {
        let text = book(kind, 100_000, seed);
        let tree = fast::tree(&text, Shape::new(24, 3, 5), b"\n5");
        let (number, small) = ask(&tree, tree.len());
        assert_eq!((number, calls::check(&small)), (0, 0));
        let [one, other] = [&tree, &small].map(|bytes| Tree::checked(bytes).expect("a good tree"));
        let blocks: usize = one.levels().iter().map(|level| level.blocks as usize).sum();
        assert_eq!(tree.len() - small.len(), blocks * 2 * 24);
        let mut rng = Rng::new(setting("SEED", 1));
        for _ in 0..300 {
            let (place, length) = (rng.below(90_000) as u32, rng.below(60) as u32);
            assert_eq!(one.byte(place), other.byte(place));
            assert_eq!(one.run(place), other.run(place));
            let spans = [one, other].map(|tree| tree.span(place, length).expect("a span"));
            assert_eq!((&spans[0].value, spans[1].entered), (&spans[1].value, 0));
            assert_eq!(one.count(b'5', place), other.count(b'5', place));
            assert_eq!(one.find(b'\n', place % 1000 + 1), other.find(b'\n', place % 1000 + 1));
            assert_eq!(one.row(place % 1000 + 1), other.row(place % 1000 + 1));
        }
        assert_eq!((one.places(b"55"), one.make_guide()), (other.places(b"55"), other.make_guide()));
        assert_eq!(read::rows_of(&text).len() as u64, other.row_count().expect("rows"));
        assert!(one.compare(&other).is_ok_and(|compared| compared.ordering.is_eq()));
    }
}
