//! Guides: the library compared with the model on valid, damaged and wild trees, with the tree's own guide, damaged guides and any bytes.
//!
//! ROUNDS sets the number of rounds of the tests on short texts, SEED the start of the random numbers.

#[path = "support/damage.rs"]
mod damage;
#[allow(dead_code)] // the judge of the other questions too
#[path = "support/judge.rs"]
mod judge;
mod model;
mod support;

use codebook::calls;
use judge::{find_agrees, lent, match_agrees, row_agrees};
use model::read::{Answer, Tree};
use model::{fast, guides, prefix, read, Shape};
use support::books::{book, Kind};
use support::{rounds, to_hex, Rng};

/// Whether `got` (refusal, place, blocks entered, steps) is an allowed result.
fn guided_agrees(expected: Answer<(u32, u32, u32, u32)>, got: (u32, u32, u32, u32)) -> bool {
    match expected {
        Answer::Exact(answer) => got == answer,
        Answer::Unspecified(n) => find_agrees(Answer::Unspecified(n), (got.0, got.1, got.2)) && (got.0 == 0 || got.3 == 0),
    }
}

/// Make the guide into tables of no byte, of just enough, of one byte less and of some other length; its size; and check it.
fn query_guide(rng: &mut Rng, tree: &[u8]) {
    assert_eq!(calls::guide_words(tree), guides::words(tree), "size {}", to_hex(tree));
    let size = guides::guide(tree).map_or(8, |guide| guide.len());
    for length in [0, size, size.saturating_sub(1), rng.below(size + 9)] {
        let (mut expected, mut got) = (lent(length), lent(length));
        assert_eq!(calls::make_guide(tree, &mut got), guides::make(tree, &mut expected), "guide in {length} {}", to_hex(tree));
        assert!(got == expected, "guide in {length} {}", to_hex(tree));
    }
    for _ in 0..3 {
        let guide = some_guide(rng, tree);
        assert_eq!(calls::check_guide(tree, &guide), guides::check_guide(tree, &guide), "guide {} {}", to_hex(&guide), to_hex(tree));
    }
}

/// The tree's guide, or one with an entry changed, words or bytes dropped or added, or any bytes.
fn some_guide(rng: &mut Rng, tree: &[u8]) -> Box<[u8]> {
    let mut guide = guides::guide(tree).unwrap_or_default();
    match rng.below(8) {
        0 if guide.len() >= 4 => {
            let at = 4 * rng.below(guide.len() / 4);
            let entry = u32::from_le_bytes([guide[at], guide[at + 1], guide[at + 2], guide[at + 3]]);
            damage::set_word(&mut guide, at, damage::odd_word(rng, entry));
        }
        1 => guide.truncate(rng.below(guide.len() + 1)),
        2 => guide.resize(guide.len() + rng.below(9), rng.next() as u8 % 3),
        3 => guide = (0..rng.below(24)).map(|_| if rng.one_in(3) { rng.next() as u8 } else { 0 }).collect(),
        _ => {}
    }
    guide.into_boxed_slice()
}

fn ask_with(rng: &mut Rng, tree: &[u8], guide: &[u8]) {
    let n = Tree::open(tree).map_or(9, |tree| tree.n as usize);
    let byte = match rng.below(12) {
        0 => 256 + u32::from(*rng.pick(b"\nAB")),
        1 => rng.next() as u32 % 256,
        _ => u32::from(*tree.get(24 + rng.below(4)).unwrap_or(&10)),
    };
    let j = if rng.one_in(8) { damage::odd_word(rng, n as u32) } else { rng.below(n + 2) as u32 };
    let got = calls::find_guided(tree, guide, byte, j);
    assert!(guided_agrees(guides::find(tree, guide, byte, j), got), "find {byte} {j} gives {got:?} {} {}", to_hex(guide), to_hex(tree));

    let (q, space) = (if rng.one_in(4) { j } else { rng.below(12) as u32 }, rng.below(30));
    let (mut expected, mut buffer) = (lent(space), lent(space));
    let answer = guides::row(tree, guide, q, &mut expected);
    let got = calls::row_guided(tree, guide, q, &mut buffer);
    assert!(row_agrees(tree, (answer, &expected), (got, &buffer)), "row {q} in {space} gives {got:?} {} {}", to_hex(guide), to_hex(tree));

    let wanted: Vec<u8> = (0..rng.below(4)).map(|_| *rng.pick(b"AAB\r\n")).collect();
    let mut mark = q;
    let (number, row) = calls::next_with_prefix_guided(tree, guide, &wanted, &mut mark);
    let (expected, got) = (prefix::next_with_prefix_guided(tree, guide, &wanted, q), (number, row, mark));
    assert!(match_agrees(expected, q, got), "prefix {} {q} gives {got:?} {} {}", to_hex(&wanted), to_hex(guide), to_hex(tree));
}

fn ask(rng: &mut Rng, tree: &[u8]) {
    query_guide(rng, tree);
    for _ in 0..4 {
        let guide = some_guide(rng, tree);
        for _ in 0..4 {
            ask_with(rng, tree, &guide);
        }
    }
}

/// A text in which a counted byte occurs often, so that more than one occurrence is listed; sometimes the empty text.
fn text(rng: &mut Rng) -> Vec<u8> {
    if rng.one_in(12) {
        return Vec::new();
    }
    let longest = *rng.pick(&[10, 130, 400]);
    if rng.one_in(3) {
        return vec![*rng.pick(b"A\n"); rng.within(1, longest)];
    }
    damage::text(rng, longest)
}

#[test]
fn valid_trees() {
    rounds(4000, |rng| {
        let (text, shape, counted) = (text(rng), damage::shape(rng), damage::counted(rng));
        let tree =
            if rng.one_in(2) && !text.is_empty() { damage::other_tree(rng, &text, shape, &counted) } else { fast::tree(&text, shape, &counted) };
        ask(rng, &tree.into_boxed_slice());
    });
}

#[test]
fn damaged_and_wild_trees() {
    rounds(6000, |rng| {
        let tree = damage::hurt_tree(rng, |rng| {
            let (text, shape, counted) = (text(rng), damage::shape(rng), damage::counted(rng));
            fast::tree(&text, shape, &counted)
        });
        ask(rng, &tree);
    });
}

/// On longer books, find and row with the guide return what find and row do, with no more steps than blocks between two entries.
#[test]
fn long_books() {
    for (seed, (m, r, h)) in [(64, 2, 4), (48, 2, 5), (16, 4, 3), (256, 2, 1), (1, 2, 8)].into_iter().enumerate() {
        let text = book(Kind::Mixed, 40_000, seed as u64);
        let tree = fast::tree(&text, Shape::new(m, r, h), b"\n 5");
        let opened = Tree::open(&tree).expect("a tree");
        let guide = guides::guide(&tree).expect("an accepted tree");
        assert_eq!(calls::check_guide(&tree, &guide), 0);
        for (c, &byte) in b"\n 5".iter().enumerate() {
            for j in (1..=opened.total(c) as u32).step_by(7) {
                let (number, place, entered, steps) = calls::find_guided(&tree, &guide, byte.into(), j);
                assert_eq!((number, place, entered), calls::find(&tree, byte.into(), j), "{m}/{r}/{h} find {byte} {j}");
                let listed = calls::find(&tree, byte.into(), (j - 1) / 64 * 64 + 1).1;
                let block = |place: u32| u64::from(place) / opened.block_length(0);
                assert_eq!(u64::from(steps), block(place) - block(listed), "{m}/{r}/{h} steps {byte} {j}");
                assert_eq!(fast::bisected(&opened, c, j.into()), block(place));
                assert_eq!(fast::find_bisected(&tree, byte.into(), j), (number, place, entered));
            }
        }
        let (mut plain, mut guided) = (lent(text.len()), lent(text.len()));
        for q in (0..read::rows_of(&text).len() as u32 + 3).step_by(11) {
            assert_eq!(calls::row_guided(&tree, &guide, q, &mut guided), calls::row(&tree, q, &mut plain), "{m}/{r}/{h} row {q}");
            assert!(plain == guided);
        }
        for wanted in [&text[..1], &text[..3]] {
            let found = |guide| codebook::Tree::unchecked(&tree).rows_with_prefix(guide, wanted).collect::<Result<Vec<u32>, codebook::Refusal>>();
            assert_eq!(
                (found(Some(&guide)), found(None)),
                (Ok(prefix::rows_with_prefix(&text, wanted)), Ok(prefix::rows_with_prefix(&text, wanted)))
            );
        }
    }
}
