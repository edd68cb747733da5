//! The figures of a tree: the library compared with the model on valid, damaged and wild trees; and buffers of the returned sizes suffice.
//!
//! ROUNDS sets the number of rounds, SEED the start of the random numbers.

#[path = "support/damage.rs"]
mod damage;
#[allow(dead_code)] // the judge of the other questions too
#[path = "support/judge.rs"]
mod judge;
mod model;
mod support;

use codebook::{build, calls, version, Settings, Tree};
use judge::{lent, FILL_WORD};
use model::read::{self, Answer};
use model::{facts, fast};
use support::{rounds, to_hex, Rng};

fn ask(rng: &mut Rng, tree: &[u8]) {
    let mut figures = [u64::MAX; calls::FIGURES];
    let number = calls::info(tree, &mut figures);
    assert_eq!((number, figures), facts::info(tree), "info {}", to_hex(tree));
    assert_eq!(calls::row_count(tree), facts::row_count(tree), "rows {}", to_hex(tree));

    let (n, rows) = (figures[1] as usize, facts::row_count(tree).1);
    for _ in 0..3 {
        let q = if rng.one_in(6) { damage::odd_word(rng, rows as u32) } else { rng.below(rows.min(9) as usize + 3) as u32 };
        let got = calls::row_length(tree, q);
        let agrees = match facts::row_length(tree, q) {
            Answer::Exact(expected) => got == expected,
            Answer::Unspecified(most) => got == (14, 0) || (got.0 == 0 && u64::from(got.1) <= most),
        };
        assert!(agrees, "length of row {q} gives {got:?} {}", to_hex(tree));

        let length = if rng.one_in(6) { damage::odd_word(rng, 256) } else { rng.below(n + 3) as u32 };
        assert_eq!(calls::places_words(tree, length), facts::places_words(tree, length), "words for {length} {}", to_hex(tree));
    }
}

/// Each row fits a buffer of its length and no shorter one, and the places of a pattern fit a table of the returned number of words.
fn ask_enough(rng: &mut Rng, tree: &[u8], text: &[u8]) {
    let (number, rows) = calls::row_count(tree);
    if number == 0 {
        assert_eq!(rows, read::rows_of(text).len() as u64);
        for q in 1..=rows as u32 {
            let (number, length) = calls::row_length(tree, q);
            assert_eq!((number, calls::row(tree, q, &mut lent(length as usize))), (0, (0, length)), "row {q} {}", to_hex(tree));
            if length > 0 {
                assert_eq!(calls::row(tree, q, &mut lent(length as usize - 1)), (13, 0), "row {q} {}", to_hex(tree));
            }
        }
        assert_eq!(calls::row_length(tree, rows as u32 + 1), (12, 0));
    }
    for _ in 0..3 {
        // a text of one repeated letter has the most places
        let length = rng.within(1, 9);
        let pattern = if rng.one_in(2) { vec![*text.first().unwrap_or(&65); length] } else { damage::text(rng, length) };
        if pattern.is_empty() {
            continue;
        }
        let (number, words) = calls::places_words(tree, pattern.len() as u32);
        let mut table = vec![FILL_WORD; words as usize];
        assert_eq!((number, calls::places(tree, &pattern, &mut table).0), (0, 0), "{pattern:?} in {words} {}", to_hex(tree));
    }
}

/// Mixed letters and rows, one letter alone, or no bytes.
fn text(rng: &mut Rng) -> Vec<u8> {
    match rng.below(6) {
        0 => Vec::new(),
        1 => vec![*rng.pick(b"A\n"); rng.within(1, 60)],
        _ => damage::text(rng, 90),
    }
}

#[test]
fn valid_trees() {
    rounds(3000, |rng| {
        let (text, shape, counted) = (text(rng), damage::shape(rng), damage::counted(rng));
        let tree =
            if rng.one_in(2) && !text.is_empty() { damage::other_tree(rng, &text, shape, &counted) } else { fast::tree(&text, shape, &counted) };
        ask(rng, &tree);
        ask_enough(rng, &tree, &text);
    });
}

#[test]
fn damaged_and_wild_trees() {
    rounds(6000, |rng| {
        let tree = damage::hurt_tree(rng, |rng| {
            let (text, shape, counted) = (text(rng), damage::shape(rng), damage::counted(rng));
            fast::tree(&text, shape, &counted)
        });
        ask(rng, &tree);
    });
}

#[test]
fn texts_of_refusals() {
    let settings = Settings { leaf: 4, arity: 2, levels: 3, counted: vec![10, 65] };
    let bytes = build(b"AB\nAAB\r\nB", &settings).expect("a tree");
    let tree = Tree::checked(&bytes).expect("an accepted tree");
    let info = tree.info().expect("figures");
    assert_eq!((info.layout, info.length, &info.settings, &info.totals[..]), (2, 9, &settings, &[2, 3][..]));
    assert_eq!((info.leaf_bytes, info.blocks.len()), (tree.leaf_bytes(), 3));
    assert_eq!((tree.row_count(), tree.row_length(1), tree.row_length(2), tree.row_length(3)), (Ok(3), Ok(2), Ok(3), Ok(1)));
    assert_eq!((tree.places_words(1), tree.places_words(9), tree.places_words(10)), (Ok(9), Ok(1), Ok(0)));
    assert_eq!(Tree::unchecked(&bytes[..99]).info().map_err(|refusal| refusal.number()), Err(5));
}

#[test]
fn header_agrees() {
    let header = include_str!("../../include/blocktree.h");
    assert!(header.contains(&format!("#define BT_VERSION {}u\n", calls::version())));
    assert!(header.contains(&format!("#define BT_FIGURES {}u ", calls::FIGURES)));
    let (major, minor, patch) = version();
    assert_eq!(major * 10_000 + minor * 100 + patch, calls::version());
    // the library, the tool and its package have the same version
    assert_eq!(format!("{major}.{minor}.{patch}"), env!("CARGO_PKG_VERSION"));
    let mut headings = include_str!("../../CHANGELOG.md").lines().filter_map(|line| line.strip_prefix("## "));
    let newest = headings.find(|heading| *heading != "Unreleased");
    assert_eq!(newest, Some(env!("CARGO_PKG_VERSION")));
}
