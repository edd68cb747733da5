//! Columns before rows, the library compared with the model: texts of any width, outputs of any length, and rows read from valid, damaged and wild trees.
//!
//! ROUNDS sets the number of rounds, SEED the start of the random numbers.

#[path = "support/damage.rs"]
mod damage;
mod model;
mod support;

use codebook::calls;
use model::columns::{columns_of, from_columns, row, rows_from, to_columns};
use model::{build, fast, read, Shape};
use std::collections::BTreeSet;
use support::books::{book, Kind};
use support::{rounds, setting, to_hex, Rng};

/// The value of every byte of a buffer before a call.
const FILL: u8 = 0xEE;

/// The model on the format's examples.
#[test]
fn worked() {
    let book = b"AB1\nAB2\nAC3\n";
    let turned = b"AAABBC123\n\n\n";
    assert_eq!((columns_of(book, 4).unwrap(), rows_from(turned, 4).unwrap()), (turned.to_vec(), book.to_vec()));
    for (width, expected) in [(1, b"ABCDEF"), (2, b"ACEBDF"), (3, b"ADBECF"), (6, b"ABCDEF")] {
        assert_eq!(columns_of(b"ABCDEF", width).unwrap(), expected);
    }
    assert_eq!((columns_of(b"", 3), rows_from(b"", u32::MAX), columns_of(b"", 0), columns_of(book, 5)), (Some(vec![]), Some(vec![]), None, None));
    let tree = build::plain_tree(turned, Shape::new(2, 2, 2), b"");
    let mut buffer = [FILL; 5];
    assert_eq!((row(&tree, 4, 1, &mut buffer), &buffer), ((0, 4), b"AB2\n\xee"));
}

/// A width: mostly one that divides the length.
fn width(rng: &mut Rng, n: usize) -> u32 {
    let divisors: Vec<u32> = (1..=n as u32).filter(|width| n as u32 % *width == 0).collect();
    match rng.below(8) {
        0 => damage::odd_word(rng, n as u32),
        1 => rng.below(n + 3) as u32,
        _ if divisors.is_empty() => rng.below(4) as u32,
        _ => *rng.pick(&divisors),
    }
}

#[test]
fn rearranged_texts() {
    let mut reached = BTreeSet::new();
    rounds(20_000, |rng| {
        let text: Vec<u8> = (0..rng.below(60)).map(|_| rng.next() as u8).collect();
        let (n, width) = (text.len(), width(rng, text.len()));
        for length in [n, n + rng.below(9), rng.below(n + 1)] {
            let mut theirs = [vec![FILL; length], vec![FILL; length]];
            let mut ours = theirs.clone().map(Vec::into_boxed_slice);
            let expected = [to_columns(&text, width, &mut theirs[0]), from_columns(&text, width, &mut theirs[1])];
            let got = [calls::to_columns(&text, width, &mut ours[0]), calls::from_columns(&text, width, &mut ours[1])];
            assert_eq!(got, expected, "{width} {} in {length}", to_hex(&text));
            assert!((0..2).all(|way| *ours[way] == *theirs[way]), "{width} {} in {length}", to_hex(&text));
            reached.insert(got[0]);
            if got == [0, 0] {
                // each call is the inverse of the other
                let mut back = vec![FILL; n];
                assert_eq!(calls::from_columns(&ours[0][..n], width, &mut back), 0);
                assert!(back == text);
                assert_eq!(calls::to_columns(&ours[1][..n], width, &mut back), 0);
                assert!(back == text);
            }
        }
    });
    if setting("ROUNDS", 20_000) >= 1000 {
        assert_eq!(reached, [0, 20, 21].into());
    }
}

/// Rows of a tree, of any width, into buffers that are too short, exact and longer. Returns the refusals that occurred.
fn ask(rng: &mut Rng, tree: &[u8], reached: &mut BTreeSet<u32>) {
    let n = read::Tree::open(tree).map_or(9, |tree| tree.n as usize);
    for _ in 0..12 {
        let width = width(rng, n);
        let rows = n.checked_div(width as usize).unwrap_or(0);
        let a = if rng.one_in(10) { damage::odd_word(rng, rows as u32) } else { rng.below(rows + 1) as u32 };
        let room = (width.min(200) as usize + rng.below(3)).saturating_sub(rng.below(3));
        let (mut expected, mut got) = (vec![FILL; room].into_boxed_slice(), vec![FILL; room].into_boxed_slice());
        let (number, _) = row(tree, width, a, &mut expected);
        assert_eq!(calls::row_by_columns(tree, width, a, &mut got), number, "column {width} {a} in {room} {}", to_hex(tree));
        assert!(got == expected, "column {width} {a} in {room} {}", to_hex(tree));
        reached.insert(number);
    }
}

/// Valid trees of rearranged texts return the rows of the text; on valid, damaged and wild trees the library returns what the model does.
#[test]
fn rows_of_trees() {
    let mut reached = BTreeSet::new();
    rounds(6000, |rng| {
        let text = damage::text(rng, 80);
        let (shape, counted) = (damage::shape(rng), damage::counted(rng));
        let width = width(rng, text.len());
        let turned = columns_of(&text, width).unwrap_or_else(|| text.clone());
        let built = build::plain_tree(&turned, shape, &counted);
        let other = damage::other_tree(rng, &turned, shape, &counted);
        for tree in [&built, &other] {
            if columns_of(&text, width).is_some() {
                for (a, expected) in text.chunks(width as usize).enumerate() {
                    let mut buffer = vec![FILL; width as usize];
                    assert_eq!(calls::row_by_columns(tree, width, a as u32, &mut buffer), 0);
                    assert!(buffer == expected);
                }
            }
            ask(rng, tree, &mut reached);
        }
        let mut damaged = other;
        damage::damage(rng, &mut damaged);
        ask(rng, &damaged.into_boxed_slice(), &mut reached);
        let wild = damage::wild_tree(rng).into_boxed_slice();
        ask(rng, &wild, &mut reached);
    });
    if setting("ROUNDS", 6000) >= 1000 {
        assert_eq!(reached, [0, 5, 6, 7, 10, 13, 14, 20].into());
    }
}

/// A long text: to columns and back, and rows from its tree.
#[test]
fn long_books() {
    let mut rng = Rng::new(setting("SEED", 1));
    let text = book(Kind::Mixed, 1 << 20, 3);
    for width in [1, 2, 64, 1024, 1 << 20] {
        let turned = codebook::to_columns(&text, width).expect("the width divides the length");
        assert!(Some(&turned) == columns_of(&text, width).as_ref());
        assert!(codebook::from_columns(&turned, width).expect("the same width") == text);
        let tree = fast::tree(&turned, Shape::new(128, 4, 3), b"\n");
        for _ in 0..20 {
            let a = rng.below(text.len() / width as usize);
            let row = codebook::Tree::checked(&tree).expect("a good tree").row_by_columns(width, a as u32).expect("a row");
            assert!(row == text[a * width as usize..][..width as usize]);
        }
    }
}
