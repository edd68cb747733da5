//! The model on the format's worked book, and its faster methods for long books compared with its plain ones.

mod model;
mod support;

use model::build::{build, plain_tree, plain_tree_in};
use model::check::{check, list};
use model::read::{byte, count, find, places, row, run, span, Answer};
use model::{fast, keys, Shape};
use support::books::{book, Kind};
use support::Rng;

const WORKED: &[u8] = b"QABCDABCDEFGABCDABCD";

/// The bytes of the tree as docs/FORMAT.md lists them: lines of an offset and of bytes in hexadecimal, two spaces before what they mean.
#[test]
fn bytes_on_the_page() {
    let mut listed = Vec::new();
    for line in include_str!("../../docs/FORMAT.md").lines().filter(|line| line.starts_with("    ")) {
        let mut parts = line.trim_start().splitn(2, "  ");
        let (offset, bytes) = (parts.next().and_then(|word| word.parse::<usize>().ok()), parts.next().unwrap_or_default());
        if offset == Some(listed.len()) && bytes.len() >= 11 {
            let bytes: Vec<&str> = bytes.split("  ").next().unwrap_or_default().split(' ').collect();
            listed.extend(bytes.iter().map(|byte| u8::from_str_radix(byte, 16).expect("a byte")));
        }
    }
    assert_eq!(listed, worked(2));
}

fn worked(layout: u32) -> Vec<u8> {
    plain_tree_in(layout, WORKED, Shape::new(2, 2, 2), b"A")
}

#[test]
fn worked_book() {
    for (layout, record, leaves) in [(1, 28, 464), (2, 32, 516)] {
        let tree = worked(layout);
        assert_eq!((model::word(&tree, 40), model::word(&tree, 92)), (100 + 5 * record, leaves));
        assert_eq!(&tree[leaves as usize..], b"QABCDABCDEFGABCD");
        let words = |block: u32| [0, 1, 2, 3, 4, 5, 6].map(|field| model::word(&tree, (100 + block * record + 4 * field) as usize));
        assert_eq!(words(0), [0, 0, 0, 0, 0, 1, 0]);
        assert_eq!(words(4), [16, 1, 0, 1, 3, 1, 0]);
        worked_questions(&tree, leaves.into());
    }
    let tree = worked(2);
    assert_eq!(tree[128..132], *b"QABC");
    // short spans, with the blocks entered
    for (place, bytes, entered) in [(3, b"CD", 2), (1, b"AB", 3), (2, b"BC", 2), (16, b"AB", 4), (18, b"CD", 3)] {
        let mut span_of = [0; 2];
        assert_eq!((span(&tree, place, 2, &mut span_of), &span_of), ((0, entered), bytes));
    }
}

fn worked_questions(tree: &[u8], leaves: u64) {
    assert_eq!(check(tree), 0);
    assert_eq!(list(tree), (0, "0 5 4 1\n1 8 8 0\n".to_owned()));
    assert_eq!(byte(tree, 18), (0, u32::from(b'C'), 3));
    assert_eq!(byte(tree, 19), (0, u32::from(b'D'), 3));
    assert_eq!(byte(tree, 20), (10, 0, 0));
    assert_eq!(count(tree, 65, 17), (0, 4, 3));
    assert_eq!(count(tree, 65, 0), (0, 0, 0));
    assert_eq!(count(tree, 65, 21), (10, 0, 0));
    assert_eq!(find(tree, 65, 4), Answer::Exact((0, 16, 3)));
    assert_eq!(find(tree, 65, 5), Answer::Exact((12, 0, 0)));
    assert_eq!(run(tree, 17), (0, leaves + 2, 2));
    assert_eq!(row(tree, 1, &mut []), Answer::Exact((11, 0)));
    assert_eq!(span(tree, 20, 0, &mut []), (0, 0));
}

#[test]
fn blocks_that_point() {
    let twelve = plain_tree(&[b'A'; 12], Shape::new(2, 2, 2), b"");
    assert_eq!(twelve.len(), 248);
    let kind_link_gap = |tree: &[u8]| [4, 8, 12].map(|at| model::word(tree, 100 + 2 * 20 + at));
    assert_eq!(kind_link_gap(&twelve), [1, 0, 0]); // block 2 points
    let cut = plain_tree(b"ABCDABCDA", Shape::new(2, 2, 2), b"");
    assert_eq!(kind_link_gap(&cut), [1, 0, 0]);
    assert_eq!(cut[156..160], *b"A\0A\0"); // a block shorter than m
    assert_eq!(plain_tree_in(1, &[b'A'; 12], Shape::new(2, 2, 2), b"").len(), 220);
}

#[test]
fn buffers_after_a_call() {
    let shape = Shape::new(2, 2, 2);
    let mut long = [0xEE; 535];
    assert_eq!(build(WORKED, shape, b"A", &mut long), (0, 532));
    assert_eq!(long[532..], [0xEE; 3]);
    let mut short = [0xEE; 531];
    assert_eq!(build(WORKED, shape, b"A", &mut short), (4, 0));
    assert_eq!(short, [0; 531]);
    assert_eq!(build(WORKED, Shape::new(256, 16, 5), b"", &mut short), (2, 0));
    assert_eq!(build(&vec![65; 8_388_609], shape, b"A", &mut short), (1, 0));
}

/// The readings of docs/READINGS.md, on damaged worked trees.
#[test]
fn readings() {
    let with = |words: &[(usize, u32)]| {
        let mut tree = worked(1);
        for &(at, value) in words {
            tree[at..at + 4].copy_from_slice(&value.to_le_bytes());
        }
        tree
    };
    assert_eq!(byte(&with(&[(112, 9)]), 0), (0, u32::from(b'Q'), 2));
    assert_eq!(check(&with(&[(112, 1)])), 8);
    assert_eq!(check(&with(&[(124, 1)])), 9);
    assert_eq!(check(&with(&[(4, 19)])), 0);
    let kind = with(&[(104, 2)]);
    assert_eq!((byte(&kind, 19), byte(&kind, 16).0), ((0, u32::from(b'D'), 3), 14));
    let leaf = with(&[(248, 15)]);
    assert_eq!((byte(&leaf, 0).1, byte(&leaf, 1).0, run(&leaf, 0)), (u32::from(b'D'), 14, (0, 479, 1)));
    assert_eq!(count(&with(&[(228, 0), (236, 1)]), 65, 17), (0, 0, 3));
    assert_eq!(count(&with(&[(228, u32::MAX)]), 65, 17), (0, 4_294_967_296, 3));
    let mut buffer = [0xEE; 3];
    assert_eq!((span(&kind, 0, 3, &mut buffer[..2]).0, buffer), (13, [0xEE; 3]));
    assert_eq!((span(&kind, 0, 2, &mut buffer).0, buffer), (14, [0, 0, 0xEE]));
    // with kind 2 in blocks 0 and 1 a span over their border is still read
    let mut edges = worked(2);
    for at in [104, 136] {
        edges[at] = 2;
    }
    let mut buffer = [0; 2];
    assert_eq!((span(&edges, 3, 2, &mut buffer), &buffer), ((0, 2), b"CD"));
    assert_eq!((byte(&edges, 3).0, byte(&edges, 4).0), (14, 14));
}

/// The places of a pattern: the questions in order, and the table afterwards.
#[test]
fn places_of_patterns() {
    let tree = worked(2);
    let ask = |tree: &[u8], pattern: &[u8], words: usize| {
        let mut table = vec![9; words];
        let (number, places) = places(tree, pattern, &mut table);
        (number, places, table)
    };
    assert_eq!(ask(&tree, b"ABCD", 6), (0, 4, vec![1, 5, 12, 16, 9, 9]));
    assert_eq!(ask(&tree, b"ABCD", 4), (0, 4, vec![1, 5, 12, 16]));
    assert_eq!(ask(&tree, b"ABCD", 3), (17, 0, vec![9, 9, 9]));
    assert_eq!(ask(&tree, b"X", 0), (0, 0, vec![]));
    assert_eq!(ask(&tree, WORKED, 1), (0, 1, vec![0]));
    assert_eq!((ask(&tree, b"", 1).0, ask(&tree, &[b'Q'; 256], 1).0, ask(&tree, &[b'Q'; 257], 1).0), (16, 0, 16));
    let twelve = plain_tree(&[b'A'; 12], Shape::new(2, 2, 2), b"");
    assert_eq!(ask(&twelve, b"AA", 11), (0, 11, (0..11).collect()));
    let mut broken = tree.clone();
    broken[104] = 2;
    assert_eq!(ask(&broken, b"D", 0), (14, 0, vec![]));
    assert_eq!(ask(&broken, &[b'Q'; 256], 2), (14, 0, vec![9, 9]));
    assert_eq!(ask(&broken, b"", 0).0, 16);
    assert_eq!((ask(&tree[..99], b"", 0).0, ask(&tree[1..], b"", 0).0, ask(&tree[..479], b"", 0).0), (5, 6, 7));
}

/// The next match after a mark: the questions in order, forms of rows, and where the mark moves.
#[test]
fn matches_of_worn_keys() {
    let tree_of = |text: &[u8], counted: &[u8]| plain_tree(text, Shape::new(2, 2, 3), counted);
    let book = tree_of(b"A 12\nB 13\r\nC 4\r\nD 12", b"\n");
    let ask = |tree: &[u8], ranges: &[u8], mark| keys::next_match(tree, ranges, mark);
    let worn = [1, 1, 2, 3];
    for (mark, row, after) in [(0, 1, 1), (1, 2, 2), (2, 4, 4), (4, 0, 4), (5, 0, 5)] {
        assert_eq!(ask(&book, &worn, mark), Answer::Exact((0, row, after)));
    }
    assert_eq!(ask(&book, &[9, 9], 0), Answer::Exact((0, 0, 4)));
    for wrong in [vec![], vec![1, 1, 2], vec![5, 4], vec![0, 10], vec![0; 22]] {
        assert_eq!(ask(&book, &wrong, 1), Answer::Exact((19, 0, 1)));
    }
    assert_eq!(keys::matches_in(b"A 1\r", &[1, 1]), []);
    assert_eq!(keys::matches_in(b"A 1\r\r\nA\r 1\n 1\nA  1\nA 1 \nA \nA1\nA 11\nABCDEFGHIJKL 1\nABCDEFGHIJKLM 1", &[1, 1]), [2, 9]);
    let other = tree_of(b"A 1\n", b"A");
    assert_eq!((ask(&other, &[2, 1], 7), ask(&other, &[1, 1], 7)), (Answer::Exact((19, 0, 7)), Answer::Exact((11, 0, 7))));
    assert_eq!(ask(&other[..99], &[], 7), Answer::Exact((5, 0, 7)));
}

#[test]
fn long_path_of_a_short_text() {
    let text = [b'A'; 1024];
    let bytes = plain_tree(&text, Shape::new(1, 2, 8), b"");
    let longest = (0..1024).map(|p| byte(&bytes, p).2).max();
    assert!(longest.expect("a place") <= 15);
}

#[test]
fn fast_methods_agree() {
    let mut rng = Rng::new(8);
    for round in 0..400 {
        let kind = *rng.pick(&[Kind::Repetitive, Kind::Mixed, Kind::NearlyRandom]);
        let text = if round % 2 == 0 {
            let size = rng.within(4, 3000);
            book(kind, size, round)
        } else {
            (0..rng.within(1, 300)).map(|_| *rng.pick(b"AB\n")).collect()
        };
        let shape = Shape::new(rng.within(1, 12) as u32, rng.within(2, 4) as u32, rng.within(1, 5) as u32);
        let tree = plain_tree(&text, shape, b"\nA");
        assert!(tree == fast::tree(&text, shape, b"\nA"), "{shape:?} {text:?}");
        for j in 0..text.iter().filter(|&&byte| byte == 10).count().min(30) as u32 + 3 {
            assert_eq!(Answer::Exact(fast::find(&tree, 10, j)), find(&tree, 10, j), "{shape:?} {text:?} {j}");
            let (mut plain, mut quick) = ([0xEE; 40], [0xEE; 40]);
            assert_eq!(Answer::Exact(fast::row(&tree, j, &mut quick)), row(&tree, j, &mut plain));
            assert_eq!(plain, quick);
        }
    }
}
