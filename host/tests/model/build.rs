//! Building: which blocks are kept, where the others point, and the tree's bytes.

use super::*;
use std::collections::BTreeSet;

/// The choice for a block above the last level: kept, or where it points.
#[derive(Clone, Copy, Debug, PartialEq, Eq)]
pub enum Choice {
    Keep,
    Point { link: usize, gap: usize },
}

/// The level's blocks as the format chooses them. `leftmost(place, length)` is the leftmost occurrence of these bytes of the text.
pub fn choose(n: usize, b: usize, starts: &[usize], leftmost: &dyn Fn(usize, usize) -> usize) -> Vec<Choice> {
    let mut paired = vec![false; starts.len()];
    let mut kept = vec![false; starts.len()];
    for i in 1..starts.len() {
        if starts[i] == starts[i - 1] + b {
            paired[i - 1] = true;
            paired[i] = true;
            let pair = starts[i - 1];
            if leftmost(pair, (2 * b).min(n - pair)) == pair {
                kept[i - 1] = true;
                kept[i] = true;
            }
        }
    }
    (0..starts.len())
        .map(|i| {
            if kept[i] || !paired[i] {
                return Choice::Keep;
            }
            let place = leftmost(starts[i], b.min(n - starts[i]));
            let link = starts.iter().rposition(|&start| start <= place).expect("block 0 starts at 0");
            assert!(place < starts[link] + b, "the level has a block that holds the leftmost occurrence");
            Choice::Point { link, gap: place - starts[link] }
        })
        .collect()
}

/// The leftmost occurrence of some bytes, by trying every place.
pub fn leftmost(text: &[u8], place: usize, length: usize) -> usize {
    let wanted = &text[place..place + length];
    text.windows(length).position(|window| window == wanted).expect("it occurs at its own place")
}

struct Block {
    start: usize,
    parent_start: usize,
    choice: Choice,
    link: usize,
}

/// The tree of `text` in which `choose(b, starts)` decides on each level above the last. All settings are within bounds.
pub fn assemble(layout: u32, text: &[u8], shape: Shape, counted: &[u8], mut choose: impl FnMut(usize, &[usize]) -> Vec<Choice>) -> Vec<u8> {
    let n = text.len();
    let last = shape.h as usize - 1;
    let mut levels: Vec<Vec<Block>> = Vec::new();
    let mut leaf_bytes: Vec<u8> = Vec::new();
    // (start, start of the parent) of the blocks of the next level
    let mut list: Vec<(usize, usize)> = (0..n).step_by(shape.block_length(0) as usize).map(|start| (start, 0)).collect();
    for level in 0..=last {
        let b = shape.block_length(level) as usize;
        let starts: Vec<usize> = list.iter().map(|&(start, _)| start).collect();
        let choices = if level == last { vec![Choice::Keep; starts.len()] } else { choose(b, &starts) };
        let mut blocks = Vec::new();
        let mut children = Vec::new();
        for (&(start, parent_start), choice) in list.iter().zip(choices) {
            let end = n.min(start + b);
            let link = match choice {
                Choice::Point { link, .. } => link,
                Choice::Keep if level == last => {
                    leaf_bytes.extend_from_slice(&text[start..end]);
                    leaf_bytes.len() - (end - start)
                }
                Choice::Keep => {
                    let first = children.len();
                    children.extend((start..end).step_by(shape.block_length(level + 1) as usize).map(|child| (child, start)));
                    first
                }
            };
            blocks.push(Block { start, parent_start, choice, link });
        }
        levels.push(blocks);
        list = children;
    }
    write_tree(layout, text, shape, counted, &levels, &leaf_bytes)
}

fn write_tree(layout: u32, text: &[u8], shape: Shape, counted: &[u8], levels: &[Vec<Block>], leaf_bytes: &[u8]) -> Vec<u8> {
    let mut tree = Vec::new();
    let put = |tree: &mut Vec<u8>, value: usize| tree.extend_from_slice(&(value as u32).to_le_bytes());
    for value in [layout as usize, text.len(), shape.m as usize, shape.r as usize, shape.h as usize, counted.len()] {
        put(&mut tree, value);
    }
    tree.extend_from_slice(counted);
    tree.resize(28, 0);
    let mut offset = HEADER;
    for level in 0..MAX_LEVELS {
        let blocks = levels.get(level).map_or(0, Vec::len);
        put(&mut tree, blocks);
        put(&mut tree, if level < levels.len() { offset } else { 0 });
        offset += blocks * record_length(layout, shape.m, counted.len());
    }
    put(&mut tree, offset);
    put(&mut tree, leaf_bytes.len());

    let sums: Vec<Vec<u32>> = counted.iter().map(|&byte| prefix_counts(text, byte)).collect();
    for (level, blocks) in levels.iter().enumerate() {
        let b = shape.block_length(level) as usize;
        for block in blocks {
            let (kind, gap) = match block.choice {
                Choice::Keep => (0, 0),
                Choice::Point { gap, .. } => (1, gap),
            };
            for value in [block.start, kind, block.link, gap] {
                put(&mut tree, value);
            }
            let end = text.len().min(block.start + b);
            for sum in &sums {
                let occurrences = |from: usize, to: usize| (sum[to] - sum[from]) as usize;
                put(&mut tree, occurrences(block.parent_start, block.start));
                put(&mut tree, occurrences(block.start, end));
                put(&mut tree, if kind == 1 { occurrences(blocks[block.link].start, blocks[block.link].start + gap) } else { 0 });
            }
            if layout == WITH_EDGES {
                tree.extend(edges(&text[block.start..end], shape.m as usize));
            }
        }
    }
    tree.extend_from_slice(leaf_bytes);
    tree
}

/// The edges of a block: its first and its last m bytes. Both edges of a shorter block are its bytes and then zeros.
pub fn edges(block: &[u8], m: usize) -> Vec<u8> {
    let (first, last) = (&block[..m.min(block.len())], &block[block.len().saturating_sub(m)..]);
    let zeros = vec![0; m - first.len()];
    [first, &zeros, last, &zeros].concat()
}

/// How often `byte` occurs in each prefix of `text`.
pub fn prefix_counts(text: &[u8], byte: u8) -> Vec<u32> {
    let mut sums = vec![0];
    for &here in text {
        sums.push(sums[sums.len() - 1] + u32::from(here == byte));
    }
    sums
}

/// Questions 1 to 3.
pub fn refusal(n: u64, shape: Shape, counted: &[u8]) -> u32 {
    if !text_in_bounds(n) {
        1
    } else if !shape.in_bounds() {
        2
    } else if !counted_in_bounds(counted) {
        3
    } else {
        0
    }
}

/// Build into a buffer: the refusal and the tree's size.
pub fn build(text: &[u8], shape: Shape, counted: &[u8], buffer: &mut [u8]) -> (u32, u32) {
    build_with(text, shape, counted, buffer, plain_tree)
}

/// The tree, by trying every place for all bytes that are searched.
pub fn plain_tree(text: &[u8], shape: Shape, counted: &[u8]) -> Vec<u8> {
    plain_tree_in(WITH_EDGES, text, shape, counted)
}

/// The same in either layout.
pub fn plain_tree_in(layout: u32, text: &[u8], shape: Shape, counted: &[u8]) -> Vec<u8> {
    assemble(layout, text, shape, counted, |b, starts| choose(text.len(), b, starts, &|place, length| leftmost(text, place, length)))
}

pub fn build_with(text: &[u8], shape: Shape, counted: &[u8], buffer: &mut [u8], make: impl Fn(&[u8], Shape, &[u8]) -> Vec<u8>) -> (u32, u32) {
    let number = refusal(text.len() as u64, shape, counted);
    if number != 0 {
        return (number, 0);
    }
    let tree = make(text, shape, counted);
    if tree.len() > buffer.len() {
        buffer.fill(0);
        return (4, 0);
    }
    buffer[..tree.len()].copy_from_slice(&tree);
    (0, tree.len() as u32)
}

/// The size of the tree of `n` bytes in which every block is kept: no tree of such a text is larger.
pub fn largest(n: u64, shape: Shape, k: usize) -> u64 {
    let blocks: u64 = (0..shape.h as usize).map(|level| blocks_for(n, shape.block_length(level))).sum();
    HEADER as u64 + blocks * record_length(WITH_EDGES, shape.m, k) as u64 + n
}

/// Build with one scan a level, with a table of `words` words: the refusal, the tree's size and the windows looked up.
pub fn scan(text: &[u8], shape: Shape, counted: &[u8], words: usize, buffer: &mut [u8]) -> (u32, u32, u32) {
    scan_with(text, shape, counted, words, buffer, plain_tree)
}

pub fn scan_with(
    text: &[u8],
    shape: Shape,
    counted: &[u8],
    words: usize,
    buffer: &mut [u8],
    make: impl Fn(&[u8], Shape, &[u8]) -> Vec<u8>,
) -> (u32, u32, u32) {
    let n = text.len() as u64;
    let number = refusal(n, shape, counted);
    if number == 0 && (words as u64) < 4 * blocks_for(n, shape.m.into()) {
        return (18, 0, 0);
    }
    match build_with(text, shape, counted, buffer, make) {
        (0, size) => (0, size, windows(text.len(), shape, buffer)),
        (number, _) => (number, 0, 0),
    }
}

/// The number of windows that scans of the levels above the last look up, from the blocks in the tree: n + 1 - L for each different length L of a
/// block or a pair, kept or not.
pub fn windows(n: usize, shape: Shape, tree: &[u8]) -> u32 {
    let levels = 0..shape.h as usize;
    let blocks: Vec<usize> = levels.clone().map(|level| word(tree, 28 + 8 * level) as usize).collect();
    // a tree without blocks has no record, and no windows
    let record = (word(tree, 92) as usize - HEADER).checked_div(blocks.iter().sum()).unwrap_or(0);
    let mut looked = 0;
    for level in levels.rev().skip(1) {
        let b = shape.block_length(level) as usize;
        let offset = word(tree, 32 + 8 * level) as usize;
        let starts: Vec<usize> = (0..blocks[level]).map(|block| word(tree, offset + block * record) as usize).collect();
        let single = starts.iter().map(|&start| b.min(n - start));
        let double = starts.windows(2).filter(|pair| pair[1] == pair[0] + b).map(|pair| (2 * b).min(n - pair[0]));
        let lengths: BTreeSet<usize> = single.chain(double).collect();
        looked += lengths.iter().map(|length| (n + 1 - length) as u32).sum::<u32>();
    }
    looked
}
