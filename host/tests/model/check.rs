//! The check: questions 5 to 9; and the list program.

use super::build::{edges, prefix_counts};
use super::read::*;
use super::*;

/// 0, or the number of the first question that fails.
pub fn check(bytes: &[u8]) -> u32 {
    match Tree::open(bytes) {
        Err(number) => number,
        Ok(tree) if !well_linked(&tree) => 8,
        Ok(tree) if !counts_and_edges_true(&tree) => 9,
        Ok(_) => 0,
    }
}

/// Question 8.
fn well_linked(tree: &Tree) -> bool {
    // the starts that the kinds above give
    let mut starts: Vec<u64> = (0..tree.blocks(0)).map(|i| i * tree.block_length(0)).collect();
    for level in 0..tree.levels {
        if starts.len() as u64 != tree.blocks(level) {
            return false;
        }
        if (0..tree.blocks(level)).any(|i| tree.field(level, i, START) != starts[i as usize]) {
            return false;
        }
        let last = level + 1 == tree.levels;
        let child = if last { 1 } else { tree.block_length(level + 1) };
        let mut children = Vec::new();
        for i in 0..tree.blocks(level) {
            let start = starts[i as usize];
            match tree.field(level, i, KIND) {
                0 => {
                    if tree.field(level, i, GAP) != 0 || tree.field(level, i, LINK) != children.len() as u64 {
                        return false;
                    }
                    let end = start + tree.length(level, i);
                    children.extend((start..end).step_by(child as usize));
                }
                1 if !last => {
                    if !points_well(tree, level, i) {
                        return false;
                    }
                }
                _ => return false,
            }
        }
        starts = children;
    }
    starts.len() as u64 == tree.leaf_count()
}

/// Question 8 for a pointing block. The starts of its level are checked before.
fn points_well(tree: &Tree, level: usize, i: u64) -> bool {
    let b = tree.block_length(level);
    let (link, gap) = (tree.field(level, i, LINK), tree.field(level, i, GAP));
    let kept = |block: u64| block < tree.blocks(level) && tree.field(level, block, KIND) == 0;
    let start = |block: u64| tree.field(level, block, START);
    if gap >= b || !kept(link) || start(link) + gap + tree.length(level, i) > start(i) {
        return false;
    }
    gap + tree.length(level, i) <= b || (kept(link + 1) && start(link + 1) == start(link) + b)
}

/// Question 9, by the text that fits: a tree that passes 5 to 8 has exactly one.
fn counts_and_edges_true(tree: &Tree) -> bool {
    let text = text(tree);
    let counts = (0..tree.k).all(|c| {
        let sums = prefix_counts(&text, tree.bytes[24 + c]);
        (0..tree.levels).all(|level| level_counts_true(tree, level, c, &sums))
    });
    counts && (tree.layout != WITH_EDGES || (0..tree.levels).all(|level| level_edges_true(tree, level, &text)))
}

fn level_edges_true(tree: &Tree, level: usize, text: &[u8]) -> bool {
    (0..tree.blocks(level)).all(|i| {
        let start = tree.field(level, i, START) as usize;
        let block = &text[start..start + tree.length(level, i) as usize];
        [tree.first_edge(level, i), tree.last_edge(level, i)].concat() == edges(block, tree.m)
    })
}

fn level_counts_true(tree: &Tree, level: usize, c: usize, sums: &[u32]) -> bool {
    let parents = parent_starts(tree, level);
    let occurrences = |from: u64, to: u64| u64::from(sums[to as usize] - sums[from as usize]);
    (0..tree.blocks(level)).all(|i| {
        let figure = |field: usize| tree.field(level, i, field + 3 * c);
        let start = tree.field(level, i, START);
        let skip = if tree.field(level, i, KIND) == 1 {
            let target = tree.field(level, tree.field(level, i, LINK), START);
            occurrences(target, target + tree.field(level, i, GAP))
        } else {
            0
        };
        figure(BEFORE) == occurrences(parents[i as usize], start)
            && figure(INSIDE) == occurrences(start, start + tree.length(level, i))
            && figure(SKIP) == skip
    })
}

/// The start of each block's parent; on level 0 the text's.
fn parent_starts(tree: &Tree, level: usize) -> Vec<u64> {
    if level == 0 {
        return vec![0; tree.blocks(0) as usize];
    }
    let mut starts = Vec::new();
    for parent in (0..tree.blocks(level - 1)).filter(|&i| tree.field(level - 1, i, KIND) == 0) {
        let children = blocks_for(tree.length(level - 1, parent), tree.block_length(level));
        starts.resize(starts.len() + children as usize, tree.field(level - 1, parent, START));
    }
    starts
}

/// The list program: the refusal and the lines.
pub fn list(input: &[u8]) -> (u32, String) {
    let number = if input.len() > 65_536 { 15 } else { check(input) };
    match Tree::open(input) {
        Ok(tree) if number == 0 => (0, (0..tree.levels).map(|level| list_line(&tree, level)).collect()),
        _ => (number, format!("refused {number}\n")),
    }
}

fn list_line(tree: &Tree, level: usize) -> String {
    let blocks = tree.blocks(level);
    let pointing = (0..blocks).filter(|&i| tree.field(level, i, KIND) == 1).count() as u64;
    format!("{level} {blocks} {} {pointing}\n", blocks - pointing)
}
