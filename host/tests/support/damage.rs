//! Texts, settings and trees for the differential tests. Trees are valid, damaged, or wild: a right header and random records.
#![allow(dead_code)] // each test uses a part

use super::Rng;
use crate::model::build::{assemble, Choice};
use crate::model::{blocks_for, record_length, word, Shape, HEADER, LAYOUTS, WITH_EDGES};

/// A text of up to `longest` bytes over a few letters, with repeated parts; sometimes the empty text.
pub fn text(rng: &mut Rng, longest: usize) -> Vec<u8> {
    let length = if rng.one_in(40) { 0 } else { rng.within(1, longest) };
    let letters = *rng.pick(&[b"A".as_slice(), b"AB", b"ABC\n", b"A\r\n", b"AB\n\0\xFF", b"0123456789 \n"]);
    let copies = rng.below(4);
    let mut text: Vec<u8> = Vec::new();
    while text.len() < length {
        if copies > 0 && !text.is_empty() && rng.below(4) < copies {
            let from = rng.below(text.len());
            let to = rng.within(from + 1, text.len());
            text.extend_from_within(from..to);
        } else {
            text.push(*rng.pick(letters));
        }
    }
    text.truncate(length);
    text
}

/// Settings within bounds.
pub fn shape(rng: &mut Rng) -> Shape {
    loop {
        let shape = match rng.below(4) {
            0 => Shape::new(rng.within(1, 256) as u32, rng.within(2, 16) as u32, rng.within(1, 8) as u32),
            _ => Shape::new(rng.within(1, 6) as u32, rng.within(2, 4) as u32, rng.within(1, 5) as u32),
        };
        if shape.in_bounds() {
            return shape;
        }
    }
}

/// At most four bytes in increasing order.
pub fn counted(rng: &mut Rng) -> Vec<u8> {
    let mut counted: Vec<u8> = (0..rng.below(5)).map(|_| *rng.pick(b"\n\nAB0 \0\xFFz")).collect();
    counted.sort_unstable();
    counted.dedup();
    counted
}

/// A valid tree that the builder would not make: some blocks that could point are kept, occurrences are not the leftmost, and the layout may be 1.
pub fn other_tree(rng: &mut Rng, text: &[u8], shape: Shape, counted: &[u8]) -> Vec<u8> {
    let keep_one_in = rng.within(1, 4);
    let layout = *rng.pick(&LAYOUTS);
    assemble(layout, text, shape, counted, |b, starts| {
        let mut choices: Vec<Choice> = Vec::new();
        for &start in starts {
            let mut targets = targets(text, b, starts, &choices, start);
            let choice = if targets.is_empty() || rng.one_in(keep_one_in) { Choice::Keep } else { targets.swap_remove(rng.below(targets.len())) };
            choices.push(choice);
        }
        choices
    })
}

/// All blocks and gaps that the block at `start` may point to, given the choices before it.
fn targets(text: &[u8], b: usize, starts: &[usize], choices: &[Choice], start: usize) -> Vec<Choice> {
    let length = b.min(text.len() - start);
    let mut list = Vec::new();
    for link in (0..choices.len()).filter(|&link| choices[link] == Choice::Keep) {
        for gap in 0..b {
            let place = starts[link] + gap;
            if place + length > start {
                break;
            }
            let runs_on = gap + length > b;
            let followed = !runs_on || (choices.get(link + 1) == Some(&Choice::Keep) && starts[link + 1] == starts[link] + b);
            if followed && text[place..place + length] == text[start..start + length] {
                list.push(Choice::Point { link, gap });
            }
        }
    }
    list
}

pub fn set_word(tree: &mut [u8], at: usize, value: u32) {
    tree[at..at + 4].copy_from_slice(&value.to_le_bytes());
}

/// A word that is likely to matter: near the old one, small, or near a bound.
pub fn odd_word(rng: &mut Rng, old: u32) -> u32 {
    match rng.below(8) {
        0 => old.wrapping_add(1),
        1 => old.wrapping_sub(1),
        2 => rng.next() as u32,
        3 => *rng.pick(&[u32::MAX, u32::MAX - 1, 1 << 31, (1 << 31) - 1, 256, 1 << 16, 1 << 24]),
        4 => old ^ (1 << rng.below(32)),
        _ => rng.below(8) as u32,
    }
}

/// Damage a tree once.
pub fn damage(rng: &mut Rng, tree: &mut Vec<u8>) {
    if tree.len() < HEADER {
        tree.resize(HEADER, 0);
        return;
    }
    match rng.below(20) {
        0 => tree.truncate(rng.below(tree.len())),
        1 => {
            tree.truncate(tree.len() - 1);
        }
        2 => tree.extend((0..rng.within(1, 5)).map(|_| 0)),
        3 => {
            let at = rng.below(tree.len());
            tree[at] = rng.next() as u8;
        }
        4 | 5 => odd_at(rng, tree, 4 * (HEADER / 4), 0),
        6 => add_or_drop_block(rng, tree),
        7 => add_or_drop_leaf(rng, tree),
        8 => swap_records(rng, tree),
        9..=12 => point_elsewhere(rng, tree),
        _ => {
            // a word of the records
            let records = (word(tree, 92) as usize).clamp(HEADER, tree.len() / 4 * 4) - HEADER;
            odd_at(rng, tree, records / 4 * 4, HEADER);
        }
    }
}

/// Changes one of the words in the `length` bytes from `from` on.
fn odd_at(rng: &mut Rng, tree: &mut [u8], length: usize, from: usize) {
    if length >= 4 {
        let at = from + 4 * rng.below(length / 4);
        let value = odd_word(rng, word(tree, at));
        set_word(tree, at, value);
    }
}

/// The number of levels and the length of a record, if they are within bounds in the header.
fn layout(tree: &[u8]) -> Option<(usize, usize)> {
    let (levels, k, leaf) = (word(tree, 16) as usize, word(tree, 20) as usize, word(tree, 92) as usize);
    ((1..=8).contains(&levels) && k <= 4 && leaf <= tree.len()).then_some((levels, record_length(word(tree, 0), word(tree, 8).min(256), k)))
}

/// Adds or removes a block on one level, with a header to match.
fn add_or_drop_block(rng: &mut Rng, tree: &mut Vec<u8>) {
    let Some((levels, record)) = layout(tree) else { return };
    let level = rng.below(levels);
    let (blocks, offset) = (word(tree, 28 + 8 * level), word(tree, 32 + 8 * level) as usize);
    let end = offset.saturating_add((blocks as usize).saturating_mul(record));
    if offset < HEADER || end > tree.len() || blocks == 0 {
        return;
    }
    let block = offset + rng.below(blocks as usize) * record;
    let more = rng.one_in(2);
    if more {
        let copy = tree[block..block + record].to_vec();
        tree.splice(end..end, copy);
    } else {
        tree.drain(block..block + record);
    }
    set_word(tree, 28 + 8 * level, if more { blocks + 1 } else { blocks - 1 });
    lay_out(tree, levels, record);
}

/// Offsets as the counts give them.
fn lay_out(tree: &mut [u8], levels: usize, record: usize) {
    let mut offset = HEADER as u32;
    for level in 0..levels {
        set_word(tree, 32 + 8 * level, offset);
        offset = offset.wrapping_add(word(tree, 28 + 8 * level).wrapping_mul(record as u32));
    }
    set_word(tree, 92, offset);
}

/// Adds or removes a leaf byte, with a leaf count to match.
fn add_or_drop_leaf(rng: &mut Rng, tree: &mut Vec<u8>) {
    let leaves = word(tree, 96);
    if rng.one_in(2) {
        tree.push(b'A');
        set_word(tree, 96, leaves.wrapping_add(1));
    } else if leaves > 0 && tree.len() > HEADER {
        tree.pop();
        set_word(tree, 96, leaves - 1);
    }
}

/// Another link and gap for a pointing block, often close to valid ones, so that some pass; if the level has neighbours that are apart in
/// the text, often across them.
fn point_elsewhere(rng: &mut Rng, tree: &mut [u8]) {
    let Some((levels, record)) = layout(tree) else { return };
    let level = rng.below(levels);
    let (blocks, offset) = (word(tree, 28 + 8 * level) as usize, word(tree, 32 + 8 * level) as usize);
    if offset < HEADER || offset.saturating_add(blocks.saturating_mul(record)) > tree.len() {
        return;
    }
    let field = |block: usize, field: usize| word(tree, offset + block * record + 4 * field);
    let pointing: Vec<usize> = (0..blocks).filter(|&block| field(block, 1) == 1).collect();
    if pointing.is_empty() {
        return;
    }
    // block 0 starts at 0, and block 1 one block after it
    let b = if blocks > 1 { field(1, 0).clamp(1, 1000) } else { 1 };
    let apart: Vec<usize> = (1..blocks)
        .filter(|&block| field(block - 1, 1) == 0 && field(block, 1) == 0 && field(block, 0) > field(block - 1, 0).saturating_add(b))
        .map(|block| block - 1)
        .collect();
    let block = *rng.pick(&pointing);
    let link = if apart.is_empty() || rng.one_in(4) { rng.below(blocks) } else { *rng.pick(&apart) };
    let at = offset + block * record;
    set_word(tree, at + 8, link as u32);
    if rng.below(4) > 0 {
        let gap = rng.below(b as usize) as u32;
        set_word(tree, at + 12, gap);
    }
}

fn swap_records(rng: &mut Rng, tree: &mut [u8]) {
    let Some((_, record)) = layout(tree) else { return };
    let records = (word(tree, 92) as usize).saturating_sub(HEADER) / record;
    if records > 1 {
        let (a, b) = (rng.below(records), rng.below(records));
        for i in 0..record {
            tree.swap(HEADER + a * record + i, HEADER + b * record + i);
        }
    }
}

/// A wild tree: its header is right and its records are random, with mostly small words, so that paths go far before they break.
pub fn wild_tree(rng: &mut Rng) -> Vec<u8> {
    let shape = loop {
        let shape = shape(rng);
        if shape.block_length(0) <= 64 {
            break shape;
        }
    };
    let n = rng.within(1, 4 * shape.block_length(0) as usize);
    let counted = counted(rng);
    let mut tree = vec![0; HEADER];
    let layout = *rng.pick(&LAYOUTS);
    for (at, value) in [(0, layout), (4, n as u32), (8, shape.m), (12, shape.r), (16, shape.h), (20, counted.len() as u32)] {
        set_word(&mut tree, at, value);
    }
    tree[24..24 + counted.len()].copy_from_slice(&counted);
    for level in 0..shape.h as usize {
        let right = blocks_for(n as u64, shape.block_length(level)) as usize;
        let blocks = if level == 0 { right } else { rng.within(right / 2, right + 1) };
        set_word(&mut tree, 28 + 8 * level, blocks as u32);
        for i in 0..blocks {
            record(rng, &mut tree, i, shape.block_length(level) as u32, counted.len());
            if layout == WITH_EDGES {
                tree.extend((0..2 * shape.m).map(|_| *rng.pick(b"AB\n\0")));
            }
        }
    }
    lay_out(&mut tree, shape.h as usize, record_length(layout, shape.m, counted.len()));
    let leaves = rng.within(n / 2, n + 2);
    set_word(&mut tree, 96, leaves as u32);
    tree.extend((0..leaves).map(|_| *rng.pick(b"AB\n")));
    tree
}

fn record(rng: &mut Rng, tree: &mut Vec<u8>, number: usize, b: u32, k: usize) {
    let kind = if rng.one_in(20) { 2 } else { u32::from(rng.one_in(4)) };
    let link = if kind == 1 { rng.below(number + 1) } else { rng.within(number, 2 * number + 1) };
    let gap = if kind == 1 { rng.below(b as usize) as u32 + u32::from(rng.one_in(10)) } else { 0 };
    for value in [number as u32 * b, kind, link as u32, gap] {
        tree.extend_from_slice(&value.to_le_bytes());
    }
    for _ in 0..3 * k {
        let value = if rng.one_in(30) { odd_word(rng, 0) } else { rng.below(6) as u32 };
        tree.extend_from_slice(&value.to_le_bytes());
    }
}

/// A wild tree, or more often a valid one, damaged up to twice.
pub fn hurt_tree(rng: &mut Rng, good: impl FnOnce(&mut Rng) -> Vec<u8>) -> Box<[u8]> {
    let mut tree = if rng.one_in(4) { wild_tree(rng) } else { good(rng) };
    for _ in 0..rng.below(3) {
        damage(rng, &mut tree);
    }
    tree.into_boxed_slice()
}
