//! Building, finding and rows for long books: the same results as the plain model's, by other methods.

use super::build::{assemble, choose};
use super::read::*;
use super::*;
use std::cell::RefCell;
use std::collections::HashMap;

/// The tree. Each length is searched once, all windows of the text in one pass.
pub fn tree(text: &[u8], shape: Shape, counted: &[u8]) -> Vec<u8> {
    assemble(WITH_EDGES, text, shape, counted, |b, starts| {
        let leftmost = Leftmost { text, by_length: RefCell::new(HashMap::new()), starts };
        choose(text.len(), b, starts, &|place, length| leftmost.of(place, length))
    })
}

/// The leftmost occurrences of the bytes at a level's starts, for each length used so far.
struct Leftmost<'a> {
    text: &'a [u8],
    starts: &'a [usize],
    by_length: RefCell<HashMap<usize, HashMap<usize, usize>>>,
}

impl Leftmost<'_> {
    fn of(&self, place: usize, length: usize) -> usize {
        let mut by_length = self.by_length.borrow_mut();
        by_length.entry(length).or_insert_with(|| self.search(length))[&place]
    }

    /// For each start of the level: the leftmost occurrence of its `length` bytes.
    fn search(&self, length: usize) -> HashMap<usize, usize> {
        let hashes = window_hashes(self.text, length);
        let mut asked: HashMap<u64, Vec<usize>> = HashMap::new();
        for &start in self.starts.iter().filter(|&&start| start + length <= self.text.len()) {
            asked.entry(hashes[start]).or_default().push(start);
        }
        let mut found = HashMap::new();
        for (place, hash) in hashes.iter().enumerate() {
            let Some(open) = asked.get_mut(hash) else { continue };
            open.retain(|&start| {
                let same = self.text[start..start + length] == self.text[place..place + length];
                if same {
                    found.insert(start, place);
                }
                !same
            });
            if open.is_empty() {
                asked.remove(hash);
            }
        }
        found
    }
}

/// A rolling hash of every window, modulo 2^64. A hash proposes; bytes decide.
fn window_hashes(text: &[u8], length: usize) -> Vec<u64> {
    const BASE: u64 = 0x9E37_79B9_7F4A_7C15;
    let top = BASE.wrapping_pow(length as u32 - 1);
    let mut hash = text[..length].iter().fold(0u64, |hash, &byte| hash.wrapping_mul(BASE).wrapping_add(u64::from(byte)));
    let mut hashes = vec![hash];
    for place in length..text.len() {
        hash = hash.wrapping_sub(u64::from(text[place - length]).wrapping_mul(top));
        hash = hash.wrapping_mul(BASE).wrapping_add(u64::from(text[place]));
        hashes.push(hash);
    }
    hashes
}

/// Find, by the walk that the format describes, on a tree that the check accepts.
pub fn find(bytes: &[u8], byte: u32, j: u32) -> (u32, u32, u32) {
    figures(try_find(bytes, byte, j, stepped))
}

/// The same, with a binary search over the blocks of level 0.
pub fn find_bisected(bytes: &[u8], byte: u32, j: u32) -> (u32, u32, u32) {
    figures(try_find(bytes, byte, j, bisected))
}

fn figures(found: Result<(u64, u32), u32>) -> (u32, u32, u32) {
    match found {
        Ok((place, entered)) => (0, place as u32, entered),
        Err(number) => (number, 0, 0),
    }
}

/// The block of level 0 that contains the j-th of a counted byte, step by step.
#[inline]
fn stepped(tree: &Tree, c: usize, j: u64) -> u64 {
    last_before(tree, 0, c, 0, tree.blocks(0), j)
}

/// The same block by binary search.
#[inline]
pub fn bisected(tree: &Tree, c: usize, j: u64) -> u64 {
    let (mut low, mut high) = (0, tree.blocks(0));
    while high - low > 1 {
        let middle = (low + high) / 2;
        if tree.field(0, middle, BEFORE + 3 * c) < j {
            low = middle;
        } else {
            high = middle;
        }
    }
    low
}

#[inline]
fn try_find(bytes: &[u8], byte: u32, j: u32, top: impl Fn(&Tree, usize, u64) -> u64) -> Result<(u64, u32), u32> {
    let (tree, c) = find_questions(bytes, byte, j)?;
    let mut j = u64::from(j);
    let mut entered = 0;
    // the place in the text that the entered block represents, its number, and where its siblings end
    let (mut base, mut first, mut end) = (0, 0, tree.blocks(0));
    for level in 0..tree.levels {
        let b = tree.block_length(level);
        let figure = |block: u64, field: usize| tree.field(level, block, field + 3 * c);
        let mut block = if level == 0 { top(&tree, c, j) } else { last_before(&tree, level, c, first, end, j) };
        base += (block - first) * b;
        j -= figure(block, BEFORE);
        entered += 1;
        if tree.field(level, block, KIND) == 1 {
            let (link, gap) = (tree.field(level, block, LINK), tree.field(level, block, GAP));
            j += figure(block, SKIP);
            entered += 1;
            block = link;
            base -= gap;
            if j > figure(link, INSIDE) {
                j -= figure(link, INSIDE);
                block = link + 1;
                base += b;
            }
        }
        first = tree.field(level, block, LINK);
        let length = tree.length(level, block);
        if level + 1 == tree.levels {
            let leaf = tree.leaf_bytes(first, length);
            return Ok((base + nth(leaf, byte as u8, j as usize) as u64, entered));
        }
        end = first + blocks_for(length, tree.block_length(level + 1));
    }
    unreachable!("the last level answers")
}

/// The last of the blocks from `first` on, below `end`, before any whose before is j or more.
#[inline]
fn last_before(tree: &Tree, level: usize, c: usize, first: u64, end: u64, j: u64) -> u64 {
    let mut block = first;
    while block + 1 < end && tree.field(level, block + 1, BEFORE + 3 * c) < j {
        block += 1;
    }
    block
}

/// Row q, on a tree that the check accepts.
pub fn row(bytes: &[u8], q: u32, buffer: &mut [u8]) -> (u32, u32) {
    match try_row(bytes, q, buffer) {
        Ok(length) => (0, length),
        Err(number) => (number, 0),
    }
}

fn try_row(bytes: &[u8], q: u32, buffer: &mut [u8]) -> Result<u32, u32> {
    let tree = row_questions(bytes, q)?;
    let total = tree.total(tree.counted(10).ok_or(11u32)?);
    let end = if u64::from(q) > total { tree.n } else { try_find(bytes, 10, q, stepped)?.0 };
    let start = if q == 1 { 0 } else { try_find(bytes, 10, q - 1, stepped)?.0 + 1 };
    let marked = end < tree.n && end > start && byte_at(&tree, end - 1).ok_or(14u32)?.0 == b'\r';
    let length = (end - start) as u32 - u32::from(marked);
    if length as usize > buffer.len() {
        return Err(13);
    }
    match copy(&tree, start, &mut buffer[..length as usize]) {
        0 => Ok(length),
        number => Err(number),
    }
}
