//! Reading: the header's questions, the path of a place, and the queries.

use super::*;

/// A tree that passed questions 5 to 7: every table lies within its bytes.
pub struct Tree<'a> {
    pub bytes: &'a [u8],
    pub n: u64,
    pub layout: u32,
    pub m: usize,
    pub levels: usize,
    pub k: usize,
    b: [u64; MAX_LEVELS],
    blocks: [u64; MAX_LEVELS],
    offset: [usize; MAX_LEVELS],
    leaf_offset: usize,
    leaf_count: u64,
}

/// A record's field, by its word.
pub const START: usize = 0;
pub const KIND: usize = 1;
pub const LINK: usize = 2;
pub const GAP: usize = 3;
pub const BEFORE: usize = 4;
pub const INSIDE: usize = 5;
pub const SKIP: usize = 6;

impl<'a> Tree<'a> {
    /// Questions 5 to 7.
    #[inline]
    pub fn open(bytes: &'a [u8]) -> Result<Self, u32> {
        if bytes.len() < HEADER {
            return Err(5);
        }
        let layout = word(bytes, 0);
        if !LAYOUTS.contains(&layout) {
            return Err(6);
        }
        let n = u64::from(word(bytes, 4));
        let shape = Shape::new(word(bytes, 8), word(bytes, 12), word(bytes, 16));
        let k = word(bytes, 20) as usize;
        if !text_in_bounds(n) || !shape.in_bounds() || k > MAX_COUNTED {
            return Err(7);
        }
        let levels = shape.h as usize;
        if !counted_in_bounds(&bytes[24..24 + k]) || bytes[24 + k..28].iter().any(|&byte| byte != 0) {
            return Err(7);
        }
        let mut tree = Tree {
            bytes,
            n,
            layout,
            m: shape.m as usize,
            levels,
            k,
            b: [0; MAX_LEVELS],
            blocks: [0; MAX_LEVELS],
            offset: [0; MAX_LEVELS],
            leaf_offset: 0,
            leaf_count: u64::from(word(bytes, 96)),
        };
        let mut expected = HEADER as u64;
        for level in 0..MAX_LEVELS {
            let (blocks, offset) = (word(bytes, 28 + 8 * level), word(bytes, 32 + 8 * level));
            if level >= levels {
                if blocks != 0 || offset != 0 {
                    return Err(7);
                }
                continue;
            }
            if u64::from(offset) != expected {
                return Err(7);
            }
            tree.b[level] = shape.block_length(level);
            tree.blocks[level] = u64::from(blocks);
            tree.offset[level] = offset as usize;
            expected += u64::from(blocks) * record_length(layout, shape.m, k) as u64;
        }
        tree.leaf_offset = word(bytes, 92) as usize;
        if tree.blocks[0] != blocks_for(n, tree.b[0]) || u64::from(word(bytes, 92)) != expected || bytes.len() as u64 != expected + tree.leaf_count {
            return Err(7);
        }
        Ok(tree)
    }

    #[inline]
    pub fn block_length(&self, level: usize) -> u64 {
        self.b[level]
    }

    #[inline]
    pub fn blocks(&self, level: usize) -> u64 {
        self.blocks[level]
    }

    pub fn leaf_count(&self) -> u64 {
        self.leaf_count
    }

    /// A range of the leaf bytes.
    #[inline]
    pub fn leaf_bytes(&self, first: u64, length: u64) -> &'a [u8] {
        let from = self.leaf_offset + first as usize;
        &self.bytes[from..from + length as usize]
    }

    /// A word of the record of a block in the table.
    #[inline]
    pub fn field(&self, level: usize, block: u64, field: usize) -> u64 {
        u64::from(word(self.bytes, self.record(level, block) + 4 * field))
    }

    /// Where the record of a block in the table begins.
    #[inline]
    fn record(&self, level: usize, block: u64) -> usize {
        self.offset[level] + block as usize * record_length(self.layout, self.m as u32, self.k)
    }

    /// The first m bytes of a block, as its record in layout 2 has them.
    #[inline]
    pub fn first_edge(&self, level: usize, block: u64) -> &'a [u8] {
        &self.bytes[self.record(level, block) + record_length(1, 0, self.k)..][..self.m]
    }

    /// The last m bytes of a block, as its record in layout 2 has them.
    #[inline]
    pub fn last_edge(&self, level: usize, block: u64) -> &'a [u8] {
        &self.bytes[self.record(level, block) + record_length(1, 0, self.k) + self.m..][..self.m]
    }

    /// A block's length: b, or the length of the text from its start on, if that is less.
    pub fn length(&self, level: usize, block: u64) -> u64 {
        self.b[level].min(self.n - self.field(level, block, START))
    }

    /// The index of a counted byte.
    #[inline]
    pub fn counted(&self, byte: u32) -> Option<usize> {
        self.bytes[24..24 + self.k].iter().position(|&counted| u32::from(counted) == byte)
    }

    /// How often counted byte number c occurs in the text, by the last block of level 0; 0 if level 0 is empty.
    #[inline]
    pub fn total(&self, c: usize) -> u64 {
        let Some(last) = self.blocks[0].checked_sub(1) else { return 0 };
        self.field(0, last, BEFORE + 3 * c) + self.field(0, last, INSIDE + 3 * c)
    }
}

/// A block on a path.
#[derive(Clone, Copy)]
pub struct Entered {
    pub level: usize,
    pub block: u64,
    /// The place in the block.
    pub place: u64,
    /// Entered from a pointing block of its level.
    pub target: bool,
}

/// Follows the path of place `p`, which is below n, and calls `enter` with each block entered. Returns the number of the leaf byte; none if the path breaks.
#[inline]
pub fn path(tree: &Tree, p: u64, mut enter: impl FnMut(Entered)) -> Option<u64> {
    let mut here = Entered { level: 0, block: p / tree.b[0], place: p % tree.b[0], target: false };
    loop {
        let Entered { level, block, place, target } = here;
        if block >= tree.blocks[level] {
            return None;
        }
        enter(here);
        let link = tree.field(level, block, LINK);
        let b = tree.b[level];
        let last = level + 1 == tree.levels;
        match tree.field(level, block, KIND) {
            0 if last => {
                let leaf = link + place;
                return (leaf < tree.leaf_count).then_some(leaf);
            }
            0 => {
                let child = tree.b[level + 1];
                here = Entered { level: level + 1, block: link + place / child, place: place % child, target: false };
            }
            1 if !target && !last => {
                let gap = tree.field(level, block, GAP);
                if gap >= b {
                    return None;
                }
                here = if gap + place < b {
                    Entered { level, block: link, place: gap + place, target: true }
                } else {
                    Entered { level, block: link + 1, place: gap + place - b, target: true }
                };
            }
            _ => return None,
        }
    }
}

/// The byte at `p`, which is below n, and the blocks entered; none if the path breaks.
#[inline]
pub fn byte_at(tree: &Tree, p: u64) -> Option<(u8, u32)> {
    let mut entered = 0;
    let leaf = path(tree, p, |_| entered += 1)?;
    Some((tree.bytes[tree.leaf_offset + leaf as usize], entered))
}

/// Questions 5 to 7 and 10.
#[inline]
fn open_at(bytes: &[u8], p: u32) -> Result<Tree<'_>, u32> {
    let tree = Tree::open(bytes)?;
    if u64::from(p) < tree.n {
        Ok(tree)
    } else {
        Err(10)
    }
}

/// The refusal, the byte and the blocks entered.
pub fn byte(bytes: &[u8], p: u32) -> (u32, u32, u32) {
    match open_at(bytes, p).and_then(|tree| byte_at(&tree, p.into()).ok_or(14)) {
        Ok((byte, entered)) => (0, byte.into(), entered),
        Err(number) => (number, 0, 0),
    }
}

/// The refusal, where the run begins in the tree's bytes, and its length.
pub fn run(bytes: &[u8], p: u32) -> (u32, u64, u32) {
    match try_run(bytes, p) {
        Ok((offset, length)) => (0, offset, length as u32),
        Err(number) => (number, 0, 0),
    }
}

fn try_run(bytes: &[u8], p: u32) -> Result<(u64, u64), u32> {
    let tree = open_at(bytes, p)?;
    let mut length = tree.n - u64::from(p);
    let leaf = path(&tree, p.into(), |entered| length = length.min(tree.b[entered.level] - entered.place)).ok_or(14u32)?;
    Ok((tree.leaf_offset as u64 + leaf, length.min(tree.leaf_count - leaf)))
}

/// The refusal and the blocks entered by a short span, 0 for any other; the bytes go to the buffer.
pub fn span(bytes: &[u8], p: u32, length: u32, buffer: &mut [u8]) -> (u32, u32) {
    let tree = match Tree::open(bytes) {
        Ok(tree) => tree,
        Err(number) => return (number, 0),
    };
    if u64::from(p) + u64::from(length) > tree.n {
        return (10, 0);
    }
    if length as usize > buffer.len() {
        return (13, 0);
    }
    let part = &mut buffer[..length as usize];
    if tree.layout != WITH_EDGES || part.is_empty() || part.len() > tree.m {
        return (copy(&tree, u64::from(p), part), 0);
    }
    match short(&tree, p.into(), part) {
        Some(entered) => (0, entered),
        None => {
            part.fill(0);
            (14, 0)
        }
    }
}

/// Fills `part`, of 1 to m bytes, with the text from `p`, descending while it lies in one block. Returns the blocks entered; none if the walk breaks.
fn short(tree: &Tree, p: u64, part: &mut [u8]) -> Option<u32> {
    let (mut level, mut block, mut place) = (0, p / tree.b[0], p % tree.b[0]);
    let (mut target, mut entered) = (false, 0);
    loop {
        let b = tree.b[level];
        if place + part.len() as u64 > b {
            // over the border: the end of the left block's last edge, the left block taken as full, and the beginning of the right one's first
            if block + 1 >= tree.blocks[level] {
                return None;
            }
            let (left, right) = part.split_at_mut((b - place) as usize);
            left.copy_from_slice(&tree.last_edge(level, block)[tree.m - left.len()..]);
            right.copy_from_slice(&tree.first_edge(level, block + 1)[..right.len()]);
            return Some(entered + 2);
        }
        if block >= tree.blocks[level] {
            return None;
        }
        entered += 1;
        let link = tree.field(level, block, LINK);
        let last = level + 1 == tree.levels;
        match tree.field(level, block, KIND) {
            0 if last => {
                let leaf = link + place;
                if leaf + part.len() as u64 > tree.leaf_count {
                    return None;
                }
                part.copy_from_slice(tree.leaf_bytes(leaf, part.len() as u64));
                return Some(entered);
            }
            0 => {
                let child = tree.b[level + 1];
                (level, block, place, target) = (level + 1, link + place / child, place % child, false);
            }
            1 if !target && !last => {
                let there = tree.field(level, block, GAP) + place;
                if there - place >= b {
                    return None;
                }
                (block, place, target) = (link + there / b, there % b, true);
            }
            _ => return None,
        }
    }
}

/// Fills `part` with the text from `p`, each byte by its path; zeros and 14 if one breaks.
pub fn copy(tree: &Tree, p: u64, part: &mut [u8]) -> u32 {
    for i in 0..part.len() {
        match byte_at(tree, p + i as u64) {
            Some((byte, _)) => part[i] = byte,
            None => {
                part.fill(0);
                return 14;
            }
        }
    }
    0
}

/// The refusal, the count and the blocks entered.
pub fn count(bytes: &[u8], byte: u32, i: u32) -> (u32, u64, u32) {
    match try_count(bytes, byte, i) {
        Ok((count, entered)) => (0, count, entered),
        Err(number) => (number, 0, 0),
    }
}

fn try_count(bytes: &[u8], byte: u32, i: u32) -> Result<(u64, u32), u32> {
    let tree = Tree::open(bytes)?;
    if u64::from(i) > tree.n {
        return Err(10);
    }
    let c = tree.counted(byte).ok_or(11u32)?;
    if i == 0 {
        return Ok((0, 0));
    }
    let mut sum: i64 = 0;
    let mut entered = 0;
    let mut last = Entered { level: 0, block: 0, place: 0, target: false };
    let leaf = path(&tree, u64::from(i) - 1, |here| {
        let figure = |block: u64, field: usize| tree.field(here.level, block, field + 3 * c) as i64;
        if here.target {
            // the pointing block was the last one entered
            let first = tree.field(here.level, last.block, LINK);
            sum -= figure(last.block, SKIP);
            if here.block != first {
                sum += figure(first, INSIDE);
            }
        } else {
            sum += figure(here.block, BEFORE);
        }
        entered += 1;
        last = here;
    })
    .ok_or(14u32)?;
    let reached = tree.leaf_bytes(leaf - last.place, last.place + 1);
    sum += reached.iter().filter(|&&here| u32::from(here) == byte).count() as i64;
    if sum < 0 {
        return Err(14);
    }
    Ok((sum as u64, entered))
}

/// A result, or a bound of the unspecified results on a tree that the check refuses.
#[derive(Clone, Copy, Debug, PartialEq, Eq)]
pub enum Answer<T> {
    Exact(T),
    /// The length of the text or the number of rows: any place, length or row up to this that the format allows.
    Unspecified(u64),
}

/// The refusal, the place and the length of its path.
pub fn find(bytes: &[u8], byte: u32, j: u32) -> Answer<(u32, u32, u32)> {
    let (tree, _) = match find_questions(bytes, byte, j) {
        Ok(tree) => tree,
        Err(number) => return Answer::Exact((number, 0, 0)),
    };
    if check::check(bytes) != 0 {
        return Answer::Unspecified(tree.n);
    }
    let place = nth(&text(&tree), byte as u8, j as usize);
    let (_, entered) = byte_at(&tree, place as u64).expect("no path breaks");
    Answer::Exact((0, place as u32, entered))
}

/// Questions 5 to 7, 11 and 12.
#[inline]
pub fn find_questions(bytes: &[u8], byte: u32, j: u32) -> Result<(Tree<'_>, usize), u32> {
    let tree = Tree::open(bytes)?;
    let c = tree.counted(byte).ok_or(11u32)?;
    if j == 0 || u64::from(j) > tree.total(c) {
        return Err(12);
    }
    Ok((tree, c))
}

/// The place of the j-th `byte` of a text, j from 1.
pub fn nth(text: &[u8], byte: u8, j: usize) -> usize {
    text.iter().enumerate().filter(|(_, &here)| here == byte).nth(j - 1).expect("the total says so").0
}

/// The bytes that the paths of all places give; none if one breaks.
pub fn bytes_of_paths(tree: &Tree) -> Option<Vec<u8>> {
    (0..tree.n).map(|p| byte_at(tree, p).map(|(byte, _)| byte)).collect()
}

/// The text of a tree that passes questions 5 to 8.
pub fn text(tree: &Tree) -> Vec<u8> {
    bytes_of_paths(tree).expect("no path breaks")
}

/// All places of a pattern in a text, by comparing its bytes at every place.
pub fn places_in(text: &[u8], pattern: &[u8]) -> Vec<u32> {
    (0..text.len()).filter(|&place| text[place..].starts_with(pattern)).map(|place| place as u32).collect()
}

/// The refusal and the number of places, which go to the table.
pub fn places(bytes: &[u8], pattern: &[u8], table: &mut [u32]) -> (u32, u32) {
    match try_places(bytes, pattern, table.len()) {
        Ok(places) => {
            table[..places.len()].copy_from_slice(&places);
            (0, places.len() as u32)
        }
        Err(number) => (number, 0),
    }
}

fn try_places(bytes: &[u8], pattern: &[u8], words: usize) -> Result<Vec<u32>, u32> {
    let tree = Tree::open(bytes)?;
    if !(1..=MAX_PATTERN).contains(&pattern.len()) {
        return Err(16);
    }
    let text = bytes_of_paths(&tree).ok_or(14u32)?;
    let places = places_in(&text, pattern);
    if places.len() > words {
        return Err(17);
    }
    Ok(places)
}

/// The refusal and the row's length; the row goes to the buffer.
pub fn row(bytes: &[u8], q: u32, buffer: &mut [u8]) -> Answer<(u32, u32)> {
    let tree = match row_questions(bytes, q) {
        Ok(tree) => tree,
        Err(number) => return Answer::Exact((number, 0)),
    };
    if check::check(bytes) != 0 {
        return Answer::Unspecified(tree.n);
    }
    let text = text(&tree);
    let row = rows_of(&text)[q as usize - 1];
    if row.len() > buffer.len() {
        return Answer::Exact((13, 0));
    }
    buffer[..row.len()].copy_from_slice(row);
    Answer::Exact((0, row.len() as u32))
}

/// Questions 5 to 7, 11 and 12. Only if q is the total of byte 10 plus one, the last byte is read, if there is one: 14 if its path breaks, 12 if it is 10.
pub fn row_questions(bytes: &[u8], q: u32) -> Result<Tree<'_>, u32> {
    let tree = Tree::open(bytes)?;
    let c = tree.counted(10).ok_or(11u32)?;
    if tree.n == 0 || u64::from(q) != tree.total(c) + 1 {
        return find_questions(bytes, 10, q).map(|(tree, _)| tree);
    }
    match byte_at(&tree, tree.n - 1) {
        None => Err(14),
        Some((10, _)) => Err(12),
        Some(_) => Ok(tree),
    }
}

/// The rows of a text: a byte 10 ends a row, together with a byte 13 directly before it; the bytes after the last byte 10, if there are any, are one more
/// row, unchanged.
pub fn rows_of(text: &[u8]) -> Vec<&[u8]> {
    let mut rows: Vec<&[u8]> = text.split(|&byte| byte == 10).collect();
    let open = rows.pop().expect("a split gives a part");
    for row in &mut rows {
        *row = row.strip_suffix(b"\r").unwrap_or(row);
    }
    if !open.is_empty() {
        rows.push(open);
    }
    rows
}
