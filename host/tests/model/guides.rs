//! Guides, computed from the text: the block of level 0 that contains each listed occurrence.

use super::read::{find_questions, row_questions, text, Answer, Tree};
use super::{check, read, word};

/// One of this many occurrences is listed.
const EVERY: usize = 64;

/// The entries of the guide of a tree with this text.
pub fn entries(tree: &Tree, text: &[u8]) -> Vec<u32> {
    let b = tree.block_length(0) as usize;
    let blocks = |byte: u8| text.iter().enumerate().filter(move |(_, &here)| here == byte).step_by(EVERY).map(move |(place, _)| (place / b) as u32);
    tree.bytes[24..24 + tree.k].iter().flat_map(|&byte| blocks(byte)).collect()
}

/// The guide of a tree that the check accepts, as bytes; otherwise the check's refusal.
pub fn guide(bytes: &[u8]) -> Result<Vec<u8>, u32> {
    match check::check(bytes) {
        0 => {
            let tree = Tree::open(bytes)?;
            Ok(entries(&tree, &text(&tree)).iter().flat_map(|entry| entry.to_le_bytes()).collect())
        }
        number => Err(number),
    }
}

/// The refusal and the words of a guide: for each counted byte its total / 64, rounded up.
pub fn words(bytes: &[u8]) -> (u32, u64) {
    match Tree::open(bytes) {
        Ok(tree) => (0, (0..tree.k).map(|c| tree.total(c).div_ceil(EVERY as u64)).sum()),
        Err(number) => (number, 0),
    }
}

/// The refusal and the words of the guide, which goes to the table.
pub fn make(bytes: &[u8], table: &mut [u8]) -> (u32, u64) {
    match guide(bytes) {
        Err(number) => (number, 0),
        Ok(guide) if guide.len() > table.len() => (25, 0),
        Ok(guide) => {
            table[..guide.len()].copy_from_slice(&guide);
            (0, guide.len() as u64 / 4)
        }
    }
}

/// The check's refusal, or 24 if this is not the tree's guide.
pub fn check_guide(bytes: &[u8], lent: &[u8]) -> u32 {
    match guide(bytes) {
        Err(number) => number,
        Ok(guide) => 24 * u32::from(guide != lent),
    }
}

/// The refusal, the place, the length of its path, and the steps from entry (j - 1) / 64 of the byte.
pub fn find(bytes: &[u8], lent: &[u8], byte: u32, j: u32) -> Answer<(u32, u32, u32, u32)> {
    let (tree, c) = match find_questions(bytes, byte, j) {
        Ok(tree) => tree,
        Err(number) => return Answer::Exact((number, 0, 0, 0)),
    };
    if check_guide(bytes, lent) != 0 {
        return Answer::Unspecified(tree.n);
    }
    let Answer::Exact((number, place, entered)) = read::find(bytes, byte, j) else { panic!("an accepted tree") };
    let before: u64 = (0..c).map(|c| tree.total(c).div_ceil(EVERY as u64)).sum();
    let entry = word(lent, 4 * (before as usize + (j as usize - 1) / EVERY));
    Answer::Exact((number, place, entered, place / tree.block_length(0) as u32 - entry))
}

/// The refusal and the row's length; the row goes to the buffer.
pub fn row(bytes: &[u8], lent: &[u8], q: u32, buffer: &mut [u8]) -> Answer<(u32, u32)> {
    match row_questions(bytes, q) {
        Ok(tree) if check_guide(bytes, lent) != 0 => Answer::Unspecified(tree.n),
        _ => read::row(bytes, q, buffer),
    }
}
