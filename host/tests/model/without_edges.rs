//! A tree without its edges: the header and the records are rewritten.

use super::read::Tree;
use super::*;

/// The refusal and the size of the tree in layout 1, which is written to the start of the buffer.
pub fn without_edges(bytes: &[u8], buffer: &mut [u8]) -> (u32, u64) {
    let tree = match Tree::open(bytes) {
        Ok(tree) => tree,
        Err(number) => return (number, 0),
    };
    let small = rewritten(bytes, &tree);
    match buffer.get_mut(..small.len()) {
        Some(start) => start.copy_from_slice(&small),
        None => return (13, 0),
    }
    (0, small.len() as u64)
}

/// The tree in layout 1: the header with its new offsets, then the words of each record, then the leaf bytes.
fn rewritten(bytes: &[u8], tree: &Tree) -> Vec<u8> {
    let (from, to) = (record_length(tree.layout, tree.m as u32, tree.k), record_length(1, 0, tree.k));
    let blocks: Vec<u64> = (0..MAX_LEVELS).map(|level| if level < tree.levels { tree.blocks(level) } else { 0 }).collect();
    let records = blocks.iter().sum::<u64>() as usize;
    let offset = |level: usize| (HEADER + blocks[..level].iter().sum::<u64>() as usize * to) as u32;
    let mut small = 1u32.to_le_bytes().to_vec();
    small.extend_from_slice(&bytes[4..28]);
    for (level, &count) in blocks.iter().enumerate() {
        small.extend_from_slice(&(count as u32).to_le_bytes());
        small.extend_from_slice(&if level < tree.levels { offset(level) } else { 0 }.to_le_bytes());
    }
    small.extend_from_slice(&offset(MAX_LEVELS).to_le_bytes());
    small.extend_from_slice(&bytes[96..HEADER]);
    let (table, leaves) = bytes[HEADER..].split_at(records * from);
    for record in table.chunks(from) {
        small.extend_from_slice(&record[..to]);
    }
    small.extend_from_slice(leaves);
    small
}
