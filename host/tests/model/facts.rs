//! Figures and sizes: the figures of a tree, the number of rows, the length of a row, the words for a pattern's places.

use super::read::{self, Answer, Tree};
use super::*;

/// The refusal and the figures: layout, n, leaf, arity, levels, leaf bytes, the number of counted bytes; four counted bytes, their totals, eight levels' blocks.
pub fn info(bytes: &[u8]) -> (u32, [u64; 23]) {
    let mut figures = [0; 23];
    let tree = match Tree::open(bytes) {
        Ok(tree) => tree,
        Err(number) => return (number, figures),
    };
    for (figure, at) in [0, 4, 8, 12, 16, 96, 20].into_iter().enumerate() {
        figures[figure] = word(bytes, at).into();
    }
    for c in 0..tree.k {
        figures[7 + c] = bytes[24 + c].into();
        figures[11 + c] = tree.total(c);
    }
    for level in 0..tree.levels {
        figures[15 + level] = tree.blocks(level);
    }
    (0, figures)
}

/// The refusal and the number of rows: the total of byte 10, and one more if the last byte is another; 14 if that byte's path breaks.
pub fn row_count(bytes: &[u8]) -> (u32, u64) {
    let rows = || {
        let tree = Tree::open(bytes)?;
        let tens = tree.total(tree.counted(10).ok_or(11u32)?);
        let Some(last) = tree.n.checked_sub(1) else { return Ok(tens) };
        let (byte, _) = read::byte_at(&tree, last).ok_or(14u32)?;
        Ok(tens + u64::from(byte != 10))
    };
    rows().map_or_else(|number: u32| (number, 0), |rows| (0, rows))
}

/// The refusal and the length of row q: those of row with a large buffer.
pub fn row_length(bytes: &[u8], q: u32) -> Answer<(u32, u32)> {
    read::row(bytes, q, &mut vec![0; Tree::open(bytes).map_or(0, |tree| tree.n as usize)])
}

/// The refusal and the words for the places of any pattern of `length` bytes.
pub fn places_words(bytes: &[u8], length: u32) -> (u32, u32) {
    match Tree::open(bytes) {
        Err(number) => (number, 0),
        Ok(_) if !(1..=MAX_PATTERN).contains(&(length as usize)) => (16, 0),
        Ok(tree) => (0, (0..tree.n).filter(|place| place + u64::from(length) <= tree.n).count() as u32),
    }
}
