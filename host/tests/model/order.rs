//! The order of two trees' texts, place by place.

use super::read::{self, Tree};

pub const BEFORE: u32 = 1;
pub const SAME: u32 = 2;
pub const AFTER: u32 = 3;

/// The refusal, the order of the first text, the length of the shared beginning, and which of the two comes first.
pub fn order(one: &[u8], other: &[u8]) -> (u32, u32, u32, u32) {
    match compare(one, other) {
        Err(number) => (number, 0, 0, 0),
        Ok((AFTER, shared)) => (0, AFTER, shared, 2),
        Ok((ordering, shared)) => (0, ordering, shared, 1),
    }
}

/// Questions 5 to 7 of the first tree, then of the second; then place by place a byte of each, the first tree's before the other's, up to a difference.
fn compare(one: &[u8], other: &[u8]) -> Result<(u32, u32), u32> {
    let lengths = (Tree::open(one)?.n as u32, Tree::open(other)?.n as u32);
    for place in 0..lengths.0.min(lengths.1) {
        let bytes = (byte(one, place)?, byte(other, place)?);
        if bytes.0 != bytes.1 {
            return Ok((if bytes.0 < bytes.1 { BEFORE } else { AFTER }, place));
        }
    }
    let ordering = match lengths.0.cmp(&lengths.1) {
        std::cmp::Ordering::Less => BEFORE,
        std::cmp::Ordering::Equal => SAME,
        std::cmp::Ordering::Greater => AFTER,
    };
    Ok((ordering, lengths.0.min(lengths.1)))
}

/// The byte at a place, or the refusal.
fn byte(tree: &[u8], place: u32) -> Result<u32, u32> {
    match read::byte(tree, place) {
        (0, value, _) => Ok(value),
        (number, ..) => Err(number),
    }
}

/// The same for two texts.
pub fn order_of_texts(one: &[u8], other: &[u8]) -> (u32, u32, u32, u32) {
    let shared = one.iter().zip(other).take_while(|(a, b)| a == b).count() as u32;
    match one.cmp(other) {
        std::cmp::Ordering::Less => (0, BEFORE, shared, 1),
        std::cmp::Ordering::Equal => (0, SAME, shared, 1),
        std::cmp::Ordering::Greater => (0, AFTER, shared, 2),
    }
}

/// A result as the cases write it.
pub fn words((number, order, shared, first): (u32, u32, u32, u32)) -> String {
    let order = ["-", "before", "same", "after"][order as usize];
    format!("{number} {order} {shared} {first}")
}
