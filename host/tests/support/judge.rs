//! Decides whether an unspecified result is one that the format allows: find, row and match on a tree that the check refuses.

use crate::model::read::{byte_at, Answer, Tree};

/// The value of every byte of a buffer before a call.
pub const FILL: u8 = 0xEE;

/// The value of every word of a table before a call.
pub const FILL_WORD: u32 = 0xEEEE_EEEE;

/// A buffer of exactly this length, every byte filled.
#[allow(dead_code)] // not every test uses it
pub fn lent(length: usize) -> Box<[u8]> {
    vec![FILL; length].into_boxed_slice()
}

/// Whether `got` (refusal, place, blocks entered) is an allowed result.
pub fn find_agrees(expected: Answer<(u32, u32, u32)>, got: (u32, u32, u32)) -> bool {
    match expected {
        Answer::Exact(answer) => got == answer,
        Answer::Unspecified(n) => (got.0 == 0 && u64::from(got.1) < n) || got == (14, 0, 0),
    }
}

/// Whether `got` (refusal, length) and the buffer are allowed. An unspecified row is what the tree's paths give from some place on; 13 is
/// allowed if the buffer is shorter than the text.
pub fn row_agrees(tree: &[u8], expected: (Answer<(u32, u32)>, &[u8]), got: ((u32, u32), &[u8])) -> bool {
    let ((number, length), buffer) = got;
    match expected.0 {
        Answer::Exact(answer) => got == (answer, expected.1),
        Answer::Unspecified(n) => match number {
            0 => length as usize <= buffer.len() && given_by_paths(tree, &buffer[..length as usize]) && filled(&buffer[length as usize..]),
            13 => length == 0 && (buffer.len() as u64) < n && filled(buffer),
            14 => length == 0 && filled(&buffer[buffer.iter().take_while(|&&byte| byte == 0).count()..]),
            _ => false,
        },
    }
}

/// Whether `got` (refusal, row, mark afterwards) is an allowed result of a search from `mark`.
pub fn match_agrees(expected: Answer<(u32, u32, u32)>, mark: u32, got: (u32, u32, u32)) -> bool {
    match (expected, got) {
        (Answer::Exact(answer), _) => got == answer,
        (Answer::Unspecified(_), (14, row, after)) => (row, after) == (0, mark),
        (Answer::Unspecified(most), (0, 0, after)) => after == mark || (mark < after && u64::from(after) <= most),
        (Answer::Unspecified(most), (0, row, after)) => mark < row && u64::from(row) <= most && after == row,
        _ => false,
    }
}

/// Whether the paths of a tree give these bytes from some place of the text on.
fn given_by_paths(tree: &[u8], part: &[u8]) -> bool {
    let Ok(tree) = Tree::open(tree) else { return false };
    let from = |place: u64| (place..).zip(part).all(|(p, &byte)| p < tree.n && byte_at(&tree, p).is_some_and(|(here, _)| here == byte));
    (0..=tree.n).any(from)
}

fn filled(part: &[u8]) -> bool {
    part.iter().all(|&byte| byte == FILL)
}
