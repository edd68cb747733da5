//! Rows by prefix: the next row after a mark that starts with a prefix.

use super::read::{rows_of, text, Answer, Tree};
use super::{check, guides, MAX_PATTERN};

/// The numbers of the rows of a text that start with a prefix, in row order.
pub fn rows_with_prefix(text: &[u8], prefix: &[u8]) -> Vec<u32> {
    (1..).zip(rows_of(text)).filter(|(_, row)| row.starts_with(prefix)).map(|(q, _)| q).collect()
}

/// The refusal, the row or 0 for none, and the mark afterwards. An unspecified row is at most the total of byte 10 plus one.
pub fn next_with_prefix(bytes: &[u8], prefix: &[u8], mark: u32) -> Answer<(u32, u32, u32)> {
    next_by(bytes, || check::check(bytes), prefix, mark)
}

/// The same with a guide.
pub fn next_with_prefix_guided(bytes: &[u8], guide: &[u8], prefix: &[u8], mark: u32) -> Answer<(u32, u32, u32)> {
    next_by(bytes, || guides::check_guide(bytes, guide), prefix, mark)
}

/// The result is exact if `check` is 0.
fn next_by(bytes: &[u8], check: impl Fn() -> u32, prefix: &[u8], mark: u32) -> Answer<(u32, u32, u32)> {
    let (tree, c) = match questions(bytes, prefix) {
        Ok(tree) => tree,
        Err(number) => return Answer::Exact((number, 0, mark)),
    };
    if check() != 0 {
        return Answer::Unspecified(tree.total(c) + 1);
    }
    let text = text(&tree);
    Answer::Exact(match rows_with_prefix(&text, prefix).into_iter().find(|&q| q > mark) {
        Some(q) => (0, q, q),
        None => (0, 0, mark.max(rows_of(&text).len() as u32)),
    })
}

/// Questions 5 to 7, 16 and 11.
fn questions<'a>(bytes: &'a [u8], prefix: &[u8]) -> Result<(Tree<'a>, usize), u32> {
    let tree = Tree::open(bytes)?;
    if !(1..=MAX_PATTERN).contains(&prefix.len()) {
        return Err(16);
    }
    let c = tree.counted(10).ok_or(11u32)?;
    Ok((tree, c))
}
