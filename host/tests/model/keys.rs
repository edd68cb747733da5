//! A worn key: rows that are keys, and the next one after a mark whose cuts are each in their range.

use super::check;
use super::read::{rows_of, text, Answer, Tree};

/// Low and high depth of each cut; none if question 19 fails.
fn ranges(lent: &[u8]) -> Option<Vec<(u8, u8)>> {
    let ranges: Vec<(u8, u8)> = lent.chunks_exact(2).map(|pair| (pair[0], pair[1])).collect();
    let good = lent.len() % 2 == 0 && (1..=10).contains(&ranges.len()) && ranges.iter().all(|&(low, high)| low <= high && high <= 9);
    good.then_some(ranges)
}

/// The depths of a row's cuts; none if it is no key.
fn cuts(row: &[u8]) -> Option<Vec<u8>> {
    let (code, cuts) = row.split_at(row.iter().position(|&byte| byte == b' ')?);
    let cuts = &cuts[1..];
    let key = (1..=12).contains(&code.len()) && (1..=10).contains(&cuts.len()) && cuts.iter().all(u8::is_ascii_digit);
    key.then(|| cuts.iter().map(|cut| cut - b'0').collect())
}

/// The numbers of the rows of a text that match, in row order.
pub fn matches_in(text: &[u8], lent: &[u8]) -> Vec<u32> {
    let ranges = ranges(lent).expect("good ranges");
    let fits = |cuts: &Vec<u8>| cuts.len() == ranges.len() && cuts.iter().zip(&ranges).all(|(cut, (low, high))| (low..=high).contains(&cut));
    let rows = rows_of(text);
    (1..=rows.len() as u32).filter(|&q| cuts(rows[q as usize - 1]).is_some_and(|cuts| fits(&cuts))).collect()
}

/// The refusal, the row found or 0 for none, and the mark afterwards. An unspecified row is at most the largest that question 12 of row allows.
pub fn next_match(bytes: &[u8], lent: &[u8], mark: u32) -> Answer<(u32, u32, u32)> {
    let (tree, c) = match questions(bytes, lent) {
        Ok(tree) => tree,
        Err(number) => return Answer::Exact((number, 0, mark)),
    };
    if check::check(bytes) != 0 {
        return Answer::Unspecified(tree.total(c) + 1);
    }
    let text = text(&tree);
    Answer::Exact(match matches_in(&text, lent).into_iter().find(|&q| q > mark) {
        Some(q) => (0, q, q),
        None => (0, 0, mark.max(rows_of(&text).len() as u32)),
    })
}

/// Questions 5 to 7, 19 and 11.
fn questions<'a>(bytes: &'a [u8], lent: &[u8]) -> Result<(Tree<'a>, usize), u32> {
    let tree = Tree::open(bytes)?;
    ranges(lent).ok_or(19u32)?;
    let c = tree.counted(10).ok_or(11u32)?;
    Ok((tree, c))
}
