//! Texts of rows of one width, rearranged by columns (matrix transposition), so that repeats in a column are adjacent.

use crate::calls;
use crate::refusal::{answer, Refusal};
use crate::Tree;

/// A text of rows of `width` bytes, end byte included, by columns: first column 0 of every row, then column 1, and so on.
///
/// ```
/// let turned = codebook::to_columns(b"AB1\nAB2\nAC3\n", 4)?;
/// assert_eq!(turned, b"AAABBC123\n\n\n");
/// assert_eq!(codebook::from_columns(&turned, 4)?, b"AB1\nAB2\nAC3\n");
/// # Ok::<(), codebook::Refusal>(())
/// ```
pub fn to_columns(text: &[u8], width: u32) -> Result<Vec<u8>, Refusal> {
    let mut out = vec![0; text.len()];
    answer(calls::to_columns(text, width, &mut out), ()).map(|()| out)
}

/// A text by columns, back by rows of `width` bytes.
pub fn from_columns(text: &[u8], width: u32) -> Result<Vec<u8>, Refusal> {
    let mut out = vec![0; text.len()];
    answer(calls::from_columns(text, width, &mut out), ()).map(|()| out)
}

/// The width of a text's rows, end byte included, if all have the same: byte 10 ends each of them and occurs nowhere else.
pub fn row_width(text: &[u8]) -> Option<u32> {
    let width = text.iter().position(|&byte| byte == 10)? + 1;
    let even = text.chunks(width).all(|row| row.len() == width && row.iter().position(|&byte| byte == 10) == Some(width - 1));
    even.then(|| u32::try_from(width).ok()).flatten()
}

impl Tree<'_> {
    /// Row `a`, from 0, of rows of `width` bytes, end byte included, from the tree of a text by columns. The caller must know that the text is by columns.
    pub fn row_by_columns(&self, width: u32, a: u32) -> Result<Vec<u8>, Refusal> {
        let mut row = vec![0; width.min(self.text_length()) as usize];
        answer(calls::row_by_columns(self.bytes, width, a, &mut row), ()).map(|()| row)
    }
}

#[cfg(test)]
mod tests {
    use super::row_width;

    #[test]
    fn rows_of_one_width() {
        assert_eq!(row_width(b"AB1\nAB2\n"), Some(4));
        assert_eq!((row_width(b"\n\n\n"), row_width(b"A\n")), (Some(1), Some(2)));
        for text in ["", "AB", "AB\nA", "AB\nABC\n", "AB\nA\n\n", "ABC\nA\nB\n", "AB\nABC"] {
            assert_eq!(row_width(text.as_bytes()), None, "{text:?}");
        }
    }
}
