//! Rows by prefix, and rows read into a buffer that is used again.

use crate::refusal::answer;
use crate::{calls, Refusal, Tree, MAX_TEXT};

/// The numbers of the rows that start with a prefix, in row order; a refusal ends them.
pub struct RowsWithPrefix<'a> {
    tree: Tree<'a>,
    guide: Option<&'a [u8]>,
    prefix: &'a [u8],
    mark: u32,
    ended: bool,
}

impl Iterator for RowsWithPrefix<'_> {
    type Item = Result<u32, Refusal>;

    fn next(&mut self) -> Option<Self::Item> {
        if self.ended {
            return None;
        }
        let found = match self.guide {
            None => self.tree.next_with_prefix(self.prefix, &mut self.mark),
            Some(guide) => self.tree.next_with_prefix_guided(guide, self.prefix, &mut self.mark),
        };
        self.ended = !matches!(found, Ok(Some(_)));
        found.transpose()
    }
}

impl<'a> Tree<'a> {
    /// The first row after `mark` that starts with `prefix`, 1 to `MAX_PATTERN` bytes. The mark moves to that row; if there is none, to the number of rows,
    /// unless it is there or above. A refusal leaves it unchanged.
    pub fn next_with_prefix(&self, prefix: &[u8], mark: &mut u32) -> Result<Option<u32>, Refusal> {
        let (number, row) = calls::next_with_prefix(self.bytes, prefix, mark);
        answer(number, (row != 0).then_some(row))
    }

    /// As `next_with_prefix`, from an entry of the guide on: faster on trees with many blocks of level 0. Safe with any bytes as a guide; one that is not the
    /// tree's can lead to a wrong row.
    pub fn next_with_prefix_guided(&self, guide: &[u8], prefix: &[u8], mark: &mut u32) -> Result<Option<u32>, Refusal> {
        let (number, row) = calls::next_with_prefix_guided(self.bytes, guide, prefix, mark);
        answer(number, (row != 0).then_some(row))
    }

    /// All rows that start with `prefix`, by their numbers, found with the tree's guide if one is given.
    pub fn rows_with_prefix(&self, guide: Option<&'a [u8]>, prefix: &'a [u8]) -> RowsWithPrefix<'a> {
        RowsWithPrefix { tree: *self, guide, prefix, mark: 0, ended: false }
    }

    /// Row `q`, from 1, read into `buffer`, with the tree's guide if one is given. The buffer grows when the row does not fit, and can be used for the next row.
    /// Most rows fit the first buffer, of 256 bytes; a longer one is at most 16 times too long.
    pub fn read_row<'b>(&self, guide: Option<&[u8]>, q: u32, buffer: &'b mut Vec<u8>) -> Result<&'b [u8], Refusal> {
        let most = MAX_TEXT.min(self.text_length() as usize);
        buffer.resize(buffer.len().max(most.min(256)), 0);
        loop {
            let (number, length) = match guide {
                None => calls::row(self.bytes, q, buffer),
                Some(guide) => calls::row_guided(self.bytes, guide, q, buffer),
            };
            if number != Refusal::Buffer.number() || buffer.len() >= most {
                return answer(number, &buffer[..length as usize]);
            }
            buffer.resize(most.min(16 * buffer.len()), 0);
        }
    }
}

#[cfg(test)]
mod tests {
    use crate::{build, Refusal, Settings, Tree};

    fn tree(text: &[u8]) -> Vec<u8> {
        build(text, &Settings { leaf: 4, arity: 2, levels: 3, counted: vec![10] }).expect("a tree")
    }

    #[test]
    fn rows_in_order_then_none() {
        let bytes = tree(b"AB 1\nB 2\nAB 3\r\nA");
        let tree = Tree::checked(&bytes).expect("a tree");
        let guide = tree.make_guide().expect("a guide");
        let rows = |prefix: &'static [u8]| {
            let [plain, guided] =
                [None, Some(guide.as_slice())].map(|guide| tree.rows_with_prefix(guide, prefix).collect::<Result<Vec<u32>, Refusal>>());
            assert_eq!(plain, guided);
            plain
        };
        assert_eq!((rows(b"A"), rows(b"AB"), rows(b"AB 3\r"), rows(b"C")), (Ok(vec![1, 3, 4]), Ok(vec![1, 3]), Ok(vec![]), Ok(vec![])));
        assert_eq!(rows(b""), Err(Refusal::Pattern));
        let mut mark = 7;
        assert_eq!((tree.next_with_prefix(b"A", &mut mark), mark), (Ok(None), 7));
        assert_eq!((tree.next_with_prefix(&[0; 257], &mut mark), mark), (Err(Refusal::Pattern), 7));
        // a refusal is returned once, and ends the rows
        let mut refused = tree.rows_with_prefix(None, b"");
        assert_eq!((refused.next(), refused.next()), (Some(Err(Refusal::Pattern)), None));
    }

    #[test]
    fn a_buffer_grows_and_is_used_again() {
        let long = [b'L'; 200];
        let bytes = tree(&[&long, b"\nS\n".as_slice()].concat());
        let tree = Tree::checked(&bytes).expect("a tree");
        let guide = tree.make_guide().expect("a guide");
        for guide in [None, Some(guide.as_slice())] {
            let mut buffer = Vec::new();
            assert_eq!(tree.read_row(guide, 2, &mut buffer), Ok(b"S".as_slice()));
            assert_eq!(tree.read_row(guide, 1, &mut buffer), Ok(long.as_slice()));
            let grown = buffer.len();
            assert_eq!((tree.read_row(guide, 2, &mut buffer), grown), (Ok(b"S".as_slice()), 203));
            assert_eq!(tree.read_row(guide, 3, &mut buffer), Err(Refusal::NoSuch));
        }
    }
}
