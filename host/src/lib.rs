//! Block trees of code books: a safe interface to the proved library.
//!
//! ```
//! use codebook::{build, Settings, Tree};
//!
//! let settings = Settings { leaf: 64, arity: 2, levels: 4, counted: vec![10] };
//! let bytes = build(b"CH0501 1423\nCH0502 1424\n", &settings)?;
//! let tree = Tree::checked(&bytes)?;
//! assert_eq!(tree.row(2)?, b"CH0502 1424");
//! # Ok::<(), codebook::Refusal>(())
//! ```

#![deny(missing_docs)]

mod bounds;
pub mod calls;
mod columns;
mod days;
mod digest;
mod facts;
mod guides;
mod matches;
mod order;
mod parts;
mod prefix;
mod refusal;

pub use bounds::{LIST_LENGTH, MAX_PATTERN, MAX_TEXT, MAX_TREE};
pub use columns::{from_columns, row_width, to_columns};
pub use days::{days_left, open_on, renew};
pub use digest::{digest_text, Digest};
pub use facts::{version, Info};
pub use guides::FindGuidedAnswer;
pub use order::CompareAnswer;
pub use parts::{Block, Level};
pub use prefix::RowsWithPrefix;
use refusal::answer;
pub use refusal::Refusal;
use std::collections::hash_map::RandomState;
use std::hash::{BuildHasher, Hasher};

/// Settings to try on a book, as leaf length, arity and levels, from few large blocks to many small ones. `bench/run settings` finds them.
pub const SHORT_LIST: [(u32, u32, u32); 8] = [(256, 2, 1), (32, 6, 2), (32, 5, 2), (24, 5, 3), (16, 5, 4), (16, 4, 3), (12, 4, 4), (10, 3, 6)];

/// The same for trees without edges (layout 1), whose records cost less and whose leaves may be larger.
pub const SMALL_LIST: [(u32, u32, u32); 8] = [(256, 2, 1), (192, 2, 2), (128, 2, 4), (96, 2, 2), (80, 2, 4), (64, 2, 2), (64, 2, 4), (64, 2, 5)];

/// The settings of a tree: its shape, and the bytes that it can count and find.
#[derive(Clone, Debug, PartialEq, Eq)]
pub struct Settings {
    /// Bytes of a full block of the last level, 1 to 256.
    pub leaf: u32,
    /// Children of a full block, 2 to 16.
    pub arity: u32,
    /// Levels, 1 to 8.
    pub levels: u32,
    /// The bytes that the tree counts, ascending, at most four.
    pub counted: Vec<u8>,
}

/// An answer, and the number of blocks entered for it.
#[derive(Clone, Copy, Debug, PartialEq, Eq)]
pub struct Answer<T> {
    /// The answer.
    pub value: T,
    /// The number of blocks entered.
    pub entered: u32,
}

/// The range of depths of a cut of a worn key, each 0 to 9, both included.
#[derive(Clone, Copy, Debug, PartialEq, Eq)]
pub struct Range {
    /// The lowest depth.
    pub low: u8,
    /// The highest depth.
    pub high: u8,
}

/// The size bound: no tree of a text of `n` bytes is larger.
pub fn size_bound(n: usize, settings: &Settings) -> Result<u64, Refusal> {
    let n = u32::try_from(n).unwrap_or(u32::MAX);
    let counted = u32::try_from(settings.counted.len()).unwrap_or(u32::MAX);
    let (number, size) = calls::size_bound(n, settings.leaf, settings.arity, settings.levels, counted);
    answer(number, size)
}

/// The tree of `text`. It needs no memory besides the tree, and searches the text once for each block and each pair; for long texts use `build_scanned`.
pub fn build(text: &[u8], settings: &Settings) -> Result<Vec<u8>, Refusal> {
    let bound = size_bound(text.len(), settings)?;
    let mut tree = vec![0; usize::try_from(bound).expect("a tree fits the memory")];
    let (number, size) = calls::build(text, settings.leaf, settings.arity, settings.levels, &settings.counted, &mut tree);
    tree.truncate(size as usize);
    answer(number, tree)
}

/// A tree, and the number of windows of the text that were looked up to build it.
#[derive(Clone, Debug, PartialEq, Eq)]
pub struct BuildScannedAnswer {
    /// The tree's bytes.
    pub tree: Vec<u8>,
    /// Windows looked up.
    pub windows: u32,
}

/// The tree of `text`, the same as `build` gives, by one scan of the text for each level: on long texts in a small part of the time. It needs
/// four more words of memory for each leaf length of text. The seed of its fingerprints is random in each call, so no text can be made
/// to be slow.
pub fn build_scanned(text: &[u8], settings: &Settings) -> Result<BuildScannedAnswer, Refusal> {
    let bound = size_bound(text.len(), settings)?;
    let mut tree = vec![0; usize::try_from(bound).expect("a tree fits the memory")];
    let words = calls::scan_words(text.len() as u32, settings.leaf);
    let mut work = vec![0; usize::try_from(words).expect("the table fits the memory")];
    if let Some(seed) = work.first_mut() {
        *seed = unpredictable_word();
    }
    let (number, size, windows) = calls::build_scanned(text, settings.leaf, settings.arity, settings.levels, &settings.counted, &mut work, &mut tree);
    tree.truncate(size as usize);
    answer(number, BuildScannedAnswer { tree, windows })
}

/// An unpredictable word: the system chooses the keys of std's hash maps at random.
fn unpredictable_word() -> u32 {
    RandomState::new().build_hasher().finish() as u32
}

/// The number of words of the table for a scan of a text of `n` bytes; 0 if the leaf length is 0.
pub fn scan_words(n: u32, leaf: u32) -> u64 {
    calls::scan_words(n, leaf)
}

/// The size of the tree of any text of `n` bytes if the settings have one level: no block points, so the size does not depend on the text. None for
/// settings with more levels.
pub fn one_level_size(n: usize, settings: &Settings) -> Result<Option<usize>, Refusal> {
    size_bound(n, settings)?;
    let (leaf, counted) = (settings.leaf as usize, settings.counted.len());
    let record = 16 + 12 * counted + 2 * leaf;
    Ok((settings.levels == 1).then(|| 100 + n.div_ceil(leaf) * record + n))
}

/// The lines of the list program, one for each level; or its line `refused N`, and the refusal.
pub fn list(tree: &[u8]) -> (String, Result<(), Refusal>) {
    let mut out = [0; LIST_LENGTH];
    let (number, length) = calls::list(tree, &mut out);
    let lines = match number {
        0 => String::from_utf8_lossy(&out[..length as usize]).into_owned(),
        _ => format!("refused {number}\n"),
    };
    (lines, answer(number, ()))
}

/// A tree. All methods are safe on any bytes, checked or not; on a tree that the check refuses answers can be wrong.
#[derive(Clone, Copy)]
pub struct Tree<'a> {
    bytes: &'a [u8],
}

impl<'a> Tree<'a> {
    /// A tree that the check accepts.
    pub fn checked(bytes: &'a [u8]) -> Result<Self, Refusal> {
        answer(calls::check(bytes), Tree { bytes })
    }

    /// Any bytes, not checked.
    pub fn unchecked(bytes: &'a [u8]) -> Self {
        Tree { bytes }
    }

    /// The byte at a place, from 0.
    pub fn byte(&self, place: u32) -> Result<Answer<u8>, Refusal> {
        let (number, value, entered) = calls::byte(self.bytes, place);
        answer(number, Answer { value: value as u8, entered })
    }

    /// The longest contiguous range of leaf bytes that is the text from `place` on.
    pub fn run(&self, place: u32) -> Result<&'a [u8], Refusal> {
        self.run_range(place).map(|(_, run)| run)
    }

    /// The same, with its offset in the tree.
    pub fn run_range(&self, place: u32) -> Result<(u64, &'a [u8]), Refusal> {
        let (number, offset, length) = calls::run_range(self.bytes, place);
        answer(number, (offset, &self.bytes[offset as usize..][..length as usize]))
    }

    /// `length` bytes from `place` on. The blocks entered are those of a short span, of at most the leaf length, in a tree of layout 2; else 0.
    pub fn span(&self, place: u32, length: u32) -> Result<Answer<Vec<u8>>, Refusal> {
        let mut buffer = vec![0; MAX_TEXT.min(length as usize)];
        let (number, entered) = calls::span(self.bytes, place, length, &mut buffer);
        answer(number, Answer { value: buffer, entered })
    }

    /// Rank: how often `byte` occurs in the first `i` bytes.
    pub fn count(&self, byte: u8, i: u32) -> Result<Answer<u64>, Refusal> {
        let (number, value, entered) = calls::count(self.bytes, byte.into(), i);
        answer(number, Answer { value, entered })
    }

    /// Select: the place of the j-th occurrence of `byte`, j from 1.
    pub fn find(&self, byte: u8, j: u32) -> Result<Answer<u32>, Refusal> {
        let (number, value, entered) = calls::find(self.bytes, byte.into(), j);
        answer(number, Answer { value, entered })
    }

    /// Row `q`, from 1, without its byte 10 and without one byte 13 directly before that. The bytes after the last byte 10, if any, are a row too.
    pub fn row(&self, q: u32) -> Result<Vec<u8>, Refusal> {
        self.read_row(None, q, &mut Vec::new()).map(<[u8]>::to_vec)
    }

    /// The number of rows: the total of byte 10, and one more if the text's last byte is another one.
    pub fn row_count(&self) -> Result<u64, Refusal> {
        let (number, rows) = calls::row_count(self.bytes);
        answer(number, rows)
    }

    /// Locate: all places of `pattern`, 1 to `MAX_PATTERN` bytes, ascending; occurrences may overlap.
    pub fn places(&self, pattern: &[u8]) -> Result<Vec<u32>, Refusal> {
        // mostly a few words suffice; one for each byte of the text always does
        let most = MAX_TEXT.min(self.text_length() as usize);
        let mut table = vec![0; most.min(4096)];
        let (mut number, mut places) = calls::places(self.bytes, pattern, &mut table);
        if number == Refusal::Table.number() {
            table.resize(most, 0);
            (number, places) = calls::places(self.bytes, pattern, &mut table);
        }
        table.truncate(places as usize);
        answer(number, table)
    }

    /// The first row after `mark` that is a key with one cut for each range, and each cut in its range. A key is a code of 1 to 12 bytes without a space,
    /// then one space, then 1 to 10 digits. The mark moves to that row; if there is none, to the number of rows, unless it is there or beyond.
    pub fn next_match(&self, ranges: &[Range], mark: &mut u32) -> Result<Option<u32>, Refusal> {
        let (number, row) = calls::next_match(self.bytes, &matches::lent(ranges), mark);
        answer(number, (row != 0).then_some(row))
    }

    /// The same tree in layout 1, without its edges; a tree of layout 1 is copied. It is never larger, and every method returns the same, except
    /// that `run_range` returns offsets into the new bytes and `span` reports 0 blocks entered.
    pub fn without_edges(&self) -> Result<Vec<u8>, Refusal> {
        let mut out = vec![0; self.bytes.len()];
        let (number, size) = calls::without_edges(self.bytes, &mut out);
        out.truncate(size as usize);
        answer(number, out)
    }

    /// The whole text.
    pub fn text(&self) -> Result<Vec<u8>, Refusal> {
        self.span(0, self.text_length()).map(|span| span.value)
    }
}

/// The rows of a text: byte 10, or bytes 13 and 10, end a row; the bytes after the last byte 10, if any, are a row too.
pub fn text_rows(text: &[u8]) -> impl Iterator<Item = &[u8]> {
    let mut rest = text;
    std::iter::from_fn(move || {
        let Some(end) = first(rest, b'\n') else {
            return Some(std::mem::take(&mut rest)).filter(|row| !row.is_empty());
        };
        let row = &rest[..end];
        rest = &rest[end + 1..];
        Some(row.strip_suffix(&[13]).unwrap_or(row))
    })
}

/// The first place of a byte. Eight bytes are compared at a time: equal bytes become zero, and the lowest bit of the
/// test for zero bytes belongs to the first of them.
pub(crate) fn first(bytes: &[u8], byte: u8) -> Option<usize> {
    const ONES: u64 = 0x0101_0101_0101_0101;
    let mut eights = bytes.chunks_exact(8);
    for (number, eight) in eights.by_ref().enumerate() {
        let other = u64::from_le_bytes(eight.try_into().expect("eight bytes")) ^ (u64::from(byte) * ONES);
        let found = other.wrapping_sub(ONES) & !other & (128 * ONES);
        if found != 0 {
            return Some(8 * number + found.trailing_zeros() as usize / 8);
        }
    }
    let rest = eights.remainder();
    rest.iter().position(|&other| other == byte).map(|at| bytes.len() - rest.len() + at)
}

#[cfg(test)]
mod tests {
    use super::{build, build_scanned, first, text_rows, Refusal, Settings, Tree};

    #[test]
    fn rows_of_a_text() {
        let split = |text: &'static [u8]| text_rows(text).collect::<Vec<_>>();
        assert_eq!(split(b"A 1\r\nB 2\n\nC"), [b"A 1".as_slice(), b"B 2", b"", b"C"]);
        assert_eq!(split(b"A\r\r\nB\r"), [b"A\r".as_slice(), b"B\r"]);
        assert!(split(b"").is_empty());
    }

    /// Compares the search by eight bytes with a search byte by byte: pairs of bytes at every place of up to 20 bytes.
    #[test]
    fn first_places() {
        for (length, at) in (0..=20usize).flat_map(|length| (0..length).map(move |at| (length, at))) {
            for (one, next) in (0..=255u8).flat_map(|one| [0, 9, 10, 11, 31, 32, 127, 128, 138, 255].map(|next| (one, next))) {
                let mut bytes = vec![b'A'; length];
                bytes[at] = one;
                bytes[(at + 1) % length] = next;
                for byte in [10, 32] {
                    assert_eq!(first(&bytes, byte), bytes.iter().position(|&other| other == byte), "{bytes:?}");
                }
            }
        }
        assert_eq!(first(b"", 10), None);
    }

    /// A row is copied into a buffer of its own length, whatever the text's; rows around the lengths of the buffers tried.
    #[test]
    fn rows_take_the_memory_of_their_length() {
        let lengths = [0, 1, 255, 256, 257, 4095, 4096, 4097, 70_000];
        let text: Vec<u8> = lengths.iter().flat_map(|&length| [vec![b'A'; length], vec![10]].concat()).collect();
        let bytes = build_scanned(&text, &Settings { leaf: 64, arity: 4, levels: 3, counted: vec![10] }).expect("a tree").tree;
        let tree = Tree::checked(&bytes).expect("a tree");
        let guide = tree.make_guide().expect("a guide");
        for (at, &length) in lengths.iter().enumerate() {
            for row in [tree.row(at as u32 + 1), tree.row_guided(&guide, at as u32 + 1)] {
                let row = row.expect("a row");
                assert!(row == vec![b'A'; length] && row.capacity() == length, "{length}: {}", row.capacity());
            }
        }
        assert_eq!((tree.row(0), tree.row(10)), (Err(Refusal::NoSuch), Err(Refusal::NoSuch)));
        let uncounted = build(&text, &Settings { leaf: 256, arity: 2, levels: 1, counted: vec![] }).expect("a tree");
        assert_eq!(Tree::unchecked(&uncounted).row(1), Err(Refusal::NotCounted));
    }
}
