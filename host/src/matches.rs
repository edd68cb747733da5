//! All rows that match a worn key, in one pass over the text.

use crate::{first, text_rows, Range, Refusal, Tree};

impl Tree<'_> {
    /// Calls `show` with the number and the bytes of each row after `mark` that matches, in row order. Every refusal comes before the first row.
    ///
    /// A call of `next_match` for each of many matches takes several times as long as the whole text. So `next_match` finds the first match, one span reads the
    /// text from there on, and `matches` decides each of its rows; the tests compare it with `next_match`.
    pub fn each_match(&self, ranges: &[Range], mark: u32, mut show: impl FnMut(u32, &[u8])) -> Result<(), Refusal> {
        let mut mark = mark;
        let Some(shown) = self.next_match(ranges, &mut mark)? else { return Ok(()) };
        let start = if shown == 1 { 0 } else { self.find(10, shown - 1)?.value + 1 };
        let length = self.text_length().checked_sub(start).ok_or(Refusal::Path)?;
        let text = self.span(start, length)?.value;
        // the library has accepted the ranges: none is empty, and no depth is above 9
        let cuts: Vec<_> = ranges.iter().map(|range| (b'0' + range.low, range.high - range.low)).collect();
        let mut number = shown;
        for row in text_rows(&text) {
            if matches(row, &cuts) {
                show(number, row);
            }
            // a damaged tree may name any first row
            number = number.saturating_add(1);
        }
        Ok(())
    }
}

/// Whether the row, without its end, is a key (a code of 1 to 12 bytes without a space, one space, the cuts) with a cut in each range. A range is its least
/// digit, and how many more there are.
fn matches(row: &[u8], cuts: &[(u8, u8)]) -> bool {
    let Some(code) = row.len().checked_sub(cuts.len() + 1) else { return false };
    (1..=12).contains(&code)
        && first(row, b' ') == Some(code)
        && row[code + 1..].iter().zip(cuts).all(|(digit, &(least, more))| digit.wrapping_sub(least) <= more)
}

/// Ranges as the library takes them: low, high, low, high.
pub(crate) fn lent(ranges: &[Range]) -> Vec<u8> {
    ranges.iter().flat_map(|range| [range.low, range.high]).collect()
}

#[cfg(test)]
mod tests {
    use crate::{build, build_scanned, calls, text_rows, Range, Refusal, Settings, Tree};

    const ANY: Range = Range { low: 0, high: 9 };

    type Shown = Result<Vec<(u32, Vec<u8>)>, Refusal>;

    fn shown(tree: Tree, ranges: &[Range], mark: u32) -> Shown {
        let mut rows = Vec::new();
        tree.each_match(ranges, mark, |number, row| rows.push((number, row.to_vec()))).map(|()| rows)
    }

    /// The same by library calls alone: `next_match` for each row.
    fn by_calls(tree: Tree, ranges: &[Range], mut mark: u32) -> Shown {
        let mut rows = Vec::new();
        while let Some(number) = tree.next_match(ranges, &mut mark)? {
            rows.push((number, tree.row(number)?));
        }
        Ok(rows)
    }

    fn small_tree(text: &[u8]) -> Vec<u8> {
        build(text, &Settings { leaf: 16, arity: 2, levels: 3, counted: vec![10] }).expect("a tree")
    }

    /// Rows that are just keys or just not: lengths of code and cuts, other separators, ends of rows, the row before and after.
    #[test]
    fn rows_that_are_just_keys_or_not() {
        let codes = [&b""[..], b"A", b"A\r", b" ", b"A B", b"\xff\x00", b"ABCDEFGHIJKL", b"ABCDEFGHIJKLM"];
        let cuts = [&b""[..], b"0", b"9", b"/", b":", b"1x", b"1 2", b"12", b"1\r", b"0123456789", b"01234567890", b"12 "];
        let mut matched = 0;
        for code in codes {
            for cut in cuts {
                for space in [&b" "[..], b"", b"  ", b"\t"] {
                    for end in [&b""[..], b"\n", b"\r\n", b"\r\r\n", b"\r", b"\nB 3", b"\n\n\nC 45\n"] {
                        let tree = small_tree(&[b"X 7\n", code, space, cut, end].concat());
                        let tree = Tree::checked(&tree).expect("a tree");
                        for ranges in [&[ANY; 1][..], &[ANY; 2], &[ANY; 10], &[Range { low: 9, high: 9 }]] {
                            let rows = by_calls(tree, ranges, 0);
                            assert_eq!(shown(tree, ranges, 0), rows, "{code:?} {space:?} {cut:?} {end:?}");
                            matched += rows.expect("rows").len();
                        }
                    }
                }
            }
        }
        assert!(matched > 3000, "{matched}");
    }

    /// The library is called a fixed number of times, however many rows match.
    #[test]
    fn calls_for_any_number_of_rows() {
        let lent = |rows: usize| {
            let bytes = small_tree(&b"CH0501 142315\n".repeat(rows));
            let (tree, before) = (Tree::unchecked(&bytes), calls::LENT.get());
            assert_eq!(shown(tree, &[ANY; 6], 0).expect("rows").len(), rows);
            calls::LENT.get() - before
        };
        assert_eq!((lent(1), lent(20), lent(2000)), (4, 4, 4));
        let bytes = small_tree(&[b"no key\n".to_vec(), b"CH0501 142315\n".repeat(500)].concat());
        let before = calls::LENT.get();
        assert_eq!(shown(Tree::unchecked(&bytes), &[ANY; 6], 0).expect("rows").len(), 500);
        // and one find
        assert_eq!(calls::LENT.get() - before, 5);
    }

    /// The same rows as `next_match` returns one by one, from every part of the book on; rows with every kind of end, and rows that are no keys.
    #[test]
    fn matches_one_by_one() {
        let rows = (0..9000).map(|row: u32| match row % 11 {
            0 => format!("X{row} 12{}\r\n", row % 10),
            1 => "no key\n".to_owned(),
            2 => "\n".to_owned(),
            _ => format!("CH{row} 3{}{}\n", row % 7, row % 10),
        });
        let text = rows.collect::<String>() + "LAST 345";
        let tree = build_scanned(text.as_bytes(), &Settings { leaf: 32, arity: 4, levels: 3, counted: vec![10] }).expect("a tree").tree;
        let tree = Tree::checked(&tree).expect("a tree");
        for (ranges, mark) in
            [(vec![ANY; 3], 0), (vec![Range { low: 3, high: 3 }, ANY, Range { low: 5, high: 5 }], 4321), (vec![ANY; 3], 8999), (vec![ANY; 2], 0)]
        {
            let (mut expected, mut at) = (Vec::new(), mark);
            while let Some(row) = tree.next_match(&ranges, &mut at).expect("an answer") {
                expected.push((row, text_rows(text.as_bytes()).nth(row as usize - 1).expect("a row").to_vec()));
            }
            let got = shown(tree, &ranges, mark).expect("matches");
            assert!(got == expected, "{} and {} rows after {mark}", got.len(), expected.len());
            assert_eq!(got.is_empty(), ranges.len() == 2);
        }
    }
}
