//! The bounds that help and messages name.

/// The length of the longest text in digits, as in messages. The number is written only here.
#[macro_export]
macro_rules! longest {
    () => {
        "8,388,608"
    };
}

/// The length of the longest text and of the longest block of level 0.
pub const MAX_TEXT: usize = ungrouped(longest!());

/// The largest tree: of the longest text with blocks of one byte, every block kept, and four bytes counted.
pub const MAX_TREE: u64 = 1_111_359_588;

/// The length of the longest pattern.
pub const MAX_PATTERN: usize = 256;

/// The size of a buffer that the lines of `list` always fit.
pub const LIST_LENGTH: usize = 352;

/// The number that digits with separated thousands represent.
const fn ungrouped(digits: &str) -> usize {
    let digits = digits.as_bytes();
    let (mut number, mut at) = (0, 0);
    while at < digits.len() {
        if digits[at] != b',' {
            number = number * 10 + (digits[at] - b'0') as usize;
        }
        at += 1;
    }
    number
}

#[cfg(test)]
mod tests {
    use super::{MAX_TEXT, MAX_TREE};
    use crate::calls;

    /// No settings allow a larger tree.
    #[test]
    fn the_largest_tree() {
        let mut largest = 0;
        for leaf in 1..=256 {
            for arity in 2..=16 {
                for levels in 1..=8 {
                    let (number, size) = calls::size_bound(MAX_TEXT as u32, leaf, arity, levels, 4);
                    largest = largest.max(if number == 0 { size } else { 0 });
                }
            }
        }
        assert_eq!(largest, MAX_TREE);
        assert!(include_str!("../../docs/FORMAT.md").contains(" has 1,111,359,588 bytes: n 8,388,608, m 1, r 2, H 8, k 4,"));
    }

    /// The library, its header and docs/FORMAT.md have the same bound.
    #[test]
    fn the_longest_text_everywhere() {
        let longest = MAX_TEXT as u32;
        assert_eq!((calls::size_bound(longest, 2, 2, 2, 1).0, calls::size_bound(longest + 1, 2, 2, 2, 1).0), (0, 1));
        assert!(include_str!("../../include/blocktree.h").contains(&format!("#define BT_MAX_TEXT {longest}u ")));
        let page = include_str!("../../docs/FORMAT.md");
        assert!(page.contains(concat!("| n | bytes of the text | 0 to ", longest!(), " |")));
        assert!(page.contains(concat!("`b(0)` is at most the longest text, ", longest!(), " bytes.")));
    }
}
