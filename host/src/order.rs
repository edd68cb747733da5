//! The lexicographic order of the texts of two trees.

use crate::refusal::answer;
use crate::{calls, Refusal, Tree};
use std::cmp::Ordering;

/// The order of a tree's text and another's, and the length of their longest common prefix.
#[derive(Clone, Copy, Debug, PartialEq, Eq)]
pub struct CompareAnswer {
    /// The order of the first and the other.
    pub ordering: Ordering,
    /// The length of the longest common prefix.
    pub shared: u32,
}

impl Tree<'_> {
    /// Compares the texts in lexicographic order of their bytes; a prefix of a text comes before it. Settings and layouts do not matter. On trees that the check
    /// accepts this is a total order, and it is never refused.
    ///
    /// ```
    /// use codebook::{build, Settings, Tree};
    /// use std::cmp::Ordering;
    ///
    /// let wide = build(b"CH0501 1423", &Settings { leaf: 8, arity: 2, levels: 1, counted: vec![] })?;
    /// let deep = build(b"CH0501 1424", &Settings { leaf: 1, arity: 2, levels: 4, counted: vec![10] })?;
    /// let compared = Tree::checked(&wide)?.compare(&Tree::checked(&deep)?)?;
    /// assert_eq!((compared.ordering, compared.shared), (Ordering::Less, 10));
    /// # Ok::<(), codebook::Refusal>(())
    /// ```
    pub fn compare(&self, other: &Tree) -> Result<CompareAnswer, Refusal> {
        let (number, order, shared, _) = calls::compare(self.bytes, other.bytes);
        answer(number, CompareAnswer { ordering: order.cmp(&2), shared })
    }
}
