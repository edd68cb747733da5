//! The figures of a tree that a caller needs before reading its text.

use crate::refusal::answer;
use crate::{calls, Refusal, Settings, Tree};

/// The figures of a tree. The total of a counted byte is how often it occurs in the text, if the check accepts the tree.
#[derive(Clone, Debug, PartialEq, Eq)]
pub struct Info {
    /// The layout: 1, or 2 with edges.
    pub layout: u32,
    /// Bytes of the text.
    pub length: u32,
    /// Leaf length, arity, levels and counted bytes.
    pub settings: Settings,
    /// The number of leaf bytes.
    pub leaf_bytes: u32,
    /// The total of each counted byte.
    pub totals: Vec<u64>,
    /// The number of blocks of each level, from level 0 on.
    pub blocks: Vec<u32>,
}

/// The library's version: major, minor, patch.
pub fn version() -> (u32, u32, u32) {
    let version = calls::version();
    (version / 10_000, version / 100 % 100, version % 100)
}

impl Tree<'_> {
    /// The figures, by the header and the last record of level 0.
    pub fn info(&self) -> Result<Info, Refusal> {
        let mut figures = [0; calls::FIGURES];
        let number = calls::info(self.bytes, &mut figures);
        let [layout, length, leaf, arity, levels, leaf_bytes, counted, lists @ ..] = figures;
        let settings = Settings {
            leaf: leaf as u32,
            arity: arity as u32,
            levels: levels as u32,
            counted: lists[..counted as usize].iter().map(|&byte| byte as u8).collect(),
        };
        let totals = lists[4..][..counted as usize].to_vec();
        let blocks = lists[8..][..levels as usize].iter().map(|&blocks| blocks as u32).collect();
        answer(number, Info { layout: layout as u32, length: length as u32, settings, leaf_bytes: leaf_bytes as u32, totals, blocks })
    }

    /// The length of row `q`, from 1.
    pub fn row_length(&self, q: u32) -> Result<u32, Refusal> {
        let (number, length) = calls::row_length(self.bytes, q);
        answer(number, length)
    }

    /// A number of words that is enough for all places of any pattern of `length` bytes.
    pub fn places_words(&self, length: u32) -> Result<u32, Refusal> {
        let (number, words) = calls::places_words(self.bytes, length);
        answer(number, words)
    }
}
