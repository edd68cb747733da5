//! The header of a tree, and the records of its blocks.

use crate::{Settings, Tree};

/// The blocks of a level.
#[derive(Clone, Copy, Debug, PartialEq, Eq)]
pub struct Level {
    /// Bytes of a full block.
    pub block_length: u64,
    /// Blocks of the level.
    pub blocks: u32,
    /// Blocks that point; the others are kept.
    pub pointing: u32,
}

/// A block of a level, as its record has it.
#[derive(Clone, Copy, Debug, PartialEq, Eq)]
pub struct Block {
    /// The block's first place in the text.
    pub start: u32,
    /// The block's length; the last block of a text can be shorter than a full one.
    pub length: u32,
    /// For a block that points: the place in the text where its occurrence begins.
    pub points_to: Option<u32>,
}

impl Tree<'_> {
    /// Bytes of the tree.
    pub fn size(&self) -> usize {
        self.bytes.len()
    }

    /// The size that the tree must have by its header: the offset of the leaf bytes plus their number.
    pub fn stated_size(&self) -> u64 {
        u64::from(self.word(92)) + u64::from(self.word(96))
    }

    /// The layout in the header: 1, or 2 with edges.
    pub fn layout(&self) -> u32 {
        self.word(0)
    }

    /// The length of the text in the header.
    pub fn text_length(&self) -> u32 {
        self.word(4)
    }

    /// The settings in the header.
    pub fn settings(&self) -> Settings {
        let counted = self.bytes.iter().skip(24).take(4.min(self.word(20) as usize)).copied().collect();
        Settings { leaf: self.word(8), arity: self.word(12), levels: self.word(16), counted }
    }

    /// The levels of a tree that the check accepts.
    pub fn levels(&self) -> Vec<Level> {
        (0..self.settings().levels.min(8))
            .map(|level| {
                let pointing = self.blocks(level).filter(|block| block.points_to.is_some()).count() as u32;
                Level { block_length: self.block_length(level), blocks: self.word(28 + 8 * level as usize), pointing }
            })
            .collect()
    }

    /// Bytes of a full block of a level.
    fn block_length(&self, level: u32) -> u64 {
        let Settings { leaf, arity, levels, .. } = self.settings();
        u64::from(leaf) * u64::from(arity).saturating_pow(levels.saturating_sub(1 + level))
    }

    /// The blocks of a level, in the order of their records, in a tree that the check accepts.
    pub fn blocks(&self, level: u32) -> impl Iterator<Item = Block> + '_ {
        let Settings { leaf, counted, .. } = self.settings();
        let record = 16 + 12 * counted.len() + if self.layout() == 2 { 2 * leaf as usize } else { 0 };
        let at = 28 + 8 * level as usize;
        let (blocks, offset, full) = (self.word(at), self.word(at + 4) as usize, self.block_length(level));
        let field = move |block: u32, word: usize| self.word(offset + block as usize * record + 4 * word);
        (0..blocks).map(move |block| {
            let start = field(block, 0);
            let length = full.min(self.text_length().saturating_sub(start).into()) as u32;
            let points_to = (field(block, 1) == 1).then(|| field(field(block, 2), 0).saturating_add(field(block, 3)));
            Block { start, length, points_to }
        })
    }

    /// The number of leaf bytes in the header.
    pub fn leaf_bytes(&self) -> u32 {
        self.word(96)
    }

    /// The word at `at`; 0 if the bytes are too short.
    fn word(&self, at: usize) -> u32 {
        self.bytes.get(at..at + 4).and_then(|word| word.try_into().ok()).map_or(0, u32::from_le_bytes)
    }
}
