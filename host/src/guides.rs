//! Guides (sampled select directories): finds and rows with a guide start near the block that they look for.

use crate::refusal::answer;
use crate::{calls, Refusal, Tree, MAX_TEXT};

/// A place, the number of blocks on its path, and the number of steps on level 0 to it.
#[derive(Clone, Copy, Debug, PartialEq, Eq)]
pub struct FindGuidedAnswer {
    /// The place of the byte.
    pub place: u32,
    /// Blocks on the path of that place.
    pub entered: u32,
    /// Steps on level 0.
    pub steps: u32,
}

impl Tree<'_> {
    /// The guide of a tree that the check accepts, in little-endian 32-bit words: for each counted byte in turn the number of the block of level 0
    /// with its occurrence 1, 65, 129, ..
    pub fn make_guide(&self) -> Result<Vec<u8>, Refusal> {
        let (number, words) = calls::guide_words(self.bytes);
        // no accepted tree has a larger guide, and a refused tree gets none
        let most = words.min(4 * (MAX_TEXT as u64).div_ceil(64));
        let mut guide = vec![0; 4 * answer(number, most)? as usize];
        let (number, words) = calls::make_guide(self.bytes, &mut guide);
        guide.truncate(4 * words as usize);
        answer(number, guide)
    }

    /// Whether this is the guide of the tree.
    pub fn check_guide(&self, guide: &[u8]) -> Result<(), Refusal> {
        answer(calls::check_guide(self.bytes, guide), ())
    }

    /// The place of the j-th `byte`, j from 1. Safe with any bytes as a guide; one that is not the tree's can lead to a wrong place.
    pub fn find_guided(&self, guide: &[u8], byte: u8, j: u32) -> Result<FindGuidedAnswer, Refusal> {
        let (number, place, entered, steps) = calls::find_guided(self.bytes, guide, byte.into(), j);
        answer(number, FindGuidedAnswer { place, entered, steps })
    }

    /// Row `q`, from 1, as `row` has it. Safe with any bytes as a guide; one that is not the tree's can lead to a wrong row.
    pub fn row_guided(&self, guide: &[u8], q: u32) -> Result<Vec<u8>, Refusal> {
        self.read_row(Some(guide), q, &mut Vec::new()).map(<[u8]>::to_vec)
    }
}
