//! An independent model: the block tree of docs/FORMAT.md in plain Rust.
//!
//! The model shares no code with the library. It follows docs/FORMAT.md: one function for each of its sections, sums in 64 bits,
//! refusals by their numbers. `fast` has faster methods for building and finding in long books; tests compare them with the plain ones.
#![allow(dead_code)] // each test uses a part of the model

pub mod build;
pub mod check;
pub mod columns;
pub mod dates;
pub mod facts;
pub mod fast;
pub mod guides;
pub mod keys;
pub mod order;
pub mod prefix;
pub mod read;
pub mod sha256;
pub mod without_edges;

/// The longest text, and the longest block of level 0.
pub const MAX_TEXT: u64 = 8_388_608;
pub const HEADER: usize = 100;
pub const MAX_LEVELS: usize = 8;
pub const MAX_COUNTED: usize = 4;
/// The layouts: 1, and 2, which the builder writes.
pub const LAYOUTS: [u32; 2] = [1, WITH_EDGES];
pub const WITH_EDGES: u32 = 2;
pub const MAX_PATTERN: usize = 256;

/// Leaf length, arity and levels.
#[derive(Clone, Copy, Debug, PartialEq, Eq)]
pub struct Shape {
    pub m: u32,
    pub r: u32,
    pub h: u32,
}

impl Shape {
    pub fn new(m: u32, r: u32, h: u32) -> Self {
        Shape { m, r, h }
    }

    pub fn in_bounds(&self) -> bool {
        (1..=256).contains(&self.m) && (2..=16).contains(&self.r) && (1..=8).contains(&self.h) && self.block_length(0) <= MAX_TEXT
    }

    /// Bytes of a full block of `level`. The settings are within bounds, except perhaps their product.
    #[inline]
    pub fn block_length(&self, level: usize) -> u64 {
        u64::from(self.m) * u64::from(self.r).pow(self.h - 1 - level as u32)
    }
}

pub fn text_in_bounds(n: u64) -> bool {
    n <= MAX_TEXT
}

/// At most four counted bytes, each above the one before.
pub fn counted_in_bounds(counted: &[u8]) -> bool {
    counted.len() <= MAX_COUNTED && counted.windows(2).all(|pair| pair[0] < pair[1])
}

/// Bytes of a record with `k` counted bytes, and in layout 2 with two edges of `m` bytes.
#[inline]
pub fn record_length(layout: u32, m: u32, k: usize) -> usize {
    16 + 12 * k + if layout == WITH_EDGES { 2 * m as usize } else { 0 }
}

/// The word at `at`.
#[inline]
pub fn word(bytes: &[u8], at: usize) -> u32 {
    u32::from_le_bytes([bytes[at], bytes[at + 1], bytes[at + 2], bytes[at + 3]])
}

/// The number of blocks of `length` bytes that `n` bytes need.
#[inline]
pub fn blocks_for(n: u64, length: u64) -> u64 {
    n.div_ceil(length)
}
