//! The settings of a register and the length of its layout.

/// Words of a block's head.
pub const BLOCK_HEAD: usize = 8;

/// Words of a record: tag, reading, from, to, since.
pub const RECORD: usize = 5;

/// Words of a row that a look-back or window gives: tag, reading, since.
pub const ROW: usize = 3;

/// b, q, B and D of document 01. A start turns away those outside their limits.
#[derive(Clone, Copy, Debug, PartialEq, Eq)]
pub struct Settings {
    /// b: records in a block, 2 to 64.
    pub block: u32,
    /// q: a judged block with fewer standing closes; at least 1, and 2 q is at most b.
    pub useful: u32,
    /// B: the most blocks, 1 to 4,096.
    pub blocks: u32,
    /// D: tags are 0 to D - 1; 1 to 4,096.
    pub tags: u32,
}

impl Settings {
    /// Words of a block: its head, then its records.
    pub fn block_words(&self) -> usize {
        BLOCK_HEAD + RECORD * self.block as usize
    }

    /// Words of a row buffer that has a row for each tag.
    pub fn row_words(&self) -> usize {
        ROW * self.tags as usize
    }

    /// Words of the layout, for settings within their limits: head, index, directory, blocks.
    pub fn words(&self) -> usize {
        16 + (4096 + 256 + 16) + self.tags as usize + self.blocks as usize * self.block_words()
    }
}
