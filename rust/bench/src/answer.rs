//! What a look-back answers beside its two buffers.

/// The page of a level that was not passed.
pub const NONE: u32 = u32::MAX;

/// The three numbers of a look-back and, for each level, the page passed ([`NONE`] if none; level 0 first).
#[derive(Clone, Copy, Debug, PartialEq, Eq)]
pub struct Answer {
    pub rows: u32,
    pub pages: u32,
    pub blocks: u32,
    pub page: [u32; 3],
}

impl Answer {
    /// The six words as the exported call writes them.
    pub fn from_words(words: [u32; 6]) -> Answer {
        let [rows, pages, blocks, page0, page1, page2] = words;
        Answer { rows, pages, blocks, page: [page0, page1, page2] }
    }

    /// The six words as the exported call writes them.
    pub fn words(&self) -> [u32; 6] {
        [self.rows, self.pages, self.blocks, self.page[0], self.page[1], self.page[2]]
    }
}
