//! The settings of a register, and the lengths that follow from them.
use crate::Refusal;

/// Words of a block's head; of a record: tag, reading, from, to, since; and of a row: tag, reading, since.
const BLOCK_HEAD_WORDS: usize = 8;
const RECORD_WORDS: usize = 5;
pub(crate) const ROW_WORDS: usize = 3;

/// What a start fixes: b, q, B and D of document 01, within their limits.
///
/// ```
/// use register::{Refusal, Settings};
///
/// let settings = Settings::new(4, 2, 8, 16)?;
/// assert_eq!((settings.words(), settings.row_words(), settings.list_words()), (4624, 48, 8));
/// assert_eq!(Settings::new(3, 2, 8, 16), Err(Refusal::Settings)); // 2 × 2 is more than 3
/// # Ok::<(), Refusal>(())
/// ```
///
/// All lengths are constant functions, so that a store may be an array:
///
/// ```
/// use register::Settings;
///
/// const SETTINGS: Settings = match Settings::new(4, 2, 8, 16) {
///     Ok(settings) => settings,
///     Err(_) => panic!("settings outside their limits"),
/// };
/// static STORE: [u32; SETTINGS.words()] = [0; SETTINGS.words()];
/// # assert_eq!(STORE.len(), 4624);
/// ```
#[derive(Clone, Copy, Debug, PartialEq, Eq, Hash)]
pub struct Settings {
    pub(crate) block: u32,
    pub(crate) useful: u32,
    pub(crate) blocks: u32,
    pub(crate) tags: u32,
}

// The longest layout has some 1.4 million words; a `usize` of 16 bits could not count them.
const _: () = assert!(usize::BITS >= 32, "a store may have 1,351,968 words, which this target cannot address");

impl Settings {
    /// The fewest records in a block.
    pub const LEAST_BLOCK: u32 = 2;
    /// The most records in a block.
    pub const MOST_BLOCK: u32 = 64;
    /// The least q; the most is half of b.
    pub const LEAST_USEFUL: u32 = 1;
    /// The fewest blocks.
    pub const LEAST_BLOCKS: u32 = 1;
    /// The most blocks.
    pub const MOST_BLOCKS: u32 = 4096;
    /// The fewest tags.
    pub const LEAST_TAGS: u32 = 1;
    /// The most tags.
    pub const MOST_TAGS: u32 = 4096;

    /// Words before the directory: the head and the three levels of the index.
    const FIXED_WORDS: usize = 16 + 4096 + 256 + 16;

    /// Settings for a register: `block` (b) records in a block, `useful` (q), below which a block that is judged
    /// closes, `blocks` (B), the most that it will open, and `tags` (D), which are then 0 to D − 1.
    ///
    /// # Errors
    ///
    /// [`Refusal::Settings`] unless b is 2 to 64, q is 1 to b / 2, B and D are 1 to 4,096.
    pub const fn new(block: u32, useful: u32, blocks: u32, tags: u32) -> Result<Settings, Refusal> {
        let fit = Self::LEAST_BLOCK <= block
            && block <= Self::MOST_BLOCK
            && Self::LEAST_USEFUL <= useful
            && useful <= block / 2
            && Self::LEAST_BLOCKS <= blocks
            && blocks <= Self::MOST_BLOCKS
            && Self::LEAST_TAGS <= tags
            && tags <= Self::MOST_TAGS;
        if fit { Ok(Settings { block, useful, blocks, tags }) } else { Err(Refusal::Settings) }
    }

    /// The settings that a head holds which has passed its test (docs/LAYOUT.md has the numbers of its words).
    pub(crate) fn of_head(store: &[u32]) -> Settings {
        Settings { block: store[1], useful: store[2], blocks: store[3], tags: store[4] }
    }

    /// b: records in a block.
    #[must_use]
    pub const fn block(&self) -> u32 {
        self.block
    }

    /// q: a block that is judged with fewer records standing closes.
    #[must_use]
    pub const fn useful(&self) -> u32 {
        self.useful
    }

    /// B: the most blocks.
    #[must_use]
    pub const fn blocks(&self) -> u32 {
        self.blocks
    }

    /// D: tags are 0 to D − 1.
    #[must_use]
    pub const fn tags(&self) -> u32 {
        self.tags
    }

    /// Words of a store: head, index, directory, blocks. At most 1,351,968, so that nothing overflows.
    #[must_use]
    pub const fn words(&self) -> usize {
        let block_words = BLOCK_HEAD_WORDS + RECORD_WORDS * self.block as usize;
        Self::FIXED_WORDS + self.tags as usize + self.blocks as usize * block_words
    }

    /// Words that the row buffer of a look-back or window must have: a row for each tag.
    #[must_use]
    pub const fn row_words(&self) -> usize {
        ROW_WORDS * self.tags as usize
    }

    /// Words that a look-back's list of blocks must have: one for each block.
    #[must_use]
    pub const fn list_words(&self) -> usize {
        self.blocks as usize
    }
}
