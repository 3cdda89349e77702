//! The parts of a lent store, and the words of a block.
use super::head::HEAD_WORDS;
use crate::Settings;
pub use crate::settings::{BLOCK_HEAD, RECORD};

pub const LEVEL_WORDS: [usize; 3] = [4096, 256, 16];

/// Numbers of a block's words.
pub const OPENED: usize = 0;
pub const CLOSED: usize = 1;
pub const UP: usize = 2;
pub const LEFT: usize = 3;
pub const CHILD: usize = 4;
pub const RIGHT: usize = 5;
pub const BITS_LOW: usize = 6;
pub const BITS_HIGH: usize = 7;

/// Numbers of a record's words.
pub const TAG: usize = 0;
const READING: usize = 1;
pub const TO: usize = 3;
const SINCE: usize = 4;

/// What a record says of its condition. A copy of the record carries it along as it is.
#[derive(Clone, Copy)]
pub struct Payload {
    pub reading: u32,
    /// The second of the last set or new reading.
    pub since: u32,
}

impl Payload {
    /// The payload of a record.
    pub fn of(record: &[u32; RECORD]) -> Payload {
        Payload { reading: record[READING], since: record[SINCE] }
    }
}

/// A store lent for a change.
pub struct Parts<'a> {
    pub head: &'a mut [u32; HEAD_WORDS],
    pub level0: &'a mut [u32; LEVEL_WORDS[0]],
    pub level1: &'a mut [u32; LEVEL_WORDS[1]],
    pub level2: &'a mut [u32; LEVEL_WORDS[2]],
    pub directory: &'a mut [u32],
    pub blocks: Blocks<&'a mut [u32]>,
}

impl<'a> Parts<'a> {
    pub fn cut(store: &'a mut [u32], settings: &Settings) -> Option<Parts<'a>> {
        let (head, rest) = store.split_first_chunk_mut()?;
        let (level0, rest) = rest.split_first_chunk_mut()?;
        let (level1, rest) = rest.split_first_chunk_mut()?;
        let (level2, rest) = rest.split_first_chunk_mut()?;
        let (directory, words) = rest.split_at_mut_checked(settings.tags as usize)?;
        let blocks = Blocks { words, block_words: settings.block_words() };
        Some(Parts { head, level0, level1, level2, directory, blocks })
    }
}

/// The blocks, numbered from 1, over words that are lent to read or to write.
pub struct Blocks<W> {
    pub words: W,
    pub block_words: usize,
}

impl<W: std::ops::Deref<Target = [u32]>> Blocks<W> {
    /// Block n's words.
    pub fn get(&self, n: u32) -> &[u32] {
        let start = (n as usize - 1) * self.block_words;
        &self.words[start..start + self.block_words]
    }

    /// Slot k's record.
    pub fn record(&self, n: u32, k: u32) -> &[u32; RECORD] {
        let block = self.get(n);
        block[BLOCK_HEAD + RECORD * k as usize..].first_chunk().expect("a slot lies in its block")
    }

    /// The standing bits, slot 0 lowest.
    pub fn standing(&self, n: u32) -> u64 {
        let block = self.get(n);
        u64::from(block[BITS_LOW]) | u64::from(block[BITS_HIGH]) << 32
    }
}

impl Blocks<&mut [u32]> {
    pub fn get_mut(&mut self, n: u32) -> &mut [u32] {
        let start = (n as usize - 1) * self.block_words;
        &mut self.words[start..start + self.block_words]
    }

    /// Ends slot k at `now`: its bit becomes 0.
    pub fn end(&mut self, n: u32, k: u32, now: u32) {
        let block = self.get_mut(n);
        block[BLOCK_HEAD + RECORD * k as usize + TO] = now;
        if k < 32 {
            block[BITS_LOW] &= !(1 << k);
        } else {
            block[BITS_HIGH] &= !(1 << (k - 32));
        }
    }

    /// Writes slot k's record: its bit becomes 1.
    pub fn put(&mut self, n: u32, k: u32, record: [u32; RECORD]) {
        let block = self.get_mut(n);
        block[BLOCK_HEAD + RECORD * k as usize..][..RECORD].copy_from_slice(&record);
        if k < 32 {
            block[BITS_LOW] |= 1 << k;
        } else {
            block[BITS_HIGH] |= 1 << (k - 32);
        }
    }
}
