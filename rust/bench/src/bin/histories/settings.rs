//! The settings that the histories run with (crates/model/src/settings.rt and draw.rt have the same), and where
//! document 01 lays a block's words.
use bench::Settings;

/// How many settings [`listed`] has for histories of 200 calls; the next one is for the long histories.
pub const LISTED: u32 = 10;

pub fn listed(i: u32) -> Settings {
    match i {
        0 => of(2, 1, 6, 4),
        1 => of(4, 2, 8, 16),
        2 => of(5, 2, 12, 10),
        3 => of(8, 3, 20, 12),
        4 => of(64, 32, 6, 40),
        5 => of(3, 1, 40, 8),
        6 => of(2, 1, 100, 5),
        7 => of(33, 16, 5, 50),
        8 => of(6, 3, 17, 9),
        9 => of(4, 1, 33, 24),
        _ => of(2, 1, 600, 6),
    }
}

/// Settings at and beyond each limit. The last two are within the limits, and no store here is as long as their layout.
pub fn bad(i: u32) -> Settings {
    match i {
        0 => of(1, 1, 6, 4),
        1 => of(65, 2, 6, 4),
        2 => of(4, 0, 6, 4),
        3 => of(3, 2, 6, 4),
        4 => of(4, 2, 0, 4),
        5 => of(4, 2, 4097, 4),
        6 => of(4, 2, 8, 0),
        7 => of(4, 2, 8, 4097),
        8 => of(4, u32::MAX, 8, 16),
        9 => of(u32::MAX, 2, 8, 16),
        10 => of(2, 1, 4096, 4),
        _ => of(64, 32, 4096, 4096),
    }
}

fn of(block: u32, useful: u32, blocks: u32, tags: u32) -> Settings {
    Settings { block, useful, blocks, tags }
}

/// The first word of the directory: head 16, index 4,096 + 256 + 16.
pub const DIRECTORY: usize = 4384;

/// Word j of block n, n from 1.
pub fn block_word(s: Settings, n: u32, j: u32) -> usize {
    DIRECTORY + s.tags as usize + (n as usize - 1) * s.block_words() + j as usize
}
