//! The contenders of the benchmark, behind one face. Each takes the same changes and answers the same look-backs, and
//! those that can, the same windows.
pub mod copies;
pub mod log;
pub mod sqlite;
pub mod store;

use crate::input::{Change, Span};

/// A condition that stood, and the second of its last set or new reading.
#[derive(Clone, Copy, PartialEq, Eq, PartialOrd, Ord)]
pub struct Row {
    pub tag: u32,
    pub reading: i32,
    pub since: u32,
}

impl Row {
    /// Words of a row.
    pub const WORDS: usize = std::mem::size_of::<Row>() / 4;
}

impl From<&Change> for Row {
    /// The row from a set or new reading on.
    fn from(change: &Change) -> Row {
        Row { tag: change.tag, reading: change.reading, since: change.second }
    }
}

pub trait Contender {
    fn name(&self) -> &'static str;
    /// An empty history; not timed.
    fn restart(&mut self);
    /// How many of the changes it is given; the rest would take it too much memory.
    fn most_changes(&self) -> usize {
        usize::MAX
    }
    fn change_all(&mut self, changes: &[Change]);
    /// Looks back at each second and counts the rows.
    fn look_all(&mut self, seconds: &[u32]) -> u64;
    /// The rows of the last look-back.
    fn rows(&self) -> &[Row];
    /// Bytes that hold the history so far.
    fn bytes(&mut self) -> usize;
    /// Words read by the last look-back, where that can be counted.
    fn words_read(&self) -> Option<usize>;
    /// Blocks listed by the last look-back, and blocks open then.
    fn blocks(&self, _second: u32) -> Option<(usize, usize)> {
        None
    }
}

/// A contender that answers windows.
pub trait Crosser: Contender {
    /// Asks for each window and counts the rows. Those of the last, by tag, are in [`Contender::rows`].
    fn cross_all(&mut self, windows: &[Span]) -> u64;
    /// Blocks that a window reads, and blocks opened.
    fn blocks_read(&self, _window: Span) -> Option<(usize, usize)> {
        None
    }
}
