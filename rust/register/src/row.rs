//! The rows that look-backs and windows give.
use crate::settings::ROW_WORDS;
use core::iter::FusedIterator;
use core::slice;

/// A condition that stood at the second asked for or, for a window, at some second of it.
#[derive(Clone, Copy, Debug, PartialEq, Eq, PartialOrd, Ord, Hash)]
pub struct Row {
    /// The condition's tag.
    pub tag: u32,
    /// Its reading then, in daN; in a window that of its latest standing there.
    pub reading: i32,
    /// The second of the set or new reading that this reading came with, however often the register has copied its
    /// record. An equal reading counts too: if this is to tell for how long, send a new reading only when it changed.
    pub since: u32,
}

impl Row {
    fn of([tag, reading, since]: [u32; ROW_WORDS]) -> Row {
        Row { tag, reading: reading.cast_signed(), since }
    }
}

/// The rows of a [`LookBack`](crate::LookBack) or [`Window`](crate::Window).
#[derive(Clone, Debug)]
#[must_use = "iterators are lazy and do nothing unless consumed"]
pub struct Rows<'l> {
    words: slice::Iter<'l, [u32; ROW_WORDS]>,
}

impl<'l> Rows<'l> {
    /// The rows that lie one behind another in these words.
    pub(crate) fn of(words: &'l [u32]) -> Rows<'l> {
        Rows { words: words.as_chunks().0.iter() }
    }
}

impl Iterator for Rows<'_> {
    type Item = Row;

    fn next(&mut self) -> Option<Row> {
        self.words.next().copied().map(Row::of)
    }

    fn size_hint(&self) -> (usize, Option<usize>) {
        self.words.size_hint()
    }
}

impl DoubleEndedIterator for Rows<'_> {
    fn next_back(&mut self) -> Option<Row> {
        self.words.next_back().copied().map(Row::of)
    }
}

impl ExactSizeIterator for Rows<'_> {}

impl FusedIterator for Rows<'_> {}
