//! The entries of a journal, from which a store can be rebuilt.
use crate::Settings;
use core::iter::FusedIterator;
use core::slice;

/// An entry of a journal: a change, a clock move or a start, as it was called, accepted or not. Look-backs and windows
/// are not in it, since they leave the store as it is.
///
/// A journal is a run of words, six an entry: its kind and five numbers, of which a kind uses the first ones. It tells
/// nothing of a store's layout, so it carries a register from one [version](crate#versions) to the next.
///
/// | Kind | Entry | Numbers |
/// |---|---|---|
/// | 1 | start | b, q, B, D |
/// | 2 | set | second, tag, reading |
/// | 3 | clear | second, tag |
/// | 4 | new reading | second, tag, reading |
/// | 5 | clock move | second |
///
/// Any other kind ends the journal, so that a tail of zeros is no entry, and so does an entry that is cut short.
///
/// ```
/// use register::Entry;
///
/// let entry = Entry::Set { second: 10, tag: 3, reading: -25 };
/// let words = entry.to_words();
/// assert_eq!(words, [2, 10, 3, 4294967271, 0, 0]);
/// assert_eq!(Entry::from_words(words), Some(entry));
///
/// let mut journal = [0; 60]; // room for ten entries
/// journal[..6].copy_from_slice(&words);
/// assert!(Entry::all(&journal).eq([entry]));
/// ```
#[derive(Clone, Copy, Debug, PartialEq, Eq, Hash)]
#[non_exhaustive]
pub enum Entry {
    /// A start with these settings, which may be any numbers.
    Start {
        /// b: records in a block.
        block: u32,
        /// q: the fewest that a judged block keeps standing.
        useful: u32,
        /// B: the most blocks.
        blocks: u32,
        /// D: the number of tags.
        tags: u32,
    },
    /// A set.
    Set {
        /// When.
        second: u32,
        /// Of which tag.
        tag: u32,
        /// Its reading, in daN.
        reading: i32,
    },
    /// A clear.
    Clear {
        /// When.
        second: u32,
        /// Of which tag.
        tag: u32,
    },
    /// A new reading.
    Update {
        /// When.
        second: u32,
        /// Of which tag.
        tag: u32,
        /// Its new reading, in daN.
        reading: i32,
    },
    /// A clock move.
    Advance {
        /// To which second.
        second: u32,
    },
}

impl Entry {
    /// Words of an entry.
    pub const WORDS: usize = 6;

    /// The entry's six words; those that its kind does not use are 0.
    #[must_use]
    pub const fn to_words(self) -> [u32; Entry::WORDS] {
        match self {
            Entry::Start { block, useful, blocks, tags } => [1, block, useful, blocks, tags, 0],
            Entry::Set { second, tag, reading } => [2, second, tag, reading.cast_unsigned(), 0, 0],
            Entry::Clear { second, tag } => [3, second, tag, 0, 0, 0],
            Entry::Update { second, tag, reading } => [4, second, tag, reading.cast_unsigned(), 0, 0],
            Entry::Advance { second } => [5, second, 0, 0, 0, 0],
        }
    }

    /// The entry of six words; none if they are of another kind, which ends a journal. Numbers that the kind does not
    /// use are not looked at.
    #[must_use]
    pub const fn from_words(words: [u32; Entry::WORDS]) -> Option<Entry> {
        Some(match words {
            [1, block, useful, blocks, tags, _] => Entry::Start { block, useful, blocks, tags },
            [2, second, tag, reading, _, _] => Entry::Set { second, tag, reading: reading.cast_signed() },
            [3, second, tag, _, _, _] => Entry::Clear { second, tag },
            [4, second, tag, reading, _, _] => Entry::Update { second, tag, reading: reading.cast_signed() },
            [5, second, _, _, _, _] => Entry::Advance { second },
            _ => return None,
        })
    }

    /// The entries of a journal, up to its end.
    pub fn all(journal: &[u32]) -> Entries<'_> {
        Entries { words: journal.as_chunks().0.iter() }
    }
}

impl From<Settings> for Entry {
    /// A start.
    fn from(settings: Settings) -> Entry {
        let Settings { block, useful, blocks, tags } = settings;
        Entry::Start { block, useful, blocks, tags }
    }
}

/// The entries of a journal, from [`Entry::all`].
#[derive(Clone, Debug)]
#[must_use = "iterators are lazy and do nothing unless consumed"]
pub struct Entries<'j> {
    words: slice::Iter<'j, [u32; Entry::WORDS]>,
}

impl Iterator for Entries<'_> {
    type Item = Entry;

    fn next(&mut self) -> Option<Entry> {
        let entry = self.words.next().and_then(|words| Entry::from_words(*words));
        if entry.is_none() {
            self.words = [].iter(); // what lies behind the end is no entry
        }
        entry
    }
}

impl FusedIterator for Entries<'_> {}

/// What a replay tells: how many entries it read, and how many of those were accepted.
#[derive(Clone, Copy, Debug, PartialEq, Eq, Hash)]
pub struct Tally {
    /// Entries up to the journal's end.
    pub entries: u64,
    /// Those whose call was accepted.
    pub accepted: u64,
}
