//! Which changes close a block, foretold from the words before each of them (document 01, "Placing and closing"); the
//! words after it show that this was right. docs/LAYOUT.md has the word map.
use crate::input::{self, Change, Kind};
use bench::{Calls, Independent, OPEN, Settings};
use std::fmt;

/// Words of the head: N, and fill.
const OPENED: usize = 5;
const FILL: usize = 7;
/// The directory's first word.
const DIRECTORY: usize = 16 + 4096 + 256 + 16;
/// Words of a block: closed, up, and the standing bits of slots 0 to 31.
const CLOSED: usize = 1;
const UP: usize = 2;
const BITS: usize = 6;

/// Words of the store that a record's move writes: to and bits of its slot; tag, reading, from, to, since and bits of
/// the new one; the directory's.
const MOVE_WORDS: u64 = 9;

/// How many calls close a block, how many blocks they close, how many records these move on; and how many words of the
/// store closing writes, by the rule ([`MOVE_WORDS`] and `unlink_words`).
#[derive(Default)]
pub struct Tally {
    calls: u64,
    closings: u64,
    records: u64,
    words: u64,
}

impl fmt::Display for Tally {
    fn fmt(&self, f: &mut fmt::Formatter<'_>) -> fmt::Result {
        write!(f, "{} {} {} {}", self.calls, self.closings, self.records, self.words)
    }
}

/// All changes of a work: for each whether it closes a block, the tally of those that do, and the store after all.
pub struct Told {
    pub closes: Vec<bool>,
    pub tally: Tally,
    pub store: Vec<u32>,
}

/// Foretells each change, then makes it by the independent register.
pub fn foretell(settings: Settings, changes: &[Change]) -> Told {
    let mut store = vec![0; settings.words()];
    Independent::start(&mut store, settings).expect("sound settings");
    let mut tally = Tally::default();
    let closes = changes.iter().map(|change| {
        let foretold = Foretold::of(&Words { store: &store, settings }, change);
        input::apply::<Independent>(&mut store, change).expect("the changes are cut at the first refusal");
        foretold.check(&Words { store: &store, settings }, change);
        tally.add(&foretold, &Words { store: &store, settings });
        !foretold.closing.is_empty()
    });
    let closes = closes.collect();
    let words = Words { store: &store, settings };
    let closed = (1..=words.opened()).filter(|&n| words.field(n, CLOSED) != OPEN).count() as u64;
    assert_eq!(closed, tally.closings, "no other block closed");
    Told { closes, tally, store }
}

impl Tally {
    fn add(&mut self, foretold: &Foretold, after: &Words) {
        self.calls += u64::from(!foretold.closing.is_empty());
        for closing in &foretold.closing {
            self.closings += 1;
            self.records += u64::from(closing.records);
            self.words += MOVE_WORDS * u64::from(closing.records) + after.unlink_words(closing.block);
        }
    }
}

/// A block that will close, and how many records it will move on.
struct Closing {
    block: u32,
    records: u32,
}

/// What a change will do: the blocks that close, two at most; N and the records placed as they will be.
struct Foretold {
    closing: Vec<Closing>,
    opened: u32,
    placed: u32,
}

impl Foretold {
    fn of(before: &Words, change: &Change) -> Foretold {
        let (useful, opened) = (before.settings.useful, before.opened());
        let mut closing = Vec::new();
        let mut in_acceptor = if opened == 0 { 0 } else { before.standing(opened) };
        let mut to_place = u32::from(change.kind != Kind::Clear);
        if change.kind != Kind::Set {
            // The tag's record ends; its block is judged if it is not the acceptor, and its copies are placed first.
            let block = before.block_of(change.tag);
            if block == opened {
                in_acceptor -= 1;
            } else if before.standing(block) - 1 < useful {
                let records = before.standing(block) - 1;
                closing.push(Closing { block, records });
                to_place += records;
            }
        }
        let mut placed = before.placed() + to_place;
        let free = before.free();
        let opens = to_place > free;
        if opens && opened != 0 && in_acceptor + free < useful {
            // The acceptor is judged once it is full: what was placed in its free slots stands there, too.
            let records = in_acceptor + free;
            closing.push(Closing { block: opened, records });
            placed += records;
        }
        Foretold { closing, opened: opened + u32::from(opens), placed }
    }

    fn check(&self, after: &Words, change: &Change) {
        assert_eq!((after.opened(), after.placed()), (self.opened, self.placed), "{change:?}: N, and records placed");
        for &Closing { block, .. } in &self.closing {
            assert_eq!((after.field(block, CLOSED), after.standing(block)), (change.second, 0), "{change:?}: {block}");
        }
    }
}

/// A store's words, to read.
struct Words<'a> {
    store: &'a [u32],
    settings: Settings,
}

impl Words<'_> {
    fn opened(&self) -> u32 {
        self.store[OPENED]
    }

    /// Free slots of the acceptor.
    fn free(&self) -> u32 {
        if self.opened() == 0 { 0 } else { self.settings.block - self.store[FILL] }
    }

    /// Records placed.
    fn placed(&self) -> u32 {
        self.opened() * self.settings.block - self.free()
    }

    /// The block of a tag's standing record.
    fn block_of(&self, tag: u32) -> u32 {
        (self.store[DIRECTORY + tag as usize] - 1) / self.settings.block + 1
    }

    /// Word w of block n.
    fn field(&self, n: u32, w: usize) -> u32 {
        let blocks = DIRECTORY + self.settings.tags as usize;
        self.store[blocks + (n as usize - 1) * self.settings.block_words() + w]
    }

    /// How many records of block n stand.
    fn standing(&self, n: u32) -> u32 {
        self.field(n, BITS).count_ones() + self.field(n, BITS + 1).count_ones()
    }

    /// Words that are written when block n leaves the row of open blocks: its closed and left, its right neighbour's
    /// up; right and last child of its own up. If that is block 0, these two are the head's, which every change writes.
    fn unlink_words(&self, n: u32) -> u64 {
        if self.field(n, UP) == 0 { 3 } else { 5 }
    }
}
