//! The calls as `libregister.a` exports them, on any words: nothing is tested here before the register tests it.
//!
//! [`Register`](crate::Register) is the face for programs. These functions are what it calls, for tests and for callers
//! that keep their stores in another way. A store is passed with each call, a store that is no register's is refused,
//! and the result is a number: 0 if the call was accepted, else the refusal's.
//! [`Refusal::result_of`](crate::Refusal::result_of) makes a `Result` of it.
//!
//! Why this is safe: a slice is passed as its pointer and its number of words (include/register.h), and the proofs
//! assume of a caller what Rust's borrows give: the words are there, aligned, and no two lent parts overlap while one
//! of them is written. A look-back may take 55 bytes of stack for each of B blocks; a thread's usual 2 MB hold 4,096.
//! A window takes some 17 KB.
//!
//! ```
//! use register::{Refusal, calls};
//!
//! let mut store = [0; 4624];
//! assert_eq!(calls::start(&mut store, 4, 2, 8, 16), 0);
//! assert_eq!(calls::clear(&mut store, 1, 3), 10);
//! assert_eq!(Refusal::result_of(10), Err(Refusal::NotStanding));
//! ```
use crate::{Entry, Tally};

mod export {
    unsafe extern "C" {
        pub fn register_start(store: *mut u32, words: usize, block: u32, useful: u32, blocks: u32, tags: u32) -> u32;
        pub fn register_set(store: *mut u32, words: usize, second: u32, tag: u32, reading: u32) -> u32;
        pub fn register_clear(store: *mut u32, words: usize, second: u32, tag: u32) -> u32;
        pub fn register_update(store: *mut u32, words: usize, second: u32, tag: u32, reading: u32) -> u32;
        pub fn register_advance(store: *mut u32, words: usize, second: u32) -> u32;
        pub fn register_look_back(
            store: *const u32,
            words: usize,
            second: u32,
            rows: *mut u32,
            rows_words: usize,
            list: *mut u32,
            list_words: usize,
            answer: *mut [u32; 6],
        ) -> u32;
        pub fn register_window(
            store: *const u32,
            words: usize,
            first: u32,
            last: u32,
            rows: *mut u32,
            rows_words: usize,
            answer: *mut [u32; 1],
        ) -> u32;
        pub fn register_words(block: u32, useful: u32, blocks: u32, tags: u32) -> usize;
        pub fn register_replay(
            store: *mut u32,
            words: usize,
            journal: *const u32,
            journal_words: usize,
            answer: *mut [u64; 2],
        );
    }
}

/// Begins a new history: fills the layout with zeros, then the head. Words beyond the layout are untouched.
/// Refusals 1, 2, 4.
#[inline]
#[must_use = "0 is accepted, any other number a refusal"]
pub fn start(store: &mut [u32], block: u32, useful: u32, blocks: u32, tags: u32) -> u32 {
    // SAFETY: pointer and length are those of one borrowed slice; so for each call below.
    unsafe { export::register_start(store.as_mut_ptr(), store.len(), block, useful, blocks, tags) }
}

/// Sets a tag with a reading in daN. Its since is this second.
/// Refusals 2 to 6, 8, 9, 12, 13.
#[inline]
#[must_use = "0 is accepted, any other number a refusal"]
pub fn set(store: &mut [u32], second: u32, tag: u32, reading: i32) -> u32 {
    // SAFETY: as above.
    unsafe { export::register_set(store.as_mut_ptr(), store.len(), second, tag, reading.cast_unsigned()) }
}

/// Clears a tag that stands.
/// Refusals 2 to 6, 8, 10, 12, 13.
#[inline]
#[must_use = "0 is accepted, any other number a refusal"]
pub fn clear(store: &mut [u32], second: u32, tag: u32) -> u32 {
    // SAFETY: as above.
    unsafe { export::register_clear(store.as_mut_ptr(), store.len(), second, tag) }
}

/// Gives a standing tag a new reading: a clear and a set at the same second. Its since becomes this second, also if the
/// reading is equal.
/// Refusals 2 to 6, 8, 10, 12, 13.
#[inline]
#[must_use = "0 is accepted, any other number a refusal"]
pub fn update(store: &mut [u32], second: u32, tag: u32, reading: i32) -> u32 {
    // SAFETY: as above.
    unsafe { export::register_update(store.as_mut_ptr(), store.len(), second, tag, reading.cast_unsigned()) }
}

/// Moves the clock.
/// Refusals 2 to 6.
#[inline]
#[must_use = "0 is accepted, any other number a refusal"]
pub fn advance(store: &mut [u32], second: u32) -> u32 {
    // SAFETY: as above.
    unsafe { export::register_advance(store.as_mut_ptr(), store.len(), second) }
}

/// Makes the call of a journal's entry, and answers as that call does.
#[must_use = "0 is accepted, any other number a refusal"]
pub fn apply(store: &mut [u32], entry: Entry) -> u32 {
    match entry {
        Entry::Start { block, useful, blocks, tags } => start(store, block, useful, blocks, tags),
        Entry::Set { second, tag, reading } => set(store, second, tag, reading),
        Entry::Clear { second, tag } => clear(store, second, tag),
        Entry::Update { second, tag, reading } => update(store, second, tag, reading),
        Entry::Advance { second } => advance(store, second),
    }
}

/// What stood at a second. `rows` gets tag, reading and since of each row ([`Row`](crate::Row)), `list` the numbers of
/// the blocks listed, `answer` the numbers of rows, pages read and blocks listed and the page passed on each level,
/// [`OPEN`](crate::OPEN) if none. Words after these keep their contents, and a refusal leaves `answer`.
/// Refusals 2 to 5, 7, 11, 12.
#[inline]
#[must_use = "0 is accepted, any other number a refusal"]
pub fn look_back(store: &[u32], second: u32, rows: &mut [u32], list: &mut [u32], answer: &mut [u32; 6]) -> u32 {
    // SAFETY: pointers and lengths are those of borrowed slices, and Rust's borrows keep the four apart.
    unsafe {
        export::register_look_back(
            store.as_ptr(),
            store.len(),
            second,
            rows.as_mut_ptr(),
            rows.len(),
            list.as_mut_ptr(),
            list.len(),
            answer,
        )
    }
}

/// What stood at some second from `first` to `last`, both included. `rows` gets tag, reading and since of each tag's
/// latest standing there ([`Row`](crate::Row)), in ascending order of tags, `answer` their number. Words after the rows
/// keep their contents, and a refusal leaves `answer`.
/// Refusals, in this order: 2, 3, 4, 5, 14, 7, 11, 12.
#[inline]
#[must_use = "0 is accepted, any other number a refusal"]
pub fn window(store: &[u32], first: u32, last: u32, rows: &mut [u32], answer: &mut [u32; 1]) -> u32 {
    // SAFETY: pointers and lengths are those of borrowed slices, and Rust's borrows keep the three apart.
    unsafe { export::register_window(store.as_ptr(), store.len(), first, last, rows.as_mut_ptr(), rows.len(), answer) }
}

/// Words of a store with these settings, as the register counts them; 0 where a start would refuse them.
/// [`Settings::words`](crate::Settings::words) gives the same in a constant.
#[must_use]
pub fn words(block: u32, useful: u32, blocks: u32, tags: u32) -> usize {
    // SAFETY: four numbers are passed.
    unsafe { export::register_words(block, useful, blocks, tags) }
}

/// Makes the calls of a journal, one after another; those that are refused change nothing.
#[must_use = "it says how many entries were read, which may be fewer than the journal has"]
pub fn replay(store: &mut [u32], journal: &[u32]) -> Tally {
    let mut answer = [0; 2];
    // SAFETY: pointers and lengths are those of borrowed slices, which Rust's borrows keep apart, and answer has the
    // two numbers that the export writes.
    unsafe {
        export::register_replay(store.as_mut_ptr(), store.len(), journal.as_ptr(), journal.len(), &raw mut answer);
    }
    let [entries, accepted] = answer;
    Tally { entries, accepted }
}
