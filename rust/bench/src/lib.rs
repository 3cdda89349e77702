//! What the proved register is tested against and measured with.
//!
//! [`Independent`] is a second implementation, written from the papers alone. `Proved` is the proved one: the calls
//! of the crate `register`, by plain numbers, so that any words, lengths and settings can be passed to either. Both keep
//! everything in a store of 32-bit words that the caller lends; docs/LAYOUT.md has its word map. Types and refusals
//! here are this crate's own: without the feature `proved` nothing of the crate `register` takes part.
//!
//! ```
//! use bench::{Calls, Independent, Refusal, Settings};
//!
//! let settings = Settings { block: 4, useful: 2, blocks: 8, tags: 16 };
//! let mut store = vec![0; settings.words()];
//! Independent::start(&mut store, settings)?;
//! Independent::set(&mut store, 10, 3, -25)?; // at second 10, tag 3, -25 daN
//! Independent::clear(&mut store, 12, 3)?;
//! assert_eq!(Independent::clear(&mut store, 12, 3), Err(Refusal::NOT_STANDING));
//!
//! let (mut rows, mut list) = (vec![0; settings.row_words()], vec![0; 8]);
//! let answer = Independent::look_back(&store, 11, &mut rows, &mut list)?;
//! assert_eq!((answer.rows, answer.blocks), (1, 1));
//! assert_eq!((rows[0], rows[1] as i32, rows[2]), (3, -25, 10)); // since second 10
//! assert_eq!(Independent::window(&store, 11, 12, &mut rows), Ok(1)); // one tag stood from 11 to 12
//! # Ok::<(), Refusal>(())
//! ```
mod answer;
mod independent;
#[cfg(feature = "proved")]
mod proved;
mod refusal;
mod settings;
#[cfg(feature = "array")]
mod through_array;

pub use answer::{Answer, NONE};
pub use independent::Independent;
#[cfg(feature = "proved")]
pub use proved::Proved;
pub use refusal::Refusal;
pub use settings::{ROW, Settings};
#[cfg(feature = "array")]
pub use through_array::ThroughArray;

/// An end not yet known, and no second: the largest word.
pub const OPEN: u32 = u32::MAX;

/// The seven calls. A refused call leaves all words as they were, except that a look-back or window refused with
/// [`Refusal::UNSOUND`] fills its buffers with zeros.
pub trait Calls {
    /// Begins a new history: fills the layout with zeros, then the head. Words beyond the layout are untouched.
    fn start(store: &mut [u32], settings: Settings) -> Result<(), Refusal>;
    /// Sets a tag with a reading in daN.
    fn set(store: &mut [u32], second: u32, tag: u32, reading: i32) -> Result<(), Refusal>;
    /// Clears a tag that stands.
    fn clear(store: &mut [u32], second: u32, tag: u32) -> Result<(), Refusal>;
    /// Gives a standing tag a new reading: a clear and a set at the same second.
    fn update(store: &mut [u32], second: u32, tag: u32, reading: i32) -> Result<(), Refusal>;
    /// Moves the clock.
    fn advance(store: &mut [u32], second: u32) -> Result<(), Refusal>;
    /// What stood at a second. `rows` (at least 3 D words) gets tag, reading and since of each row, which is the second
    /// of the condition's last set or new reading; `list` (at least B words) gets the numbers of the blocks read. Words
    /// after those keep their contents.
    fn look_back(store: &[u32], second: u32, rows: &mut [u32], list: &mut [u32]) -> Result<Answer, Refusal>;
    /// What stood at some second from a first to a last, both included. `rows` (at least 3 D words) gets each tag that
    /// stood then, in ascending order, with reading and since of its latest standing there; words after those keep
    /// their contents. Answers the number of rows.
    fn window(store: &[u32], first: u32, last: u32, rows: &mut [u32]) -> Result<u32, Refusal>;
}
