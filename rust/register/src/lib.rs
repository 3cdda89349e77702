//! The look-back register of a rope tension monitor, proved, for programs in Rust.
//!
//! A register keeps *conditions* (a tag with a reading: a tension outside its band, a sheave off, a gauge in doubt) as
//! they are set, cleared and given new readings. A look-back tells what stood at any past second and since when, and
//! lists at most twice as many blocks as were open then. A window tells what stood at some second of a span. The code
//! behind this crate, `libregister.a`, is written in Rattle, and a checker has proved that each call does what its
//! definition says on whatever words it is lent. This wrapper is not proved: it passes slices to that code and gives
//! its answers Rust's types.
//!
//! Everything lives in 32-bit words that the caller lends ([`Register`]; [`Reader`] if they are lent to be read only)
//! or, with the feature `alloc`, in a register's own (`OwnedRegister`). Document 01's printed case, and a new reading
//! after it:
//!
//! ```
//! use register::{Refusal, Register, Row, Settings};
//!
//! // 4 records a block, a block closes with fewer than 2 standing, 8 blocks, 16 tags
//! let settings = Settings::new(4, 2, 8, 16)?;
//! let mut store = vec![0; settings.words()];
//! let mut register = Register::start(&mut store, settings)?;
//! for (second, tag, reading) in [(1, 1, 25), (2, 2, -25), (3, 3, 5), (4, 4, 140), (5, 5, 0)] {
//!     register.set(second, tag, reading)?;
//! }
//! for (second, tag) in [(6, 2), (7, 3), (8, 1)] {
//!     register.clear(second, tag)?;
//! }
//!
//! let (mut rows, mut list) = (vec![0; settings.row_words()], vec![0; settings.list_words()]);
//! let told = register.look_back(7, &mut rows, &mut list)?;
//! let stood = [(5, 0, 5), (1, 25, 1), (4, 140, 4)].map(|(tag, reading, since)| Row { tag, reading, since });
//! assert!(told.rows().eq(stood));
//! assert_eq!(told.blocks(), [2, 1]);
//! assert_eq!(register.look_back(9, &mut rows, &mut list), Err(Refusal::Late));
//!
//! register.update(9, 4, 150)?;
//! let told = register.look_back(9, &mut rows, &mut list)?;
//! assert!(told.rows().eq([Row { tag: 5, reading: 0, since: 5 }, Row { tag: 4, reading: 150, since: 9 }]));
//!
//! // a closure from 6 to 8: whatever stood in it, by tag, as it stood last
//! let stood = [(1, 25, 1), (3, 5, 3), (4, 140, 4), (5, 0, 5)].map(|(tag, reading, since)| Row { tag, reading, since });
//! assert!(register.window(6, 8, &mut rows)?.rows().eq(stood));
//! # Ok::<(), Refusal>(())
//! ```
//!
//! # A journal
//!
//! A store can be rebuilt from a journal of the calls that made it: [`Entry`], [`Register::rebuild`]. The repository's
//! `examples/` has a program that so loses no change that it has acknowledged, wherever it is stopped.
//!
//! # Versions
//!
//! A store belongs to one version of the library; only 0.3 and 0.4 have the same stores, and 0.4 adds
//! [windows](Window). Before 0.3.0 a record had no word for since: a store of such a version is shorter, and its records
//! lie elsewhere, but its head has the same mark. In its own length it is refused with [`Refusal::ShortStore`]; with
//! words to spare it may be taken for one of this version, and is misread then. A library before 0.3.0 takes a store of
//! this version for its own: no refusal need tell, it misreads it, and a change spoils it.
//!
//! A store is carried over by its whole journal, from the first start on, which is the same in all versions (a copy of
//! the store with the rest of the journal will not do). Leave out the entries that were refused then: a start that
//! found its store too short might now be accepted. Lend the words that the largest start left needs now, and
//! [rebuild](Register::rebuild): both numbers of the [`Tally`] must be that of the entries left, else it did not work.
//! The repository's README.md, "Versions", has more, also for those who have no whole journal.
//!
//! A [`Row`] has a third word, `since`, from 0.3.0 on; so has a row in the words that [`calls::look_back`] fills.
//!
//! # The archive
//!
//! The build script takes the archive that the environment variable `REGISTER_ARCHIVE` names, else it runs
//! `tools/archive` of the repository. The crate needs no standard library and no other crate.
//!
//! # Threads
//!
//! There is no hidden state: different stores have nothing to do with one another, and Rust's borrows give the rule for
//! one store: look-backs and windows side by side, or one change. A look-back takes up to some 55 bytes of stack for
//! each block of the settings on damaged words, 0.3 MB for 4,096 blocks; a window some 17 KB; the other calls take less
//! than 1 KB.
#![no_std]

#[cfg(feature = "alloc")]
extern crate alloc;

pub mod calls;
mod journal;
mod look_back;
#[cfg(feature = "alloc")]
mod owned;
mod reader;
mod refusal;
mod register;
mod row;
mod settings;
mod window;

pub use journal::{Entries, Entry, Tally};
pub use look_back::{Counts, LookBack};
#[cfg(feature = "alloc")]
pub use owned::OwnedRegister;
pub use reader::Reader;
pub use refusal::Refusal;
pub use register::Register;
pub use row::{Row, Rows};
pub use settings::Settings;
pub use window::Window;

/// An end not yet known, and no second: the largest word. Seconds are 0 to `OPEN - 1`.
pub const OPEN: u32 = u32::MAX;
